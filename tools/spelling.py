#!/usr/bin/env python3
"""Turns the repository's own names to today's spelling, once, after /opt/rattle/port/port.py.

usage: tools/spelling.py            at the top of the repository: crates/ and crates.txt, in place
       tools/spelling.py --print    prints the map of names, old and new, and changes nothing

Definitions, lemmas, fields and variables of specs/ and proofs/ were written `diskIn` or `disk-in`; words are in snake case
now. Types were `WorksOn` but for a few `Works-on`, and are in camel case. The library's own names keep their dashes, and so
do functions of src/, exports, strings and comments (but for what stands in backquotes there). Where two names would fall
together, the definition keeps the plain word; a lemma gets `_lem` behind it and a statement's field `_law`. The crate `log`
is named `log_lines`, since the kit has a library `log`.
"""
import collections
import glob
import os
import re
import sys

CRATE, CRATE_NOW = "log", "log_lines"
TOKEN = re.compile(r"(?<![\w'′])[^\W\d][\w'′]*(?:-[\w'′]+)*")
LOWER_NEEDS = re.compile(r"-|′|[a-z0-9][A-Z]")
PATH = re.compile(r"(?<![\w'′.])(?:Rattle|mathlib|native|lib|borrow|Prim)(?:\.[\w'-]+)+(?=\.\{|\s+as\b|\s*$)")
TOP = re.compile(r"^(?:abbrev |unfoldable |pub )*([^\W\d][\w'′]*(?:-[\w'′]+)*)\s*:(?!:)")
INNER = re.compile(r"^\s+(?:abbrev |unfoldable |pub )*([^\W\d][\w'′]*(?:-[\w'′]+)*)\s*:(?!:)")
IMPORT = re.compile(r"^\s*(?:pub )?use ([\w.'-]+?)\.\{([^}]*)\}", re.M)
# in a library, and imported here beside the repository's own
BESIDE = {"takeAt": "take_at_of"}


def read(path):
    with open(path, encoding="utf-8") as file:
        return file.read()


def write(path, text):
    with open(path, "w", encoding="utf-8") as file:
        file.write(text)


def bare(text):
    return re.sub(r"(^|\s)--\s.*", "", text, flags=re.M)


def snake(name):
    name = name.replace("-", "_").replace("′", "'")
    if name[0].islower():
        return re.sub(r"(?<=[a-z0-9])([A-Z]+)", lambda m: "_" + m.group(1).lower(), name)
    return name


def camel(name):
    return "".join(part[0].upper() + part[1:] for part in name.split("-"))


def names():
    """The map of names, from what the files declare, import and use."""
    kinds = collections.defaultdict(set)
    library, used, functions = set(), set(), set()
    for path in glob.glob("crates/**/*.antt", recursive=True):
        if path.endswith("/Proof.antt"):
            continue
        text = bare(read(path))
        for m in IMPORT.finditer(text):
            if not re.match(r"Rattle\.(?!std\b|core\b)", m.group(1)):
                library.update(TOKEN.findall(m.group(2)))
        used.update(TOKEN.findall(re.sub(r"^\s*(?:pub )?use [\w.'-]+", "", text, flags=re.M)))
        specs = "/specs/" in path
        for line in text.split("\n"):
            m = TOP.match(line)
            if m:
                kinds[m.group(1)].add("definition" if specs else "lemma")
            m = INNER.match(line)
            if m:
                kinds[m.group(1)].add("field" if specs else "lemma")
    for path in glob.glob("crates/**/*.rt", recursive=True):
        functions.update(re.findall(r"\bfn (\w+)", read(path)))

    turned = {}
    groups = collections.defaultdict(set)
    for name in used:
        if name[0].islower():
            groups[snake(name)].add(name)
        elif "-" in name and name not in library:
            turned[name] = camel(name)
    for plain, group in groups.items():
        own = sorted(n for n in group if n not in library and (kinds[n] or LOWER_NEEDS.search(n)))
        if not any(LOWER_NEEDS.search(n) for n in own):
            continue
        declared = [n for n in own if kinds[n]]
        # who keeps the plain word: a definition, in camel case first; else one in snake case; else one in camel case
        first = sorted(
            declared or own,
            key=lambda n: ("definition" not in kinds[n], "-" in n, n == plain and "definition" not in kinds[n], n),
        )[0]
        if not any("definition" in kinds[n] for n in declared) and plain in declared:
            first = plain
        for n in own:
            if n in BESIDE:
                turned[n] = BESIDE[n]
            elif n == first:
                turned[n] = plain
            elif n in declared:
                turned[n] = plain + ("_law" if "field" in kinds[n] else "_lem")
            else:
                turned[n] = plain + "_here" if first in declared else plain
    for n in list(turned):
        if turned[n] == n or n in library:
            del turned[n]
    return turned, kinds, functions, used | library


def turn(text, turned):
    return TOKEN.sub(lambda m: turned.get(m.group(0), m.group(0)), text)


def turn_code(line, turned):
    """A line without its comment: paths of modules stay."""
    out, at = [], 0
    for m in PATH.finditer(line):
        out.append(turn(line[at : m.start()], turned))
        out.append(m.group(0))
        at = m.end()
    out.append(turn(line[at:], turned))
    return "".join(out)


def turn_comment(text, turned):
    return re.sub(r"`[^`]*`", lambda m: turn(m.group(0), turned), text)


def turn_antt(text, turned):
    lines = []
    for line in text.split("\n"):
        m = re.search(r"(^|\s)--\s", line)
        cut = m.start() if m else len(line)
        lines.append(turn_code(line[:cut], turned) + turn_comment(line[cut:], turned))
    return "\n".join(lines)


def turn_rt(text, turned):
    lines = []
    for line in text.split("\n"):
        m = re.search(r"(^|\s)//", line)
        cut = m.start() if m else len(line)
        code = re.sub(r'"(?:[^"\\]|\\.)*"|[^"]+', lambda m: m.group(0) if m.group(0)[0] == '"' else turn_code(m.group(0), turned), line[:cut])
        lines.append(code + turn_comment(line[cut:], turned))
    return "\n".join(lines)


def main():
    turned, kinds, functions, used = names()
    if "--print" in sys.argv:
        for n in sorted(turned):
            print(n, turned[n], ",".join(sorted(kinds[n])))
        return
    # in Proof.antt only what is declared elsewhere; in src/ only names that no function there has
    declared = {n: t for n, t in turned.items() if kinds[n]}
    ghost = {n: t for n, t in turned.items() if LOWER_NEEDS.search(n)}
    for path in glob.glob("crates/**/*.antt", recursive=True):
        text = read(path)
        write(path, turn_antt(text, declared if path.endswith("/Proof.antt") else turned))
    for path in glob.glob("crates/**/*.rt", recursive=True):
        write(path, turn_rt(read(path), ghost))
    os.rename("crates/" + CRATE, "crates/" + CRATE_NOW)
    write("crates.txt", re.sub(rf"\b{CRATE}\b(?=[ :\n])", CRATE_NOW, read("crates.txt")))
    for path in glob.glob("crates/**/*.antt", recursive=True):
        write(path, re.sub(rf"\bRattle\.{CRATE}\.", f"Rattle.{CRATE_NOW}.", read(path)))
    for path in glob.glob("crates/**/*.rt", recursive=True):
        text = re.sub(rf"\bRattle\.{CRATE}\.", f"Rattle.{CRATE_NOW}.", read(path))
        write(path, re.sub(rf"(?m)\b{CRATE}::(?=\w)", f"{CRATE_NOW}::", text))


if __name__ == "__main__":
    main()
