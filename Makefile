# `make demo` shows a save, a power cut, a short save and what comes after each; `make test` is the gate; `make fuzz
# CALLS=..` runs the library beside the independent model; `make bench` measures the two; `make mutants` asks the
# statements of wrong boxes.
.PHONY: demo test fuzz bench library mutants

CALLS ?= 10000000
SEED ?= 1

demo:
	@echo "proving and building replay, some minutes the first time"
	@tests/program replay
	@demo/run

test:
	.ci/run

# the library is proved as the crate capi and as capi_c, which has its exports, and stands as target/libcapi.a
library:
	@tests/library target/libcapi.a

fuzz: library
	LIB=target/libcapi.a tests/fuzz/run $(CALLS) $(SEED)

bench: library
	@LIB=target/libcapi.a bench/run

# about two minutes for each, one after the other; not part of the gate
mutants:
	@cd crates/answers && rt check >/dev/null
	@tests/mutants/run $(NAMES)
