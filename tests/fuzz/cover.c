#include "cover.h"

#include <stdio.h>

#include "cover_blocks.h"
#include "rows.h"

static struct rows rows;

static void row(const char *group, const char *name, bool met) { rows_count(&rows, group, name, met); }

/* ---- the end of an execution ---- */

struct ending { bool is; uint8_t ic, st1, st2; enum stage stage; const struct execution *x; unsigned left; };

static struct ending ending_of(const struct moment *t)
{
    struct ending e = { false, 0, 0, 0, STAGES, &t->before->execution, t->before->fifo.count };
    if (t->before->phase != EXECUTING || t->after->phase != ANSWERING || t->before->execution.command == SENSE_DRIVE)
        return e;
    e.is = true;
    e.ic = t->after->result[0] & 0xC0;
    e.st1 = t->after->result[1];
    e.st2 = t->after->result[2];
    e.stage = e.x->stage;
    return e;
}

static bool is(const struct ending *e, enum command c, uint8_t ic, uint8_t st1)
{
    return e->is && e->x->command == c && e->ic == ic && e->st1 == st1;
}

static bool at_eot(const struct execution *x) { return x->id.r == x->eot; }

static bool from_host(enum command c) { return c == WRITE_DATA || c == WRITE_DELETED || c == FORMAT; }

static bool other_kind(const struct execution *x)
{
    return (x->mark == 2 || x->mark == 4) != (x->command == READ_DELETED);
}

/* 02 2026-02: a byte was missing in a write, or a read found the FIFO full; the sector in hand is run to its end */
static bool late(const struct execution *x) { return x->st1 != 0; }

/* late in the last sector of side 0, where MT would turn */
static bool late_at_turn(const struct execution *x) { return late(x) && at_eot(x) && x->mt && x->side == 0; }

/* an image emptied or changed under a command, and not what the stage itself would end with */
static bool emptied(const struct ending *e, enum command c)
{
    return is(e, c, 0x40, 0x01) && e->stage != FIRST_TESTS && e->stage != SEARCHING && e->stage != TURN_TESTS;
}

static void search_rows(const char *g, const struct ending *e, enum command c)
{
    bool none = is(e, c, 0x40, 0x01) && e->stage == SEARCHING && (e->st2 & 1) == 0;
    bool other = is(e, c, 0x40, 0x04) && e->stage == SEARCHING;
    row(g, "01 first tests", is(e, c, 0x40, 0x01) && e->stage == FIRST_TESTS);
    row(g, "01 turn to a side not there", is(e, c, 0x40, 0x01) && e->stage == TURN_TESTS);
    row(g, "01 no ID by the second pass", none);
    row(g, "04 not found, C right", other && (e->st2 & 0x12) == 0);
    row(g, "04 10 another C", other && (e->st2 & 0x12) == 0x10);
    row(g, "04 02 C FF", other && (e->st2 & 0x12) == 0x02);
    row(g, "04 12 both", other && (e->st2 & 0x12) == 0x12);
    row(g, "01 emptied or changed later", emptied(e, c));
}

static void next_rows(const char *g, const struct ending *e, enum command c)
{
    bool normal = is(e, c, 0x00, 0x00) && e->x->tc;
    bool eot = is(e, c, 0x40, 0x80);
    row(g, "00 TC below EOT", normal && !at_eot(e->x));
    row(g, "00 TC at EOT", normal && at_eot(e->x) && !e->x->mt);
    row(g, "00 TC at EOT, MT, side 0", normal && at_eot(e->x) && e->x->mt && e->x->side == 0);
    row(g, "00 TC at EOT, MT, side 1", normal && at_eot(e->x) && e->x->mt && e->x->side == 1);
    row(g, "80 EOT without MT", eot && !e->x->mt);
    row(g, "80 EOT with MT, side 1", eot && e->x->mt);
}

static void overrun_rows(const char *g, const struct ending *e, enum command c)
{
    bool good = is(e, c, 0x40, 0x10) && late(e->x), broken = is(e, c, 0x40, 0x30);
    row(g, "10 overrun", good && e->st2 == 0);
    row(g, "10 overrun at EOT", good && at_eot(e->x) && !e->x->mt);
    row(g, "10 overrun at EOT with MT, side 0", good && late_at_turn(e->x));
    row(g, "10 40 overrun, other kind", good && e->st2 == 0x40 && other_kind(e->x));
    row(g, "30 20 overrun, broken", broken && e->st2 == 0x20);
    row(g, "30 60 overrun, broken of the other kind", broken && e->st2 == 0x60 && other_kind(e->x));
    row(g, "11 emptied after an overrun", is(e, c, 0x40, 0x11));
}

static void read_rows(const char *g, const struct ending *e, enum command c)
{
    search_rows(g, e, c);
    next_rows(g, e, c);
    row(g, "00 40 other kind", is(e, c, 0x00, 0x00) && e->st2 == 0x40 && e->stage == DRAINING);
    row(g, "00 40 other kind before TC", is(e, c, 0x00, 0x00) && e->st2 == 0x40 && e->stage == DRAINING && e->x->tc);
    row(g, "80 40 skipped at EOT", is(e, c, 0x40, 0x80) && e->stage == SEARCHING);
    row(g, "00 40 skipped, then TC", is(e, c, 0x00, 0x00) && e->st2 == 0x40 && e->x->sk);
    row(g, "01 01 mark 5", is(e, c, 0x40, 0x01) && (e->st2 & 1) != 0);
    row(g, "20 20 broken", is(e, c, 0x40, 0x20) && e->st2 == 0x20);
    row(g, "20 60 broken of the other kind", is(e, c, 0x40, 0x20) && e->st2 == 0x60);
    row(g, "20 20 broken, after TC", is(e, c, 0x40, 0x20) && e->x->tc);
    row(g, "10 the 64th look", is(e, c, 0x40, 0x10) && !late(e->x));
    overrun_rows(g, e, c);
}

static void write_rows(const char *g, const struct ending *e, enum command c)
{
    search_rows(g, e, c);
    next_rows(g, e, c);
    row(g, "80 EOT, TC with bytes left", is(e, c, 0x40, 0x80) && e->x->tc && e->left > 0);
    row(g, "02 protected", is(e, c, 0x40, 0x02));
    row(g, "10 the 64th wait", is(e, c, 0x40, 0x10) && e->stage == AWAITING);
    row(g, "10 a byte missing", is(e, c, 0x40, 0x10) && late(e->x));
    row(g, "10 a byte missing at EOT", is(e, c, 0x40, 0x10) && late(e->x) && at_eot(e->x) && !e->x->mt);
    row(g, "10 a byte missing at EOT with MT, side 0", is(e, c, 0x40, 0x10) && late_at_turn(e->x));
    row(g, "11 emptied after a missing byte", is(e, c, 0x40, 0x11));
}

static void format_rows(const struct ending *e, uint8_t head)
{
    const char *g = "Format";
    const struct execution *x = e->x;
    bool normal = is(e, FORMAT, 0, 0), wrong = is(e, FORMAT, 0x40, 0x04);
    row(g, "00 whole track", normal && x->sc == x->header[SLOTS]);
    row(g, "00 SC below S", normal && x->sc < x->header[SLOTS]);
    row(g, "01 first tests", is(e, FORMAT, 0x40, 0x01) && e->stage == FIRST_TESTS);
    row(g, "01 emptied or changed later", emptied(e, FORMAT));
    row(g, "02 protected", is(e, FORMAT, 0x40, 0x02));
    row(g, "04 SC 0", wrong && x->sc == 0);
    row(g, "head 81 in the result", e->is && x->command == FORMAT && head == LAST_HEAD);
    row(g, "drive 2 or 3: head 0", e->is && x->command == FORMAT && x->drive > 1);
    row(g, "04 N or SC above S", wrong && x->sc != 0);
    row(g, "10 the 64th wait", is(e, FORMAT, 0x40, 0x10) && e->stage == AWAITING);
    row(g, "10 a byte missing in C H R N", is(e, FORMAT, 0x40, 0x10) && e->stage == FORMATTING_ID);
}

static void read_id_rows(const struct ending *e)
{
    const char *g = "Read ID";
    row(g, "00 found", is(e, READ_ID, 0, 0));
    row(g, "00 found at a later slot", is(e, READ_ID, 0, 0) && e->x->slot > 0);
    row(g, "01 first tests", is(e, READ_ID, 0x40, 0x01) && e->stage == FIRST_TESTS);
    row(g, "01 none, or emptied", is(e, READ_ID, 0x40, 0x01) && e->stage == SEARCHING);
}

/* ---- what a tick moves ---- */

static bool ticked(const struct moment *t) { return t->event->call == TICK || t->event->call == TICKS; }

static bool left_stage(const struct moment *t, enum stage s)
{
    return ticked(t) && t->before->phase == EXECUTING && t->before->execution.stage == s &&
           (t->after->phase != EXECUTING || t->after->execution.stage != s);
}

static void sector_rows(const struct moment *t, const struct ending *e)
{
    static unsigned waited, looked; /* at the sectors before this one */
    const char *g = "Sectors";
    const struct execution *x = &t->before->execution, *y = &t->after->execution;
    if (x->stage == FIRST_TESTS)
        waited = looked = 0;
    bool dma = !(t->before->specify[1] & 1);
    bool failed = e->is && e->st1 != 0 && e->st1 != 0x80;
    bool read = left_stage(t, READING) && !failed && !late(y), written = left_stage(t, WRITING) && !failed;
    bool goes_on = t->after->phase == EXECUTING;
    row(g, "read by DMA", read && dma);
    row(g, "read by non-DMA", read && !dma);
    row(g, "written by DMA", written && dma);
    row(g, "written by non-DMA", written && !dma);
    row(g, "written over mark 5, or other kinds", left_stage(t, AWAITING) && !failed && x->command != FORMAT);
    row(g, "filled up with zeros after TC",
        ticked(t) && x->stage == WRITING && x->tc && t->before->fifo.count == 0 && y->moved > x->moved);
    row(g, "begun with bytes left after TC", written && goes_on && x->tc);
    row(g, "begun after 63 waits", left_stage(t, AWAITING) && !failed && x->wait == 63);
    row(g, "begun after waits at two sectors", left_stage(t, AWAITING) && !failed && waited + x->wait > 64);
    row(g, "drained after 60 looks or more", left_stage(t, DRAINING) && !failed && x->wait >= 60);
    row(g, "drained after looks at two sectors", left_stage(t, DRAINING) && !failed && looked + x->wait > 64);
    row(g, "formatted", left_stage(t, FILLING) && !failed);
    row(g, "cleared after SC", ticked(t) && t->before->phase == EXECUTING && x->stage == CLEARING && !failed);
    row(g, "skipped", left_stage(t, SEARCHING) == false && ticked(t) && t->before->phase == EXECUTING &&
                          x->stage == SEARCHING && goes_on && y->id.r != x->id.r);
    if (left_stage(t, AWAITING))
        waited += x->wait;
    if (left_stage(t, DRAINING))
        looked += x->wait;
    row(g, "MT turns", goes_on && y->stage == TURN_TESTS && x->stage != TURN_TESTS);
    row(g, "MT turns of a skip", goes_on && y->stage == TURN_TESTS && x->stage == SEARCHING);
    row(g, "R from FF to 00", goes_on && t->before->phase == EXECUTING && x->id.r == 0xFF && y->id.r == 0 && !e->is);
    row(g, "search begun past slot 0",
        goes_on && y->stage == SEARCHING && x->stage != SEARCHING && x->stage != FIRST_TESTS && y->slot > 0);
    row(g, "a byte from slot 1 or later", ticked(t) && x->stage == READING && y->moved > x->moved && x->slot > 0);
}

/* 02 2026-02, besides the rows of the four commands */
static void late_rows(const struct moment *t, const struct ending *e)
{
    const char *g = "Late hosts";
    const struct execution *x = &t->before->execution, *y = &t->after->execution;
    bool dma = !(t->before->specify[1] & 1), broken = x->mark == 3 || x->mark == 4;
    bool goes_on = t->before->phase == EXECUTING && t->after->phase == EXECUTING;
    bool begins = goes_on && !late(x) && late(y), missing = begins && x->stage == WRITING;
    bool zeros = left_stage(t, WRITING) && late(x) && e->st1 == 0x10;
    bool run_on = left_stage(t, READING) && late(x) && goes_on;
    bool refused = t->before->phase == EXECUTING && late(x) && (t->word & 0xFF00) != 0;
    row(g, "a byte missing, FIFO off", missing && t->before->efifo);
    row(g, "a byte missing, FIFO on", missing && !t->before->efifo);
    row(g, "only the last byte missing", missing && y->moved == 128u << y->header[SIZE_N]);
    row(g, "zeros up to the good mark, DMA", zeros && dma);
    row(g, "zeros up to the good mark, non-DMA", zeros && !dma);
    row(g, "an overrun, FIFO off", begins && x->stage == READING && t->before->efifo);
    row(g, "an overrun, FIFO on", begins && x->stage == READING && !t->before->efifo);
    row(g, "only the last byte lost", begins && y->stage == DRAINING);
    row(g, "run to the sector's end, DMA", run_on && dma);
    row(g, "run to the sector's end, non-DMA", run_on && !dma);
    row(g, "an overrun after a skip, ST2 40", left_stage(t, DRAINING) && late(x) && e->st2 == 0x40 && !other_kind(x));
    row(g, "emptied after an overrun, ST2 40", e->is && e->st1 == 0x11 && e->st2 == 0x40);
    row(g, "a byte refused, write", refused && t->event->call == DMA_WRITE && from_host(x->command));
    row(g, "a byte refused, read", refused && t->event->call == DMA_READ && !from_host(x->command));
    row(g, "a byte refused, non-DMA", refused && t->event->a == 5 && !dma);
    row(g, "in time, the 64th look at a broken sector",
        left_stage(t, DRAINING) && e->st1 == 0x10 && !late(x) && broken);
}

static void request_rows(const struct moment *t)
{
    const char *g = "Request";
    const struct model *a = t->before, *b = t->after;
    bool goes_on = a->phase == EXECUTING && b->phase == EXECUTING;
    bool on = goes_on && !a->fifo.asks && b->fifo.asks;
    bool read = a->execution.stage == READING;
    bool last = read && b->execution.stage == DRAINING;
    row(g, "to host, FIFO off", on && read && a->efifo);
    row(g, "to host, last byte of a sector", on && last && !a->efifo);
    static const char *to[16] = { "to host, FIFOTHR 0", "to host, FIFOTHR 1", "to host, FIFOTHR 2", "to host, FIFOTHR 3",
        "to host, FIFOTHR 4", "to host, FIFOTHR 5", "to host, FIFOTHR 6", "to host, FIFOTHR 7", "to host, FIFOTHR 8",
        "to host, FIFOTHR 9", "to host, FIFOTHR 10", "to host, FIFOTHR 11", "to host, FIFOTHR 12",
        "to host, FIFOTHR 13", "to host, FIFOTHR 14", "to host, FIFOTHR 15" };
    static const char *from[16] = { "again from host, FIFOTHR 0", "again from host, FIFOTHR 1",
        "again from host, FIFOTHR 2", "again from host, FIFOTHR 3", "again from host, FIFOTHR 4",
        "again from host, FIFOTHR 5", "again from host, FIFOTHR 6", "again from host, FIFOTHR 7",
        "again from host, FIFOTHR 8", "again from host, FIFOTHR 9", "again from host, FIFOTHR 10",
        "again from host, FIFOTHR 11", "again from host, FIFOTHR 12", "again from host, FIFOTHR 13",
        "again from host, FIFOTHR 14", "again from host, FIFOTHR 15" };
    bool again = on && a->execution.stage == WRITING;
    for (unsigned i = 0; i < 16; i++)
        row(g, to[i], on && read && !last && !a->efifo && a->fifothr == i);
    for (unsigned i = 0; i < 16; i++)
        row(g, from[i], again && !a->efifo && a->fifothr == i);
    row(g, "again from host, FIFO off", again && a->efifo);
    row(g, "off at full", goes_on && a->fifo.asks && !b->fifo.asks && b->fifo.count == (b->efifo ? 1 : 16));
    row(g, "off by TC of a read", goes_on && t->event->call == DMA_READ && !a->execution.tc && b->execution.tc);
    row(g, "off by TC of a write", goes_on && t->event->call == DMA_WRITE && !a->execution.tc && b->execution.tc);
    row(g, "TC in Format", goes_on && t->event->call == DMA_WRITE && t->event->b && a->execution.command == FORMAT &&
                               b->fifo.count > a->fifo.count);
    row(g, "hidden by the gate", goes_on && a->fifo.asks && !(b->dor & 0x08));
}

/* ---- stepping and the other commands ---- */

static void stepping_rows(const struct moment *t)
{
    const char *g = "Stepping";
    unsigned reports = 0;
    bool seek = false, done0 = false, lost = false, far = false, stop0 = false, stop81 = false, still = false;
    bool cleared = false;
    for (unsigned d = 0; d < DRIVES; d++) {
        const struct drive *a = &t->before->drives[d], *b = &t->after->drives[d];
        bool done = ticked(t) && a->stepping && !b->stepping;
        bool stepped = ticked(t) && a->stepping && a->steps != b->steps;
        reports += done;
        seek = seek || (done && !a->recalibrating);
        still = still || (done && a->steps == 0);
        done0 = done0 || (done && a->recalibrating && b->report == (0x20 | d));
        lost = lost || (done && d < 2 && b->report == (0x70 | d));
        far = far || (done && d > 1 && b->report == (0x70 | d));
        stop0 = stop0 || (stepped && d < 2 && !a->inward && a->head == 0);
        stop81 = stop81 || (stepped && d < 2 && a->inward && a->head == LAST_HEAD);
        cleared = cleared || (a->changed && !b->changed);
    }
    row(g, "Seek done", seek);
    row(g, "no steps due", still);
    row(g, "Recalibrate done, 20", done0);
    row(g, "Recalibrate, head not at 0, 70", lost);
    row(g, "Recalibrate of drive 2 or 3, 70", far);
    row(g, "several drives done in one tick", reports > 1);
    row(g, "stopped at 0", stop0);
    row(g, "stopped at 81", stop81);
    row(g, "a step clears the change flag", cleared);
}

static bool completes(const struct moment *t, enum command c)
{
    static const uint8_t codes[COMMANDS] = { [RECALIBRATE] = 0x07, [SENSE_INTERRUPT] = 0x08, [SPECIFY] = 0x03,
                                             [SENSE_DRIVE] = 0x04, [SEEK] = 0x0F, [VERSION] = 0x10, [CONFIGURE] = 0x13 };
    bool in_turn = t->before->phase == IDLE || t->before->phase == GATHERING;
    return t->event->call == WRITE_PORT && t->event->a == 5 && (t->word & 0xFF00) == 0 && in_turn &&
           t->after->phase != GATHERING && t->after->command[0] == codes[c];
}

static bool says(const struct moment *t, uint8_t byte) { return t->after->phase == ANSWERING && t->after->result[0] == byte; }

static void command_rows(const struct moment *t)
{
    const char *g = "Commands";
    bool stepping = false, busy = false;
    for (unsigned d = 0; d < DRIVES; d++) {
        stepping = stepping || t->before->drives[d].stepping;
        busy = busy || t->before->drives[d].busy;
    }
    bool ended_drive = t->before->phase == EXECUTING && t->after->phase == ANSWERING &&
                       t->before->execution.command == SENSE_DRIVE;
    uint8_t st3 = t->after->result[0], code = t->after->command[0];
    bool took = t->event->call == WRITE_PORT && t->event->a == 5 && (t->word & 0xFF00) == 0;
    row(g, "Sense Interrupt of a reset", completes(t, SENSE_INTERRUPT) && (st3 & 0xC0) == 0xC0);
    row(g, "Sense Interrupt of a Seek", completes(t, SENSE_INTERRUPT) && (st3 & 0xF0) == 0x20);
    row(g, "Sense Interrupt with none: 80", completes(t, SENSE_INTERRUPT) && says(t, 0x80) && !busy);
    row(g, "Sense Interrupt while only stepping: 80", completes(t, SENSE_INTERRUPT) && says(t, 0x80) && stepping);
    row(g, "Sense Drive, protected", ended_drive && (st3 & 0x40));
    row(g, "Sense Drive, track 0", ended_drive && (st3 & 0x10));
    row(g, "Sense Drive, drive 2 or 3", ended_drive && (st3 & 2));
    row(g, "Specify", completes(t, SPECIFY) && t->after->phase == IDLE);
    row(g, "Configure", completes(t, CONFIGURE) && t->after->phase == IDLE);
    row(g, "Version", completes(t, VERSION) && says(t, 0x90));
    row(g, "unknown code: 80", took && t->before->phase == IDLE && says(t, 0x80) && !busy && code != 8);
    row(g, "80 while busy: a data command", took && busy && says(t, 0x80) && t->before->gathered == 8);
    row(g, "80 while busy: Version", completes(t, VERSION) && says(t, 0x80));
    row(g, "80: Seek of a busy drive", completes(t, SEEK) && says(t, 0x80));
    row(g, "80: Recalibrate of a busy drive", completes(t, RECALIBRATE) && says(t, 0x80));
    row(g, "Seek while another drive steps", completes(t, SEEK) && stepping && t->after->phase == IDLE);
    row(g, "Seek drops an older report", completes(t, SEEK) && t->after->phase == IDLE &&
                                             t->before->drives[t->after->command[1] & 3].report != 0);
}

static void register_rows(const struct moment *t)
{
    const char *g = "Registers and refusals";
    const struct model *a = t->before, *b = t->after;
    unsigned refusal = t->word >> 8 & 0xFF;
    enum call c = t->event->call;
    bool held = !(a->dor & 4), exec = a->phase == EXECUTING;
    bool dor = c == WRITE_PORT && t->event->a == 2, dsr = c == WRITE_PORT && t->event->a == 4 && (t->event->b & 0x80);
    bool released = dor && held && (b->dor & 4);
    bool steps = a->drives[0].stepping || a->drives[1].stepping;
    row(g, "refusal 1, read", refusal == 1 && c == READ_PORT);
    row(g, "refusal 1, write", refusal == 1 && c == WRITE_PORT);
    row(g, "refusal 2, read", refusal == 2 && c == READ_PORT);
    row(g, "refusal 2, write", refusal == 2 && c == WRITE_PORT);
    row(g, "refusal 2, held in reset", refusal == 2 && held);
    row(g, "refusal 2, non-DMA, no request", refusal == 2 && exec && (a->specify[1] & 1));
    row(g, "refusal 3, read", refusal == 3 && c == DMA_READ);
    row(g, "refusal 3, write", refusal == 3 && c == DMA_WRITE);
    row(g, "refusal 3, other direction", refusal == 3 && a->fifo.asks && (a->dor & 8) && !(a->specify[1] & 1));
    row(g, "refusal 3, gate off", refusal == 3 && a->fifo.asks && !(a->dor & 8) && !(a->specify[1] & 1));
    row(g, "refusal 5", refusal == 5);
    row(g, "power-on with a head at 81", c == POWER_ON && refusal == 0 && (t->event->a == 81 || t->event->b == 81));
    row(g, "refusal 6", refusal == 6);
    row(g, "reset by DOR in an execution", dor && exec && !(b->dor & 4));
    row(g, "reset by DSR in an execution", dsr && exec && !held);
    row(g, "reset by DOR while stepping", dor && steps && !(b->dor & 4));
    row(g, "reset by DSR while stepping", dsr && steps && !held);
    row(g, "DSR reset while held", dsr && held);
    row(g, "release with POLL 0", released && !a->poll);
    row(g, "release with POLL 1", released && a->poll);
    row(g, "release, head not at PCN", released && (a->drives[0].head != 0));
    row(g, "DIR on", c == READ_PORT && t->event->a == 7 && (t->word & 0x80));
    row(g, "DIR off", c == READ_PORT && t->event->a == 7 && !(t->word & 0x80));
    row(g, "DIR of drive 2 or 3, on", c == READ_PORT && t->event->a == 7 && (a->dor & 2) && (t->word & 0x80));
    row(g, "tick held in reset", ticked(t) && held);
    row(g, "result INT goes with the first byte", a->phase == ANSWERING && a->signals && a->taken == 0 && b->taken == 1);
}

static void msr_rows(const struct moment *t)
{
    static const struct { uint8_t value; const char *name; } values[8] = {
        { 0x80, "80" }, { 0x90, "90" }, { 0xD0, "D0" }, { 0x10, "10" },
        { 0xF0, "F0" }, { 0x70, "70" }, { 0xB0, "B0" }, { 0x30, "30" },
    };
    bool read = t->event->call == READ_PORT && t->event->a == 4;
    for (unsigned i = 0; i < 8; i++)
        row("MSR read", values[i].name, read && (t->word & 0xF0) == values[i].value);
    row("MSR read", "with busy drives", read && (t->word & 0x0F) != 0);
    row("MSR read", "00", read && (t->word & 0xFF) == 0);
}

/* ---- End: an execution is over within 2 x (S + 1) x (2S + B + 70) ticks if nobody else changes the image ---- */

static unsigned long lasted, too_long, ended_in_time;
static bool left_alone;

static unsigned long bound(const struct execution *x)
{
    unsigned long s = x->header[SLOTS], b = 128ul << x->header[SIZE_N];
    return 2 * (s + 1) * (2 * s + b + 70);
}

static void watch_end(const struct moment *t, const struct ending *e)
{
    if (t->before->phase != EXECUTING && t->after->phase == EXECUTING) {
        lasted = 0;
        left_alone = true;
    }
    if (t->before->phase != EXECUTING || !ticked(t))
        return;
    lasted++;
    bool in_time = e->x->stage == FIRST_TESTS ? lasted == 1 : lasted <= bound(e->x);
    too_long += left_alone && !in_time;
    ended_in_time += left_alone && e->is && in_time;
}

void cover_watch(const struct moment *t)
{
    if (t->made) {
        cover_block(t);
        return;
    }
    struct ending e = ending_of(t);
    rows.place = 0;
    watch_end(t, &e);
    read_rows("Read Data", &e, READ_DATA);
    read_rows("Read Deleted", &e, READ_DELETED);
    write_rows("Write Data", &e, WRITE_DATA);
    write_rows("Write Deleted", &e, WRITE_DELETED);
    format_rows(&e, t->after->result[3]);
    read_id_rows(&e);
    sector_rows(t, &e);
    late_rows(t, &e);
    request_rows(t);
    stepping_rows(t);
    command_rows(t);
    register_rows(t);
    msr_rows(t);
}

/* ---- what the host does besides calls; counted apart, since no moment shows it ---- */

static struct { const char *name; unsigned long hits; } deeds[] = {
    { "image swapped in an execution", 0 }, { "header byte changed in an execution", 0 },
    { "image byte changed in an execution", 0 }, { "motor off in an execution", 0 }, { "bel_ticks", 0 },
    { "bel_ticks of 0", 0 },
};

void cover_event(const struct world *w, const struct event *e)
{
    const struct model *m = &w->model;
    bool exec = m->phase == EXECUTING;
    cover_block_event(w, e);
    if (e->call == SWAP || e->call == POKE)
        left_alone = false;
    deeds[0].hits += e->call == SWAP && exec;
    deeds[1].hits += e->call == POKE && exec && e->n >= 3 && e->n < 8;
    deeds[2].hits += e->call == POKE && exec && e->n >= 8;
    deeds[3].hits += e->call == WRITE_PORT && e->a == 2 && exec && (m->dor & ~e->b & (0x10 << m->execution.drive));
    deeds[4].hits += e->call == TICKS && e->n > 0;
    deeds[5].hits += e->call == TICKS && e->n == 0;
}

unsigned cover_print(void)
{
    unsigned never = rows_print(&rows) + cover_blocks_print();
    printf("The host\n");
    for (unsigned i = 0; i < sizeof deeds / sizeof deeds[0]; i++) {
        printf("%10lu  %s%s\n", deeds[i].hits, deeds[i].name, deeds[i].hits == 0 ? "   NEVER MET" : "");
        never += deeds[i].hits == 0;
    }
    printf("End\n%10lu  over within 2 x (S + 1) x (2S + B + 70) ticks\n%10lu  ticks beyond it\n", ended_in_time, too_long);
    return never + (too_long > 0);
}
