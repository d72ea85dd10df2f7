#include "model.h"

#include <string.h>

enum { INT_LINE = 1 << 16, DRQ_LINE = 1 << 17 };
enum { GATE = 0x08, NOT_RESET = 0x04, DSR_RESET = 0x80 };
enum { REFUSED_PORT = 1, REFUSED_FIFO = 2, REFUSED_DMA = 3, REFUSED_HEAD = 5, REFUSED_DRIVE = 6 };

/* ---- registers and lines ---- */

static bool held_in_reset(const struct model *m) { return !(m->dor & NOT_RESET); }
static bool motor_on(const struct model *m, unsigned drive) { return m->dor >> (4 + drive) & 1; }
static bool dma_mode(const struct model *m) { return !(m->specify[1] & 1); }

static bool writes(enum command c) { return c == WRITE_DATA || c == WRITE_DELETED; }
static bool reads(enum command c) { return c == READ_DATA || c == READ_DELETED; }
static bool from_host(enum command c) { return writes(c) || c == FORMAT; }

uint8_t model_msr(const struct model *m)
{
    if (held_in_reset(m))
        return 0;
    uint8_t busy = 0;
    for (unsigned d = 0; d < DRIVES; d++)
        busy |= (uint8_t)(m->drives[d].busy << d);
    const struct execution *x = &m->execution;
    switch (m->phase) {
    case IDLE:
        return 0x80 | busy;
    case GATHERING:
        return 0x90 | busy;
    case ANSWERING:
        return 0xD0 | busy;
    case EXECUTING:
        break;
    }
    if (dma_mode(m) || x->stage == FIRST_TESTS || x->command == READ_ID)
        return 0x10 | busy;
    if (from_host(x->command))
        return (m->fifo.asks ? 0xB0 : 0x30) | busy;
    return (m->fifo.asks ? 0xF0 : 0x70) | busy;
}

static bool drq(const struct model *m) { return (m->dor & GATE) && dma_mode(m) && m->fifo.asks; }

static uint32_t lines(const struct model *m)
{
    if (!(m->dor & GATE))
        return 0;
    bool interrupt = (m->phase == ANSWERING && m->signals && m->taken == 0) || (!dma_mode(m) && m->fifo.asks);
    for (unsigned d = 0; d < DRIVES; d++)
        interrupt = interrupt || m->drives[d].report != 0;
    return (interrupt ? INT_LINE : 0) | (drq(m) ? DRQ_LINE : 0);
}

static uint32_t answer(const struct model *m, uint8_t value) { return value | lines(m); }
static uint32_t refuse(const struct model *m, uint32_t number) { return number << 8 | lines(m); }

/* ---- FIFO and request ---- */

static unsigned capacity(const struct model *m) { return m->efifo ? 1 : FIFO_SIZE; }

/* to host: the request goes on at this many bytes */
static unsigned read_threshold(const struct model *m)
{
    unsigned t = m->fifothr + 1u;
    return m->efifo || t == 16 ? 1 : 16 - t;
}

/* from host: once off, the request goes on again at this many bytes left */
static unsigned write_threshold(const struct model *m) { return m->efifo ? 0 : m->fifothr + 1u; }

static void fifo_clear(struct fifo *f) { memset(f, 0, sizeof *f); }

static void fifo_put(struct fifo *f, uint8_t byte)
{
    f->bytes[(f->first + f->count) % FIFO_SIZE] = byte;
    f->count++;
}

static uint8_t fifo_take(struct fifo *f)
{
    uint8_t byte = f->bytes[f->first];
    f->first = (f->first + 1) % FIFO_SIZE;
    f->count--;
    return byte;
}

static uint8_t host_takes(struct model *m)
{
    uint8_t byte = fifo_take(&m->fifo);
    if (m->fifo.count == 0)
        m->fifo.asks = false;
    return byte;
}

static void host_puts(struct model *m, uint8_t byte)
{
    fifo_put(&m->fifo, byte);
    if (m->fifo.count == capacity(m))
        m->fifo.asks = false;
}

static void disk_puts(struct model *m, uint8_t byte, bool last)
{
    fifo_put(&m->fifo, byte);
    if (last || m->fifo.count >= read_threshold(m))
        m->fifo.asks = true;
}

static uint8_t disk_takes(struct model *m)
{
    uint8_t byte = fifo_take(&m->fifo);
    if (!m->execution.tc && m->fifo.count <= write_threshold(m) && m->fifo.count < capacity(m))
        m->fifo.asks = true;
    return byte;
}

/* ---- image file ---- */

static size_t sector_size(const uint8_t *header) { return (size_t)128 << header[SIZE_N]; }
static size_t slot_size(const uint8_t *header) { return 5 + sector_size(header); }
size_t model_track_size(const uint8_t header[HEADER_BYTES]) { return 5 + header[SLOTS] * slot_size(header); }

static bool in_range(uint8_t value, uint8_t least, uint8_t most) { return value >= least && value <= most; }

bool model_image_good(struct image image)
{
    if (image.length < 8 || image.bytes[0] != 1 || image.bytes[1] != 0 || image.bytes[2] != HEADER_BYTES)
        return false;
    const uint8_t *header = image.bytes + 3;
    return in_range(header[CYLINDERS], 1, 82) && in_range(header[HEADS], 1, 2) && in_range(header[SLOTS], 1, 36) &&
           in_range(header[SIZE_N], 1, 3) && header[PROTECT] <= 1 &&
           image.length == 8 + (size_t)header[CYLINDERS] * header[HEADS] * model_track_size(header) + 3;
}

static bool mounted(const struct model *m, unsigned drive, struct image image)
{
    return drive < 2 && motor_on(m, drive) && model_image_good(image);
}

/* the slot in hand on the track under the head, on the side in use */
static uint8_t *slot_at(const struct model *m, struct image image)
{
    const struct execution *x = &m->execution;
    size_t track = (size_t)m->drives[x->drive].head * x->header[HEADS] + x->side;
    return image.bytes + 8 + track * model_track_size(x->header) + 5 + x->slot * slot_size(x->header);
}

/* marks above 5 count as 0 */
static uint8_t mark_of(const uint8_t *slot) { return slot[0] <= 5 ? slot[0] : 0; }
static bool is_deleted(uint8_t mark) { return mark == 2 || mark == 4; }
static bool is_broken(uint8_t mark) { return mark == 3 || mark == 4; }

/* ---- results ---- */

static void give_result(struct model *m, const uint8_t *bytes, uint8_t count, bool signals)
{
    m->phase = ANSWERING;
    memcpy(m->result, bytes, count);
    m->results = count;
    m->taken = 0;
    m->signals = signals;
}

static void give_byte(struct model *m, uint8_t byte) { give_result(m, &byte, 1, false); }
static void give_invalid(struct model *m) { give_byte(m, 0x80); }

/* every end of an execution but Sense Drive's: seven bytes, and the FIFO is emptied */
static void end(struct model *m, uint8_t ic, uint8_t st1, uint8_t st2, struct address a)
{
    const struct execution *x = &m->execution;
    uint8_t st0 = (uint8_t)(ic | x->side << 2 | x->drive);
    uint8_t bytes[7] = { st0, st1 | x->st1, st2 | x->st2, a.c, a.h, a.r, a.n };
    fifo_clear(&m->fifo);
    give_result(m, bytes, 7, true);
}

static struct address format_address(const struct model *m)
{
    const struct execution *x = &m->execution;
    return (struct address){ m->drives[x->drive].head, x->side, x->done, x->id.n };
}

/* an end that is not Next's and not normal */
static void fail(struct model *m, uint8_t st1, uint8_t st2)
{
    struct address a = m->execution.id;
    if (m->execution.command == FORMAT)
        a = format_address(m);
    if (m->execution.command == READ_ID)
        a = (struct address){ 0, 0, 0, 0 };
    end(m, 0x40, st1, st2, a);
}

/* ---- Next ---- */

static struct address next_address(const struct execution *x)
{
    struct address a = x->id;
    if (a.r != x->eot) {
        a.r++;
        return a;
    }
    a.r = 1;
    if (!x->mt || x->side == 1)
        a.c++;
    if (x->mt)
        a.h ^= 1;
    return a;
}

static void start_search(struct execution *x, uint8_t slot)
{
    x->stage = SEARCHING;
    x->slot = slot;
    x->passes = 0;
    x->met = x->other_c = x->bad_c = false;
}

static void next(struct model *m)
{
    struct execution *x = &m->execution;
    bool turns = x->mt && x->side == 0;
    if (x->tc && m->fifo.count == 0) {
        end(m, 0x00, 0, 0, next_address(x));
        return;
    }
    if (x->id.r == x->eot && !turns) {
        end(m, 0x40, 0x80, 0, next_address(x));
        return;
    }
    start_search(x, (x->slot + 1) % x->header[SLOTS]);
    if (x->id.r != x->eot) {
        x->id.r++;
        return;
    }
    x->stage = TURN_TESTS;
    x->side = 1;
    x->id.r = 1;
    x->id.h ^= 1;
}

/* ---- the ticks of an execution, one function for each stage ---- */

static void await_byte(struct execution *x)
{
    x->stage = AWAITING;
    x->wait = 0;
}

static bool has_track(const struct model *m)
{
    const struct execution *x = &m->execution;
    return m->drives[x->drive].head < x->header[CYLINDERS] && x->side < x->header[HEADS];
}

static void first_tests(struct model *m, struct image image)
{
    struct execution *x = &m->execution;
    if (!mounted(m, x->drive, image)) {
        fail(m, 0x01, 0);
        return;
    }
    memcpy(x->header, image.bytes + 3, HEADER_BYTES);
    if (!has_track(m)) {
        fail(m, 0x01, 0);
        return;
    }
    if (from_host(x->command) && x->header[PROTECT] == 1) {
        fail(m, 0x02, 0);
        return;
    }
    if (x->command == FORMAT && (x->id.n != x->header[SIZE_N] || x->sc == 0 || x->sc > x->header[SLOTS])) {
        fail(m, 0x04, 0);
        return;
    }
    if (from_host(x->command))
        m->fifo.asks = true;
    if (x->command == FORMAT)
        await_byte(x);
    else
        start_search(x, 0);
}

static void turn_tests(struct model *m)
{
    if (has_track(m))
        m->execution.stage = SEARCHING;
    else
        fail(m, 0x01, 0);
}

/* a look that is no match; the second at the last slot ends the search */
static void look_further(struct model *m)
{
    struct execution *x = &m->execution;
    if (x->slot + 1 == x->header[SLOTS])
        x->passes++;
    x->slot = (x->slot + 1) % x->header[SLOTS];
    if (x->passes < 2)
        return;
    if (!x->met)
        fail(m, 0x01, 0);
    else
        fail(m, 0x04, (x->other_c ? 0x10 : 0) | (x->bad_c ? 0x02 : 0));
}

static void read_matched(struct model *m, uint8_t mark)
{
    struct execution *x = &m->execution;
    if (mark == 5) {
        fail(m, 0x01, 0x01);
        return;
    }
    x->mark = mark;
    bool other_kind = is_deleted(mark) != (x->command == READ_DELETED);
    if (other_kind)
        x->st2 |= 0x40;
    if (other_kind && x->sk) {
        next(m);
        return;
    }
    x->stage = READING;
    x->moved = 0;
}

static void search(struct model *m, const uint8_t *slot)
{
    struct execution *x = &m->execution;
    uint8_t mark = mark_of(slot);
    struct address a = { slot[1], slot[2], slot[3], slot[4] };
    if (mark == 0) {
        look_further(m);
        return;
    }
    x->met = true;
    if (x->command == READ_ID) {
        end(m, 0x00, 0, 0, a);
        return;
    }
    bool same = a.c == x->id.c && a.h == x->id.h && a.r == x->id.r && a.n == x->id.n;
    if (!same || a.n != x->header[SIZE_N]) {
        if (a.c != x->id.c && a.c == 0xFF)
            x->bad_c = true;
        else if (a.c != x->id.c)
            x->other_c = true;
        look_further(m);
        return;
    }
    if (reads(x->command))
        read_matched(m, mark);
    else
        await_byte(x);
}

/* 02 2026-02: a missing byte in a write and a full FIFO in a read no longer end the command, but set ST1 10 and put
 * the request off for good. So the FIFO stays empty and TC cannot follow; the sector in hand is run to its end, and
 * the command ends with it: "The address stays that of the sector in hand". */
static bool is_late(const struct execution *x) { return x->st1 & 0x10; }

static void be_late(struct model *m)
{
    m->execution.st1 |= 0x10;
    fifo_clear(&m->fifo);
}

/* after TC, and once late, a byte has its tick and goes nowhere; so has the byte that finds no room */
static void read_byte(struct model *m, const uint8_t *slot)
{
    struct execution *x = &m->execution;
    bool last = x->moved + 1u == sector_size(x->header);
    if (!x->tc && !is_late(x)) {
        if (m->fifo.count == capacity(m))
            be_late(m);
        else
            disk_puts(m, slot[5 + x->moved], last);
    }
    x->moved++;
    if (last) {
        x->stage = DRAINING;
        x->wait = 0;
    }
}

static void drain(struct model *m)
{
    struct execution *x = &m->execution;
    if (m->fifo.count > 0) {
        if (++x->wait == LAST_WAIT)
            fail(m, 0x10, 0);
        return;
    }
    if (is_broken(x->mark))
        fail(m, 0x20, 0x20);
    else if (is_late(x))
        fail(m, 0, 0);
    else if (is_deleted(x->mark) != (x->command == READ_DELETED))
        end(m, 0x00, 0, 0, x->id);
    else
        next(m);
}

/* the tick that finds a byte stores the first mark and leaves the byte */
static void await(struct model *m, uint8_t *slot)
{
    struct execution *x = &m->execution;
    if (m->fifo.count == 0) {
        if (++x->wait == LAST_WAIT)
            fail(m, 0x10, 0);
        return;
    }
    x->moved = 0;
    if (x->command == FORMAT) {
        slot[0] = 0;
        x->stage = FORMATTING_ID;
    } else {
        slot[0] = x->command == WRITE_DATA ? 3 : 4;
        x->stage = WRITING;
    }
}

/* after TC, and from the tick on that misses a byte, the rest of the sector is zeros */
static void write_byte(struct model *m, uint8_t *slot)
{
    struct execution *x = &m->execution;
    if (x->moved == sector_size(x->header)) {
        slot[0] = x->command == WRITE_DATA ? 1 : 2;
        if (is_late(x))
            fail(m, 0, 0);
        else
            next(m);
        return;
    }
    if (m->fifo.count == 0 && !x->tc)
        be_late(m);
    slot[5 + x->moved] = m->fifo.count > 0 ? disk_takes(m) : 0;
    x->moved++;
}

static void format_id(struct model *m, uint8_t *slot)
{
    struct execution *x = &m->execution;
    if (m->fifo.count == 0) {
        fail(m, 0x10, 0);
        return;
    }
    slot[1 + x->moved] = disk_takes(m);
    x->moved++;
    if (x->moved == 4) {
        x->stage = FILLING;
        x->moved = 0;
    }
}

/* after a slot of a format: another one, the slots after SC, or the end */
static void format_on(struct model *m)
{
    struct execution *x = &m->execution;
    x->slot++;
    if (x->slot == x->header[SLOTS])
        end(m, 0x00, 0, 0, format_address(m));
    else if (x->done < x->sc)
        await_byte(x);
    else
        x->stage = CLEARING;
}

static void fill(struct model *m, uint8_t *slot)
{
    struct execution *x = &m->execution;
    if (x->moved < sector_size(x->header)) {
        slot[5 + x->moved] = x->fill;
        x->moved++;
        return;
    }
    slot[0] = 1;
    x->done++;
    format_on(m);
}

static void clear(struct model *m, uint8_t *slot)
{
    slot[0] = 0;
    format_on(m);
}

static bool as_met(const struct model *m, struct image image)
{
    const struct execution *x = &m->execution;
    return mounted(m, x->drive, image) && memcmp(image.bytes + 3, x->header, HEADER_BYTES) == 0;
}

static void sense_drive(struct model *m, struct image image)
{
    const struct execution *x = &m->execution;
    bool protect = mounted(m, x->drive, image) && image.bytes[3 + PROTECT] == 1;
    bool track0 = x->drive < 2 && m->drives[x->drive].head == 0;
    give_byte(m, (uint8_t)(0x28 | (protect ? 0x40 : 0) | (track0 ? 0x10 : 0) | x->side << 2 | x->drive));
}

static void execute(struct model *m, struct image image)
{
    struct execution *x = &m->execution;
    if (x->command == SENSE_DRIVE) {
        sense_drive(m, image);
        return;
    }
    if (x->stage == FIRST_TESTS) {
        first_tests(m, image);
        return;
    }
    if (!as_met(m, image)) {
        fail(m, 0x01, 0);
        return;
    }
    /* the turn's tests come before the side is known to be there */
    if (x->stage == TURN_TESTS) {
        turn_tests(m);
        return;
    }
    uint8_t *slot = slot_at(m, image);
    switch (x->stage) {
    case SEARCHING:
        search(m, slot);
        break;
    case READING:
        read_byte(m, slot);
        break;
    case DRAINING:
        drain(m);
        break;
    case AWAITING:
        await(m, slot);
        break;
    case WRITING:
        write_byte(m, slot);
        break;
    case FORMATTING_ID:
        format_id(m, slot);
        break;
    case FILLING:
        fill(m, slot);
        break;
    case CLEARING:
        clear(m, slot);
        break;
    default:
        break;
    }
}

/* ---- stepping ---- */

/* 62.5 x (16 - SRT), rounded up */
static uint16_t step_ticks(const struct model *m) { return (uint16_t)((125 * (16 - (m->specify[0] >> 4)) + 1) / 2); }

static void start_stepping(struct model *m, unsigned drive, uint8_t steps, bool inward, uint8_t target)
{
    struct drive *d = &m->drives[drive];
    d->busy = true;
    d->report = 0;
    d->stepping = true;
    d->recalibrating = false;
    d->steps = steps;
    d->inward = inward;
    d->target = target;
    d->countdown = step_ticks(m);
}

static void seek(struct model *m, unsigned drive, uint8_t ncn)
{
    uint8_t pcn = m->drives[drive].pcn;
    start_stepping(m, drive, ncn > pcn ? ncn - pcn : pcn - ncn, ncn > pcn, ncn);
}

static void recalibrate(struct model *m, unsigned drive)
{
    uint8_t head = m->drives[drive].head;
    start_stepping(m, drive, drive > 1 || head > 79 ? 79 : head, false, 0);
    m->drives[drive].recalibrating = true;
}

/* the heads of drives 2 and 3 stay at 0, where nothing asks for them */
static void step(struct model *m, unsigned drive, struct image image)
{
    struct drive *d = &m->drives[drive];
    if (mounted(m, drive, image))
        d->changed = false;
    if (drive > 1)
        return;
    if (d->inward && d->head < LAST_HEAD)
        d->head++;
    if (!d->inward && d->head > 0)
        d->head--;
}

static void step_tick(struct model *m, unsigned drive, struct image image)
{
    struct drive *d = &m->drives[drive];
    if (!d->stepping)
        return;
    if (d->steps > 0) {
        if (--d->countdown > 0)
            return;
        step(m, drive, image);
        d->countdown = step_ticks(m);
        if (--d->steps > 0)
            return;
    }
    d->stepping = false;
    d->pcn = d->target;
    bool lost = d->recalibrating && (drive > 1 || d->head != 0);
    d->report = (uint8_t)((lost ? 0x70 : 0x20) | drive);
}

/* ---- commands ---- */

static enum command command_of(uint8_t code)
{
    switch (code) {
    case 0x46: case 0x66: case 0xC6: case 0xE6: return READ_DATA;
    case 0x4C: case 0x6C: case 0xCC: case 0xEC: return READ_DELETED;
    case 0x45: case 0xC5: return WRITE_DATA;
    case 0x49: case 0xC9: return WRITE_DELETED;
    case 0x4A: return READ_ID;
    case 0x4D: return FORMAT;
    case 0x07: return RECALIBRATE;
    case 0x08: return SENSE_INTERRUPT;
    case 0x03: return SPECIFY;
    case 0x04: return SENSE_DRIVE;
    case 0x0F: return SEEK;
    case 0x10: return VERSION;
    case 0x13: return CONFIGURE;
    default: return UNKNOWN;
    }
}

static uint8_t length_of(enum command c)
{
    static const uint8_t lengths[COMMANDS] = {
        [UNKNOWN] = 1, [READ_DATA] = 9, [READ_DELETED] = 9, [WRITE_DATA] = 9, [WRITE_DELETED] = 9, [READ_ID] = 2,
        [FORMAT] = 6, [RECALIBRATE] = 2, [SENSE_INTERRUPT] = 1, [SPECIFY] = 3, [SENSE_DRIVE] = 2, [SEEK] = 3,
        [VERSION] = 1, [CONFIGURE] = 4,
    };
    return lengths[c];
}

static void sense_interrupt(struct model *m)
{
    for (unsigned i = 0; i < DRIVES; i++) {
        struct drive *d = &m->drives[i];
        if (d->report != 0) {
            uint8_t bytes[2] = { d->report, d->pcn };
            d->report = 0;
            d->busy = false;
            give_result(m, bytes, 2, false);
            return;
        }
    }
    give_invalid(m);
}

static void configure(struct model *m)
{
    m->eis = m->command[2] & 0x40;
    m->efifo = m->command[2] & 0x20;
    m->poll = m->command[2] & 0x10;
    m->fifothr = m->command[2] & 0x0F;
    m->pretrk = m->command[3];
}

static void start_execution(struct model *m, enum command c)
{
    const uint8_t *b = m->command;
    struct execution *x = &m->execution;
    memset(x, 0, sizeof *x);
    m->phase = EXECUTING;
    x->command = c;
    x->stage = FIRST_TESTS;
    x->drive = b[1] & 3;
    x->side = b[1] >> 2 & 1;
    if (c == FORMAT) {
        x->id.n = b[2];
        x->sc = b[3];
        x->fill = b[5];
    }
    if (reads(c) || writes(c)) {
        x->mt = b[0] & 0x80;
        x->sk = b[0] & 0x20;
        x->id = (struct address){ b[2], b[3], b[4], b[5] };
        x->eot = b[6];
    }
}

static bool any_busy(const struct model *m)
{
    return m->drives[0].busy || m->drives[1].busy || m->drives[2].busy || m->drives[3].busy;
}

/* all its bytes are there */
static void obey(struct model *m)
{
    enum command c = command_of(m->command[0]);
    unsigned drive = m->command[1] & 3;
    bool steps = c == SEEK || c == RECALIBRATE;
    m->phase = IDLE;
    if (steps ? m->drives[drive].busy : any_busy(m) && c != SENSE_INTERRUPT) {
        give_invalid(m);
        return;
    }
    switch (c) {
    case UNKNOWN:
        give_invalid(m);
        break;
    case RECALIBRATE:
        recalibrate(m, drive);
        break;
    case SEEK:
        seek(m, drive, m->command[2]);
        break;
    case SENSE_INTERRUPT:
        sense_interrupt(m);
        break;
    case SPECIFY:
        memcpy(m->specify, m->command + 1, 2);
        break;
    case VERSION:
        give_byte(m, 0x90);
        break;
    case CONFIGURE:
        configure(m);
        break;
    default:
        start_execution(m, c);
        break;
    }
}

static void gather(struct model *m, uint8_t byte)
{
    if (m->phase == IDLE) {
        memset(m->command, 0, sizeof m->command);
        m->phase = GATHERING;
        m->gathered = 0;
        m->due = length_of(command_of(byte));
    }
    m->command[m->gathered++] = byte;
    if (m->gathered == m->due)
        obey(m);
}

/* ---- reset ---- */

static void default_configuration(struct model *m)
{
    m->efifo = true;
    m->fifothr = 0;
    m->pretrk = 0;
}

static void reset(struct model *m)
{
    m->phase = IDLE;
    fifo_clear(&m->fifo);
    for (unsigned d = 0; d < DRIVES; d++) {
        m->drives[d].pcn = 0;
        m->drives[d].report = 0;
        m->drives[d].busy = false;
        m->drives[d].stepping = false;
    }
    default_configuration(m);
}

static void release(struct model *m)
{
    for (unsigned d = 0; d < DRIVES && !m->poll; d++)
        m->drives[d].report = (uint8_t)(0xC0 | d);
}

static void write_dor(struct model *m, uint8_t byte)
{
    bool was_held = held_in_reset(m);
    m->dor = byte;
    if (held_in_reset(m) && !was_held)
        reset(m);
    if (!held_in_reset(m) && was_held)
        release(m);
}

static void write_dsr(struct model *m, uint8_t byte)
{
    m->rate = byte & 3;
    if (!(byte & DSR_RESET) || held_in_reset(m))
        return;
    reset(m);
    release(m);
}

/* ---- the calls ---- */

uint32_t model_power_on(struct model *m, uint8_t head0, uint8_t head1)
{
    bool refused = head0 > LAST_HEAD || head1 > LAST_HEAD;
    memset(m, 0, sizeof *m);
    default_configuration(m);
    m->rate = 2;
    for (unsigned d = 0; d < DRIVES; d++)
        m->drives[d].changed = true;
    if (refused)
        return refuse(m, REFUSED_HEAD);
    m->drives[0].head = head0;
    m->drives[1].head = head1;
    return answer(m, 0);
}

static bool has_port(uint8_t offset) { return offset >= 2 && offset <= 7 && offset != 6; }

static uint8_t read_dir(const struct model *m)
{
    unsigned drive = m->dor & 3;
    return motor_on(m, drive) && m->drives[drive].changed ? 0x80 : 0;
}

/* RQM is on, and DIO says to the host */
static uint8_t read_fifo(struct model *m)
{
    if (m->phase == EXECUTING)
        return host_takes(m);
    uint8_t byte = m->result[m->taken++];
    if (m->taken == m->results)
        m->phase = IDLE;
    return byte;
}

uint32_t model_read_port(struct model *m, uint8_t offset)
{
    if (!has_port(offset))
        return refuse(m, REFUSED_PORT);
    uint8_t value = 0;
    switch (offset) {
    case 2:
        value = m->dor;
        break;
    case 3:
        value = m->tdr;
        break;
    case 4:
        value = model_msr(m);
        break;
    case 5:
        if ((model_msr(m) & 0xC0) != 0xC0)
            return refuse(m, REFUSED_FIFO);
        value = read_fifo(m);
        break;
    case 7:
        value = read_dir(m);
        break;
    }
    return answer(m, value);
}

uint32_t model_write_port(struct model *m, uint8_t offset, uint8_t byte)
{
    if (!has_port(offset))
        return refuse(m, REFUSED_PORT);
    switch (offset) {
    case 2:
        write_dor(m, byte);
        break;
    case 3:
        m->tdr = byte & 3;
        break;
    case 4:
        write_dsr(m, byte);
        break;
    case 5:
        if ((model_msr(m) & 0xC0) != 0x80)
            return refuse(m, REFUSED_FIFO);
        if (m->phase == EXECUTING)
            host_puts(m, byte);
        else
            gather(m, byte);
        break;
    case 7:
        m->rate = byte & 3;
        break;
    }
    return answer(m, 0);
}

uint32_t model_dma_read(struct model *m, bool tc)
{
    if (!drq(m) || from_host(m->execution.command))
        return refuse(m, REFUSED_DMA);
    uint8_t byte = host_takes(m);
    if (tc) {
        m->execution.tc = true;
        fifo_clear(&m->fifo);
    }
    return answer(m, byte);
}

uint32_t model_dma_write(struct model *m, uint8_t byte, bool tc)
{
    if (!drq(m) || !from_host(m->execution.command))
        return refuse(m, REFUSED_DMA);
    host_puts(m, byte);
    if (tc && m->execution.command != FORMAT) {
        m->execution.tc = true;
        m->fifo.asks = false;
    }
    return answer(m, 0);
}

uint32_t model_tick(struct model *m, struct image image0, struct image image1)
{
    if (held_in_reset(m))
        return answer(m, 0);
    struct image none = { NULL, 0 };
    for (unsigned d = 0; d < DRIVES; d++)
        step_tick(m, d, d == 0 ? image0 : d == 1 ? image1 : none);
    if (m->phase == EXECUTING) {
        unsigned drive = m->execution.drive;
        execute(m, drive == 0 ? image0 : drive == 1 ? image1 : none);
    }
    return answer(m, 0);
}

uint32_t model_note_change(struct model *m, uint8_t drive)
{
    if (drive > 1)
        return refuse(m, REFUSED_DRIVE);
    m->drives[drive].changed = true;
    return answer(m, 0);
}

uint64_t model_ticks(struct model *m, struct image image0, struct image image1, uint32_t n)
{
    uint32_t before = lines(m), last = before, made = 0;
    while (made < n && lines(m) == before) {
        last = model_tick(m, image0, image1);
        made++;
    }
    return (uint64_t)made << 32 | last;
}
