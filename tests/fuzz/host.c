#include "host.h"

#include <string.h>

#include "chance.h"

static struct event event(enum call call, uint8_t a, uint8_t b, uint32_t n)
{
    return (struct event){ .call = call, .a = a, .b = b, .n = n };
}

static struct event read_port(uint8_t offset) { return event(READ_PORT, offset, 0, 0); }
static struct event write_port(uint8_t offset, uint8_t byte) { return event(WRITE_PORT, offset, byte, 0); }
static struct event tick(uint32_t n) { return event(TICK, 0, 0, n); }
static struct event ticks(uint32_t n) { return event(TICKS, 0, 0, n); }

static bool from_host(enum command c) { return c == WRITE_DATA || c == WRITE_DELETED || c == FORMAT; }
/* 02 2026-02: ST1 10 is set, and the sector in hand is run to its end without the host */
static bool is_late(const struct model *m) { return m->execution.st1 != 0; }
static bool gate_on(const struct model *m) { return m->dor & 0x08; }

enum { MANY_BLOCKS = 50 }; /* in 1000: few episodes have so many, since a block call ends what goes on */

static bool any_report(const struct model *m)
{
    return m->drives[0].report || m->drives[1].report || m->drives[2].report || m->drives[3].report;
}

static bool any_stepping(const struct model *m)
{
    return m->drives[0].stepping || m->drives[1].stepping || m->drives[2].stepping || m->drives[3].stepping;
}

/* ---- an episode begins ---- */

static uint8_t any_head(void)
{
    uint32_t k = below(100);
    return k < 94 ? (uint8_t)below(3) : k < 97 ? (uint8_t)between(76, LAST_HEAD) : (uint8_t)below(LAST_HEAD + 1);
}

/* about the last head position that there is */
static uint8_t edge_head(void)
{
    static const uint8_t heads[6] = { 0, 80, 81, 81, 82, 255 };
    return heads[below(6)];
}

struct event host_first_event(struct host *h, bool far)
{
    static const uint16_t noises[20] = { 0, 0, 0, 0, 0, 0, 0, 0, 0, 0, 0, 0, 0, 2, 2, 2, 2, 10, 30, 300 };
    static const uint16_t disturbances[10] = { 0, 0, 0, 0, 0, 1, 1, 2, 3, 12 };
    static const uint16_t rates[5] = { 0, 0, 0, 2, MANY_BLOCKS };
    memset(h, 0, sizeof *h);
    h->noise = noises[below(20)];
    h->disturb = disturbances[below(10)];
    h->non_dma = chance(350);
    h->to_configure = 2;
    h->far = far;
    h->blocks = rates[below(5)];
    if (far)
        h->noise = h->disturb = h->blocks = 0;
    h->power_on = event(POWER_ON, far ? (uint8_t)between(78, LAST_HEAD) : any_head(), any_head(), 0);
    h->again = chance(300);
    return h->again ? event(POWER_ON, edge_head(), edge_head(), 0) : h->power_on;
}

/* ---- how the next command will be served ---- */

/* bytes before a sector's end: no more than the FIFO holds, or one more, so that a read's last one is lost */
static unsigned near_end(const struct model *m)
{
    unsigned capacity = m->efifo ? 1 : FIFO_SIZE;
    return chance(600) ? between(1, capacity) : capacity + 1;
}

/* `sectors`: how many the command asks for, if all are there */
static void plan_service(struct host *h, const struct model *m, unsigned sector, unsigned sectors)
{
    uint32_t k = below(100);
    h->moved = 0;
    h->sector = sector;
    h->pause = chance(780) ? 0 : chance(300) ? 63 : between(chance(700) ? 40 : 1, 63);
    h->serve = k < 6 ? between(500, 990) : k < 8 ? 0 : 1000;
    h->stops = 1u << 30;
    if (k >= 87) /* nothing more from somewhere on, or when a sector's last bytes are in the FIFO of a read */
        h->stops = k < 90 ? between(0, 2 * sector) : sector * between(1, sectors) - between(1, 12) % sector;
    k = below(100);
    h->tc_at = k < 15   ? sector * sectors
               : k < 35 ? sector * between(1, sectors)
               : k < 55 ? sector * sectors + between(1, 15)
               : k < 60 ? between(1, sector * sectors)
               : k < 63 ? between(1, 3)
               : k < 70 ? sector + between(1, 20)
                        : 0;
    h->trickle = h->pause > 0 && chance(250);
    if (h->pause > 0 && chance(700)) /* several sectors, each with its pause */
        h->tc_at = 0;
    if (chance(110)) { /* it stops inside a sector, and there is no TC */
        h->stops = sector * between(1, sectors) - (chance(500) ? near_end(m) % sector : between(1, sector - 1));
        h->tc_at = 0;
    }
}

/* ---- commands ---- */

static void send(struct host *h, const uint8_t *bytes, unsigned length)
{
    memcpy(h->command, bytes, length);
    h->length = length;
    h->sent = 0;
}

static struct event send_byte(struct host *h)
{
    return write_port(5, h->sent < h->length ? h->command[h->sent++] : any_byte());
}

#define SEND(h, ...) send(h, (const uint8_t[]){ __VA_ARGS__ }, sizeof((const uint8_t[]){ __VA_ARGS__ }))

static void send_specify(struct host *h)
{
    uint8_t srt = chance(990) ? 15 : (uint8_t)below(16);
    bool non_dma = chance(950) ? h->non_dma : chance(500);
    SEND(h, 0x03, (uint8_t)(srt << 4 | below(16)), (uint8_t)(below(128) << 1 | non_dma));
}

static void send_configure(struct host *h)
{
    uint8_t flags = (uint8_t)((chance(300) ? 0x20 : 0) | (chance(150) ? 0x10 : 0) | (chance(200) ? 0x40 : 0));
    SEND(h, 0x13, chance(900) ? 0 : any_byte(), (uint8_t)(flags | below(16) | (chance(50) ? 0x80 : 0)), any_byte());
}

static bool can_use(const struct world *w, uint8_t drive)
{
    return model_image_good(w->ours[drive]) && w->model.drives[drive].head < w->ours[drive].bytes[3 + CYLINDERS];
}

/* the drive whose image can be used where its head stands, mostly */
static uint8_t useful_drive(const struct world *w)
{
    uint8_t first = (uint8_t)below(2);
    if (chance(20))
        return (uint8_t)between(2, 3);
    if (chance(80)) /* be it of use or not */
        return first;
    for (unsigned i = 0; i < 2; i++) {
        uint8_t drive = (first + i) & 1;
        if (can_use(w, drive))
            return drive;
    }
    return first;
}

/* the track under the head, or NULL */
static const uint8_t *track_of(const struct world *w, uint8_t drive, uint8_t side)
{
    if (drive > 1 || !model_image_good(w->ours[drive]))
        return NULL;
    const uint8_t *header = w->ours[drive].bytes + 3;
    uint8_t head = w->model.drives[drive].head;
    if (head >= header[CYLINDERS] || side >= header[HEADS])
        return NULL;
    return w->ours[drive].bytes + 8 + ((size_t)head * header[HEADS] + side) * model_track_size(header);
}

static uint8_t side_for(const struct world *w, uint8_t drive)
{
    bool two = drive < 2 && model_image_good(w->ours[drive]) && w->ours[drive].bytes[3 + HEADS] == 2;
    return two ? chance(350) : chance(30);
}

struct wanted { struct address id; uint8_t mark, highest; unsigned size; };

static bool is_broken(uint8_t mark) { return mark == 3 || mark == 4; }

/* an address that stands on the track, mostly; `broken`: of a broken sector, if there is one */
static struct wanted any_wanted(const struct world *w, uint8_t drive, uint8_t side, bool broken)
{
    const uint8_t *track = track_of(w, drive, side);
    struct wanted a = { { any_byte(), side, (uint8_t)below(8), 1 }, 1, 8, 256 };
    if (!track)
        return a;
    const uint8_t *header = w->ours[drive].bytes + 3;
    a.size = 128u << header[SIZE_N];
    size_t slot_size = 5 + a.size;
    unsigned first = below(header[SLOTS]);
    for (unsigned i = 0; i < header[SLOTS]; i++) {
        const uint8_t *slot = track + 5 + (first + i) % header[SLOTS] * slot_size;
        if (slot[3] > a.highest || i == 0)
            a.highest = slot[3];
        bool better = broken && is_broken(slot[0]) && !is_broken(a.mark);
        if (i == 0 || better || (a.mark == 0 || a.mark > 5 || a.id.n != header[SIZE_N])) {
            a.mark = slot[0];
            a.id = (struct address){ slot[1], slot[2], slot[3], slot[4] };
        }
    }
    if (a.id.c != w->model.drives[drive].head && chance(500))
        a.id.c = w->model.drives[drive].head;
    if (chance(90)) {
        uint8_t *fields[4] = { &a.id.c, &a.id.h, &a.id.r, &a.id.n };
        *fields[below(4)] += (uint8_t)(chance(700) ? 1 : any_byte());
    }
    return a;
}

static uint8_t any_eot(const struct wanted *a)
{
    uint32_t k = below(100);
    return k < 28 ? a->id.r : k < 52 ? (uint8_t)(a->id.r + between(1, 2)) : k < 97 ? a->highest : any_byte();
}

static void send_data_command(struct host *h, const struct world *w, bool write)
{
    uint8_t drive = useful_drive(w), side = side_for(w, drive);
    bool broken = !write && chance(200);
    struct wanted a = any_wanted(w, drive, side, broken);
    bool deleted = a.mark == 2 || a.mark == 4;
    bool skipping = !write && chance(200); /* past this sector, and TC at the end of the next */
    if (skipping || chance(write ? 500 : broken ? 400 : 250))
        deleted = !deleted;
    uint8_t code = write ? (deleted ? 0x49 : 0x45) : (deleted ? 0x4C : 0x46);
    if (chance(500))
        code |= 0x80;
    if (skipping || (!write && chance(400)))
        code |= 0x20;
    SEND(h, code, (uint8_t)(side << 2 | drive | (chance(50) ? 0xF8 : 0)), a.id.c, a.id.h, a.id.r, a.id.n, any_eot(&a),
         any_byte(), any_byte());
    uint8_t more = (uint8_t)(h->command[6] - a.id.r);
    unsigned sectors = more < 4 ? more + 1u : 2;
    plan_service(h, &w->model, a.size, sectors);
    if (write && h->tc_at > a.size * sectors && chance(700)) /* EOT is to end it, with bytes left */
        h->command[0] &= 0x7F;
    if (broken && chance(400)) {
        h->stops = a.size - near_end(&w->model);
        h->tc_at = 0;
    }
    if (skipping) {
        h->command[6] = chance(500) ? a.highest : (uint8_t)(a.id.r + 1);
        h->serve = 1000;
        h->stops = 1u << 30;
        h->tc_at = a.size;
    }
}

static void send_format(struct host *h, const struct world *w)
{
    uint8_t drive = useful_drive(w), side = side_for(w, drive);
    uint8_t n = 1, slots = 3;
    if (track_of(w, drive, side)) {
        n = w->ours[drive].bytes[3 + SIZE_N];
        slots = w->ours[drive].bytes[3 + SLOTS];
    }
    uint8_t sc = chance(550) ? slots : (uint8_t)below(slots + 2u);
    SEND(h, 0x4D, (uint8_t)(side << 2 | drive), chance(930) ? n : (uint8_t)below(5), sc, any_byte(), any_byte());
    plan_service(h, &w->model, 4, sc ? sc : 1);
}

/* a Format that the first tests end; its result names the physical head */
static void send_probe(struct host *h) { SEND(h, 0x4D, (uint8_t)below(8), 0x01, 0x00, 0x00, 0x00); }

static void send_seek(struct host *h, const struct world *w)
{
    uint8_t drive = chance(850) ? (uint8_t)below(2) : (uint8_t)below(4);
    const struct drive *d = &w->model.drives[drive];
    uint8_t cylinders = drive < 2 && model_image_good(w->ours[drive]) ? w->ours[drive].bytes[3 + CYLINDERS] : 2;
    uint8_t ncn = chance(700) && cylinders < 4 ? (uint8_t)below(cylinders)
                  : d->pcn < 3              ? (uint8_t)below(6)
                                            : (uint8_t)(d->pcn + between(0, 6) - 3);
    if (chance(2))
        ncn = any_byte();
    SEND(h, 0x0F, (uint8_t)(drive | (chance(100) ? 4 : 0)), ncn);
}

static void send_recalibrate(struct host *h, const struct world *w)
{
    uint8_t drive = chance(960) ? (uint8_t)below(2) : (uint8_t)between(2, 3);
    /* the long way back is seldom of use */
    if (w->model.drives[drive].head > 20 && chance(700))
        drive ^= 1;
    SEND(h, 0x07, drive);
}

static void send_small_command(struct host *h)
{
    switch (below(10)) {
    case 0:
        SEND(h, 0x10);
        break;
    case 8: case 9:
        send_probe(h);
        break;
    case 1:
        SEND(h, any_byte());
        break;
    case 2:
        send_specify(h);
        break;
    case 3: case 4:
        send_configure(h);
        break;
    default:
        SEND(h, 0x04, chance(900) ? (uint8_t)below(8) : any_byte());
        break;
    }
}

/* A fixed list for drives 0 to 2: Recalibrate from beyond 79 steps; so far in and out that the heads stop at 81 and at 0;
 * then one step at each of the sixteen step times. */
enum { FAR_RECALIBRATE = 1, FAR_IN = 4, FAR_OUT = 7, FAR_TIMES = 10, FAR_END = FAR_TIMES + 32 };

/* the drives are to be done before the list goes on */
static bool far_waits(const struct host *h)
{
    bool stepped = h->far_sent > FAR_TIMES && (h->far_sent - FAR_TIMES) % 2 == 0;
    return h->far_sent == FAR_IN || h->far_sent == FAR_OUT || h->far_sent == FAR_TIMES || stepped;
}

static void send_far_command(struct host *h, const struct model *m)
{
    unsigned i = h->far_sent++;
    uint8_t drive = (uint8_t)((i + 2) % 3), srt = (uint8_t)((i - FAR_TIMES) / 2);
    if (i < FAR_RECALIBRATE)
        SEND(h, 0x03, 0xF0, 0x00);
    else if (i < FAR_IN)
        SEND(h, 0x07, drive);
    else if (i < FAR_OUT)
        SEND(h, 0x0F, drive, (uint8_t)between(90, 100));
    else if (i < FAR_TIMES)
        SEND(h, 0x0F, drive, (uint8_t)below(4));
    else if (i % 2 == 0)
        SEND(h, 0x03, (uint8_t)(srt << 4), 0x00);
    else
        SEND(h, 0x0F, 0x00, m->drives[0].pcn ^ 1);
    h->far = h->far_sent < FAR_END;
}

static struct event far_event(struct host *h, const struct model *m)
{
    if (any_stepping(m) && far_waits(h))
        return chance(900) ? ticks(between(1, 2000)) : tick(between(1, 100));
    if (any_report(m) && (far_waits(h) || h->far_sent == 0))
        SEND(h, 0x08);
    else if (far_waits(h) && chance(700))
        send_probe(h);
    else
        send_far_command(h, m);
    return send_byte(h);
}

static void choose_command(struct host *h, const struct world *w)
{
    const struct model *m = &w->model;
    if (h->to_configure > 0 && chance(900)) {
        if (h->to_configure == 2)
            send_specify(h);
        else if (chance(750))
            send_configure(h);
        else
            SEND(h, 0x10);
        h->to_configure--;
        return;
    }
    /* no image is of use: let the host put another in, or step back to the cylinders that there are */
    uint8_t lost = (uint8_t)below(2);
    if (!can_use(w, 0) && !can_use(w, 1) && model_image_good(w->ours[lost]) && !m->drives[lost].busy && chance(600)) {
        SEND(h, 0x07, lost);
        return;
    }
    uint32_t k = below(100);
    if (any_report(m) && k < 50)
        SEND(h, 0x08);
    else if (k < 37)
        send_data_command(h, w, false);
    else if (k < 64)
        send_data_command(h, w, true);
    else if (k < 71)
        send_format(h, w);
    else if (k < 77)
        SEND(h, 0x4A, chance(900) ? (uint8_t)(useful_drive(w) | side_for(w, 0) << 2) : any_byte());
    else if (k < 87)
        send_seek(h, w);
    else if (k < 91)
        send_recalibrate(h, w);
    else if (k < 93)
        SEND(h, 0x08);
    else
        send_small_command(h);
}

/* ---- noise and disturbances ---- */

static uint8_t good_dor(void) { return (uint8_t)(0x3C | below(2) | (chance(200) ? 0xC0 : 0)); }

static struct event any_call(void)
{
    switch (below(16)) {
    case 0:
        return chance(20) ? event(POWER_ON, any_byte(), any_byte(), 0) : event(NOTE_CHANGE, (uint8_t)below(4), 0, 0);
    case 1: case 2: case 3:
        return read_port((uint8_t)(chance(950) ? below(8) : any_byte()));
    case 4: case 5: case 6:
        return write_port((uint8_t)(chance(950) ? below(8) : any_byte()), any_byte());
    case 7: case 8:
        return event(DMA_READ, (uint8_t)(chance(200) ? any_byte() : 0), 0, 0);
    case 9: case 10:
        return event(DMA_WRITE, any_byte(), (uint8_t)(chance(200) ? any_byte() : 0), 0);
    case 11:
        return write_port(5, any_byte());
    case 12:
        return read_port(5);
    case 13:
        return ticks(below(4));
    default:
        return tick(between(1, 30));
    }
}

static uint8_t no_port(void)
{
    static const uint8_t offsets[6] = { 0, 1, 6, 8, 9, 255 };
    return chance(800) ? offsets[below(6)] : (uint8_t)between(8, 255);
}

/* refused accesses, looks at registers: nothing that ends what goes on */
static struct event harmless_call(const struct model *m)
{
    switch (below(12)) {
    case 0:
        return read_port(no_port());
    case 1:
        return write_port(no_port(), any_byte());
    case 2:
        return event(NOTE_CHANGE, (uint8_t)(chance(700) ? below(2) : any_byte()), 0, 0);
    case 3:
        return write_port(3, any_byte());
    case 4:
        return write_port(7, any_byte());
    case 5:
        return write_port(4, any_byte() & 0x7F);
    case 6:
        return read_port(7);
    case 7:
        return read_port(3);
    case 8:
        return read_port(2);
    case 9: /* the other direction */
        return from_host(m->execution.command) ? event(DMA_READ, (uint8_t)below(2), 0, 0)
                                               : event(DMA_WRITE, any_byte(), (uint8_t)below(2), 0);
    case 10:
        return (model_msr(m) & 0xC0) == 0x80 ? read_port(5) : write_port(5, any_byte());
    default:
        return write_port(2, (uint8_t)((m->dor & 0xFC) | below(4)));
    }
}

static struct event poke_image(const struct world *w, uint8_t drive)
{
    size_t length = w->ours[drive].length;
    if (chance(300))
        return event(POKE, drive, (uint8_t)between(1, 3), (uint32_t)between(3, 7));
    return event(POKE, drive, chance(500) ? (uint8_t)below(6) : any_byte(), length ? below((uint32_t)length) : 0);
}

static struct event disturbance(const struct world *w)
{
    const struct model *m = &w->model;
    uint8_t drive = m->execution.drive & 1;
    switch (below(12)) {
    case 0: case 1: /* this motor off */
        return write_port(2, (uint8_t)(m->dor & ~(0x10 << drive)));
    case 2: case 3: /* gate off */
        return write_port(2, m->dor & 0xF7);
    case 4:
        return write_port(2, m->dor & 0xFB);
    case 5:
        return write_port(4, (uint8_t)(0x80 | below(128)));
    case 6:
        return event(SWAP, drive, 0, below(POOL));
    case 7: case 8:
        return poke_image(w, drive);
    default:
        return harmless_call(m);
    }
}

/* The host was late: the disk goes in the rest of the sector, or the host comes back with a byte, maybe TC. */
static struct event too_late(const struct world *w)
{
    const struct model *m = &w->model;
    uint8_t drive = m->execution.drive & 1;
    bool in = from_host(m->execution.command);
    switch (below(8)) {
    case 0:
        return event(SWAP, drive, 0, below(POOL));
    case 1:
        return write_port(2, (uint8_t)(m->dor & ~(0x10 << drive)));
    case 2:
        return event(POKE, drive, (uint8_t)between(1, 3), between(3, 7));
    default:
        break;
    }
    if (m->specify[1] & 1)
        return in ? write_port(5, any_byte()) : read_port(5);
    return in ? event(DMA_WRITE, any_byte(), (uint8_t)below(2), 0) : event(DMA_READ, (uint8_t)below(2), 0, 0);
}

/* ---- block calls ---- */

/* a drive whose image has blocks, mostly */
static uint8_t block_drive(const struct world *w)
{
    uint8_t first = (uint8_t)below(2);
    if (chance(25))
        return chance(700) ? (uint8_t)between(2, 3) : any_byte();
    if (chance(60) || model_blocks(w->ours[first]) > 0)
        return first;
    return first ^ 1;
}

static uint32_t any_block(uint32_t blocks)
{
    uint32_t k = below(100);
    if (blocks == 0)
        return below(8);
    return k < 90 ? below(blocks) : k < 95 ? blocks - 1 : k < 97 ? blocks : k < 98 ? blocks + below(9) : below(0xFFFFFFFF);
}

static uint16_t wrong_slice(uint16_t size)
{
    const uint16_t sizes[6] = { 0, (uint16_t)(size - 1), (uint16_t)(size + 1), size / 2, (uint16_t)(2 * size),
                                (uint16_t)below(3000) };
    return sizes[below(6)];
}

static struct event block_of(const struct world *w, uint8_t drive)
{
    uint32_t blocks = drive < 2 ? model_blocks(w->ours[drive]) : 0;
    uint16_t size = blocks ? (uint16_t)(128u << w->ours[drive].bytes[3 + SIZE_N]) : 256;
    struct event e = event(chance(550) ? BLOCK_READ : BLOCK_WRITE, drive, any_byte(), any_block(blocks));
    bool wrong = chance(30); /* in several ways at once */
    e.slice = chance(wrong ? 500 : 25) ? wrong_slice(size) : size;
    e.status = (uint16_t)(chance(wrong ? 500 : 20) ? (chance(500) ? 6 : below(7)) : chance(700) ? 7 : between(8, 20));
    if (wrong && chance(500))
        e.n = blocks + below(3);
    return e;
}

/* Looks at the registers behind it; and now and then the heads stand far out before it. */
static struct event block_call(struct host *h, const struct world *w)
{
    struct event e = block_of(w, block_drive(w));
    h->plans = below(4);
    for (unsigned i = 0; i < h->plans; i++)
        h->planned[i] = read_port((uint8_t)(chance(300) ? 7 : between(2, 4)));
    h->to_configure = chance(700) ? 2 : 0;
    if (!chance(30))
        return e;
    h->planned[0] = e;
    h->plans = 1;
    return event(POWER_ON, (uint8_t)between(79, LAST_HEAD), (uint8_t)between(79, LAST_HEAD), 0);
}

/* ---- what it does, by the phase that the controller is in ---- */

static uint8_t data_byte(const struct host *h, const struct model *m)
{
    const struct execution *x = &m->execution;
    if (x->command != FORMAT || chance(100))
        return any_byte();
    const uint8_t id[4] = { m->drives[x->drive].head, x->side, (uint8_t)(h->moved / 4 + 1), x->id.n };
    return id[h->moved % 4];
}

static struct event serve(struct host *h, const struct model *m)
{
    h->moved++;
    uint8_t tc = h->moved == h->tc_at;
    bool in = from_host(m->execution.command);
    if (m->specify[1] & 1)
        return in ? write_port(5, data_byte(h, m)) : read_port(5);
    return in ? event(DMA_WRITE, data_byte(h, m), tc, 0) : event(DMA_READ, tc, 0, 0);
}

/* bel_ticks stops at a line's change, so a prompt host that hears its line may give it many ticks */
static struct event let_time_pass(const struct host *h, const struct model *m)
{
    bool hears = gate_on(m) && !m->fifo.asks && (!any_report(m) || !(m->specify[1] & 1));
    bool served = h->moved < h->stops && !is_late(m);
    if (h->serve == 1000 && served)
        return hears && chance(500) ? ticks(below(100)) : tick(1);
    if (h->serve > 0 && served)
        return tick(between(1, chance(800) ? 3 : 20));
    return chance(is_late(m) ? 200 : 500) ? tick(between(1, 70)) : ticks(between(1, 70));
}

/* A host that pauses serves a write's or format's sector only after so many waits, and takes a read's last bytes only after
 * so many looks. */
static bool pauses(const struct host *h, const struct model *m)
{
    const struct execution *x = &m->execution;
    if (h->pause == 0 || h->moved >= h->stops)
        return false;
    if (from_host(x->command))
        return h->moved % h->sector == 0 && !(x->stage == AWAITING && x->wait >= h->pause);
    return x->stage == DRAINING && x->wait < h->pause;
}

static struct event while_executing(struct host *h, const struct world *w)
{
    const struct model *m = &w->model;
    if (chance(h->disturb))
        return disturbance(w);
    if (is_late(m) && chance(70))
        return too_late(w);
    if (h->blocks > 0 && m->execution.stage == DRAINING && m->fifo.count > 0 && chance(25)) /* it does not last long */
        return block_call(h, w);
    if (chance(20))
        return read_port(4);
    if (!gate_on(m) && chance(100))
        return write_port(2, m->dor | 0x08);
    if (pauses(h, m))
        return tick(1);
    if (m->fifo.asks && h->moved < h->stops && chance(h->serve)) {
        if (m->execution.stage == DRAINING && h->trickle)
            h->pause += between(1, 12);
        return serve(h, m);
    }
    return let_time_pass(h, m);
}

/* what several drives at once may do: step, be asked, be given another seek */
static struct event while_stepping(struct host *h, const struct world *w)
{
    uint32_t k = below(100);
    if (k < 60)
        return chance(900) ? ticks(between(1, 300)) : tick(between(1, 100));
    if (k < 80)
        send_seek(h, w);
    else if (k < 84)
        send_recalibrate(h, w);
    else if (k < 91)
        SEND(h, 0x08);
    else if (k < 97)
        choose_command(h, w);
    else
        return chance(700) ? harmless_call(&w->model) : disturbance(w);
    return send_byte(h);
}

static struct event while_idle(struct host *h, const struct world *w)
{
    const struct model *m = &w->model;
    bool ready = gate_on(m) && (m->dor & 0x30) == 0x30;
    if (!ready && chance(500))
        return write_port(2, good_dor());
    if (h->far)
        return far_event(h, m);
    uint32_t k = below(1000);
    if (k < 60)
        return read_port(4);
    if (k < 90)
        return tick(between(1, 3));
    if (k < 100)
        return ticks(below(3));
    if (k < 150)
        return harmless_call(m);
    if (k < 155)
        return write_port(4, (uint8_t)(0x80 | below(128)));
    if (k < 160)
        return write_port(2, m->dor & 0xFB);
    if (k < 164 || (k < 250 && !can_use(w, 0) && !can_use(w, 1)))
        return event(SWAP, (uint8_t)below(2), 0, below(POOL));
    if (any_stepping(m) && chance(900))
        return while_stepping(h, w);
    choose_command(h, w);
    return send_byte(h);
}

static struct event while_held(struct host *h, const struct model *m)
{
    uint32_t k = below(100);
    if (k < 70) {
        h->to_configure = chance(700) ? 2 : 0;
        return write_port(2, good_dor());
    }
    return k < 76 ? tick(between(1, 3)) : k < 80 ? read_port(4) : k < 85 ? write_port(4, any_byte()) : k < 90 ? read_port(5)
           : k < 95 ? write_port(5, any_byte()) : harmless_call(m);
}

static struct event while_answering(const struct model *m)
{
    return chance(900) ? read_port(5) : chance(400) ? read_port(4) : chance(500) ? tick(between(1, 2)) : harmless_call(m);
}

struct event host_next_event(struct host *h, const struct world *w)
{
    const struct model *m = &w->model;
    if (h->again) {
        h->again = false;
        return h->power_on;
    }
    if (h->plans > 0)
        return h->planned[--h->plans];
    if (chance(h->noise))
        return any_call();
    if (h->blocks > 0 && chance(h->blocks))
        return block_call(h, w);
    if (!(m->dor & 0x04))
        return while_held(h, m);
    switch (m->phase) {
    case GATHERING:
        return chance(980) ? send_byte(h) : chance(500) ? read_port(4) : harmless_call(m);
    case EXECUTING:
        return while_executing(h, w);
    case ANSWERING:
        return while_answering(m);
    default:
        return while_idle(h, w);
    }
}
