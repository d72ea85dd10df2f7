#include "blocks.h"

#include <string.h>

enum { INT_ON = 1 << 16, DRQ_ON = 1 << 17, BOTH_LINES = INT_ON | DRQ_ON };
enum { PORT_DOR = 2, PORT_MSR = 4, PORT_FIFO = 5 };
enum { MOTORS = 0xF0, MOTOR_0 = 0x10, GATE_ON = 0x08, OUT_OF_RESET = 0x04 };

/* ticks of a step with SRT 15, and what each wait may take */
enum { STEP = 63, RECALIBRATE_WAIT = 79 * STEP, SEEK_WAIT = 81 * STEP };

/* ---- places ---- */

uint32_t model_blocks(struct image image)
{
    if (!model_image_good(image))
        return 0;
    const uint8_t *header = image.bytes + 3;
    return (uint32_t)header[CYLINDERS] * header[HEADS] * header[SLOTS];
}

struct block_place model_block_place(const uint8_t header[HEADER_BYTES], uint32_t block)
{
    uint32_t track = block / header[SLOTS];
    struct block_place p;
    p.sector = (uint8_t)(block % header[SLOTS] + 1);
    p.side = (uint8_t)(track % header[HEADS]);
    p.cylinder = (uint8_t)(track / header[HEADS]);
    return p;
}

/* ---- a request's calls ---- */

struct request {
    struct model *m;
    struct image images[2];
    struct service *made;
    uint8_t drive;
    uint32_t word; /* the last call's */
};

static uint32_t ask(struct request *q, enum plain call, uint8_t a, uint8_t b)
{
    switch (call) {
    case PLAIN_READ:
        q->word = model_read_port(q->m, a);
        break;
    case PLAIN_WRITE:
        q->word = model_write_port(q->m, a, b);
        break;
    case PLAIN_DMA_READ:
        q->word = model_dma_read(q->m, a);
        break;
    case PLAIN_DMA_WRITE:
        q->word = model_dma_write(q->m, a, b);
        break;
    case PLAIN_TICK:
        q->word = model_tick(q->m, q->images[0], q->images[1]);
        break;
    }
    q->made->calls++;
    q->made->ticks += call == PLAIN_TICK;
    q->made->cycles += call == PLAIN_DMA_READ || call == PLAIN_DMA_WRITE;
    if (q->made->each)
        q->made->each(q->made->whose, (struct plain_call){ call, a, b, q->word });
    return q->word;
}

static void ask_put(struct request *q, uint8_t port, uint8_t byte) { ask(q, PLAIN_WRITE, port, byte); }
static uint8_t ask_get(struct request *q, uint8_t port) { return (uint8_t)ask(q, PLAIN_READ, port, 0); }

static void ask_command(struct request *q, const uint8_t *bytes, unsigned count)
{
    for (unsigned i = 0; i < count; i++)
        ask_put(q, PORT_FIFO, bytes[i]);
}

#define ASK_COMMAND(q, ...) ask_command(q, (const uint8_t[]){ __VA_ARGS__ }, sizeof((const uint8_t[]){ __VA_ARGS__ }))

/* ---- its steps, in their order ---- */

/* the drive's motor on, the others as they were, the gate on, the drive selected; into reset and out of it */
static void ask_reset(struct request *q)
{
    uint8_t dor = (uint8_t)((ask_get(q, PORT_DOR) & MOTORS) | MOTOR_0 << q->drive | GATE_ON | q->drive);
    ask_put(q, PORT_DOR, dor);
    ask_put(q, PORT_DOR, dor | OUT_OF_RESET);
}

/* ST0 of a report, with its PCN taken too; 80 alone where there is none */
static uint8_t ask_report(struct request *q)
{
    ASK_COMMAND(q, 0x08);
    uint8_t st0 = ask_get(q, PORT_FIFO);
    if (st0 != 0x80)
        ask_get(q, PORT_FIFO);
    return st0;
}

/* a report after ticks; `most`: those that it may take, and then it is late and waited for no longer */
static uint8_t ask_arrival(struct request *q, unsigned long most)
{
    unsigned long ticks = 0;
    do {
        ask(q, PLAIN_TICK, 0, 0);
        ticks++;
    } while (!(q->word & INT_ON) && ticks <= most);
    q->made->late += ticks > most;
    return ask_report(q);
}

static uint8_t ask_recalibrate(struct request *q)
{
    ASK_COMMAND(q, 0x07, q->drive);
    q->made->recalibrations++;
    return ask_arrival(q, RECALIBRATE_WAIT);
}

/* 79 steps do not bring a head from 80 or 81 to 0 */
static void ask_track(struct request *q, uint8_t cylinder)
{
    if (ask_recalibrate(q) == (0x70 | q->drive))
        ask_recalibrate(q);
    if (cylinder == 0)
        return;
    ASK_COMMAND(q, 0x0F, q->drive, cylinder);
    ask_arrival(q, SEEK_WAIT);
}

/* one of the two is there: where a read's bytes go, where a write's come from */
struct block_bytes { uint8_t *to; const uint8_t *from; size_t count; };

static void ask_cycle(struct request *q, const struct block_bytes *b, size_t i)
{
    uint8_t tc = i + 1 == b->count;
    if (b->from)
        ask(q, PLAIN_DMA_WRITE, b->from[i], tc);
    else
        b->to[i] = (uint8_t)ask(q, PLAIN_DMA_READ, tc, 0);
}

static void ask_transfer(struct request *q, const struct block_bytes *b, unsigned long most)
{
    unsigned long ticks = 0;
    size_t moved = 0;
    do {
        ask(q, PLAIN_TICK, 0, 0);
        ticks++;
        while ((q->word & DRQ_ON) && moved < b->count)
            ask_cycle(q, b, moved++);
    } while (!(q->word & INT_ON) && ticks <= most);
    q->made->late += ticks > most;
}

static void ask_block(struct request *q, uint32_t block, const struct block_bytes *b, uint8_t status[STATUS_BYTES])
{
    const uint8_t *header = q->images[q->drive].bytes + 3;
    const uint8_t slots = header[SLOTS], n = header[SIZE_N];
    const struct block_place p = model_block_place(header, block);
    ask_reset(q);
    while (ask_report(q) != 0x80 && q->made->reports < DRIVES)
        q->made->reports++;
    ASK_COMMAND(q, 0x03, 0xF0, 0x00);
    ask_track(q, p.cylinder);
    ASK_COMMAND(q, b->from ? 0x45 : 0x46, (uint8_t)(p.side * 4 + q->drive), p.cylinder, p.side, p.sector, n, slots, 0x1B, 0xFF);
    ask_transfer(q, b, 2ul * (slots + 1u) * (2u * slots + b->count + 70));
    for (unsigned i = 0; i < STATUS_BYTES; i++)
        status[i] = ask_get(q, PORT_FIFO);
}

/* ---- the two calls ---- */

static uint32_t block_refusal(const struct image *images, uint8_t drive, uint32_t block, size_t slice, size_t status)
{
    if (drive > 1 || block >= model_blocks(images[drive]))
        return REFUSED_BLOCK;
    if (slice != (size_t)128 << images[drive].bytes[3 + SIZE_N])
        return REFUSED_SLICE;
    return status < STATUS_BYTES ? REFUSED_STATUS : 0;
}

static uint32_t block_answer(struct request *q, uint32_t block, const struct block_bytes *b, uint8_t *status, size_t status_len)
{
    struct service unheard = { 0 };
    if (!q->made)
        q->made = &unheard;
    uint32_t refused = block_refusal(q->images, q->drive, block, b->count, status_len);
    if (refused)
        return refused << 8 | (model_read_port(q->m, PORT_MSR) & BOTH_LINES);
    ask_block(q, block, b, status);
    return (q->word & BOTH_LINES) | ((status[0] & 0xC0) == 0);
}

uint32_t model_block_read(struct model *m, struct image image0, struct image image1, uint8_t drive, uint32_t block,
                          uint8_t *out, size_t out_len, uint8_t *status, size_t status_len, struct service *made)
{
    struct request q = { m, { image0, image1 }, made, drive, 0 };
    return block_answer(&q, block, &(struct block_bytes){ out, NULL, out_len }, status, status_len);
}

uint32_t model_block_write(struct model *m, struct image image0, struct image image1, uint8_t drive, uint32_t block,
                           const uint8_t *data, size_t data_len, uint8_t *status, size_t status_len, struct service *made)
{
    struct request q = { m, { image0, image1 }, made, drive, 0 };
    return block_answer(&q, block, &(struct block_bytes){ NULL, data, data_len }, status, status_len);
}

/* ---- a blank disk ---- */

static bool from_to(uint8_t value, uint8_t least, uint8_t most) { return value >= least && value <= most; }

uint32_t model_image_size(uint8_t cylinders, uint8_t heads, uint8_t slots, uint8_t n)
{
    const uint8_t header[HEADER_BYTES] = { cylinders, heads, slots, n, 0 };
    if (!from_to(cylinders, 1, 82) || !from_to(heads, 1, 2) || !from_to(slots, 1, 36) || !from_to(n, 1, 3))
        return 0;
    return (uint32_t)(8 + (size_t)cylinders * heads * model_track_size(header) + 3);
}

static uint8_t *lay_tag(uint8_t *at, uint8_t tag, size_t length)
{
    *at++ = tag;
    *at++ = (uint8_t)(length >> 8);
    *at++ = (uint8_t)length;
    return at;
}

uint32_t model_image_blank(struct image image, const uint8_t header[HEADER_BYTES], uint8_t fill)
{
    uint32_t size = model_image_size(header[CYLINDERS], header[HEADS], header[SLOTS], header[SIZE_N]);
    size_t sector = (size_t)128 << header[SIZE_N];
    if (size == 0 || header[PROTECT] > 1 || image.length != size)
        return 0;
    uint8_t *at = lay_tag(image.bytes, 1, HEADER_BYTES);
    memcpy(at, header, HEADER_BYTES);
    at += HEADER_BYTES;
    for (unsigned c = 0; c < header[CYLINDERS]; c++)
        for (unsigned h = 0; h < header[HEADS]; h++) {
            at = lay_tag(at, 2, model_track_size(header) - 3);
            *at++ = (uint8_t)c;
            *at++ = (uint8_t)h;
            for (unsigned k = 0; k < header[SLOTS]; k++, at += 5 + sector) {
                const uint8_t id[5] = { 1, (uint8_t)c, (uint8_t)h, (uint8_t)(k + 1), header[SIZE_N] };
                memcpy(at, id, 5);
                memset(at + 5, fill, sector);
            }
        }
    lay_tag(at, 3, 0);
    return size;
}
