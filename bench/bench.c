/* Whole images read, written and formatted by DMA, on the library and on the model, by one and the same host: seek, then
 * each cylinder in one command (MT where there are two sides; Format by tracks), TC with the last byte; FIFO on, threshold 8.
 * The library is as the kit compiles it; the model and this host have -O3, by another compiler. Time is the
 * processor's, the best of a few runs; DMA cycles and port accesses are in it: a read or write has a cycle for each tick,
 * a format few. Then some blocks of each image by the block service, which steps out and in again for every block. */
#include <math.h>
#include <stdbool.h>
#include <stdio.h>
#include <stdlib.h>
#include <string.h>
#include <time.h>

#include "beleduritz.h"
#include "blocks.h"
#include "lent.h"

enum { INT_LINE = 1 << 16, DRQ_LINE = 1 << 17, RUNS = 7 };

/* ---- what is measured: the same calls of each ---- */

static uint8_t record[512];
static struct model model;
static struct image image;

struct box {
    uint32_t (*power_on)(void);
    uint32_t (*read_port)(uint8_t offset);
    uint32_t (*write_port)(uint8_t offset, uint8_t byte);
    uint32_t (*dma_read)(bool tc);
    uint32_t (*dma_write)(uint8_t byte, bool tc);
    uint32_t (*tick)(void);
    uint64_t (*ticks)(uint32_t n);
    uint32_t (*block)(uint32_t block, bool out, uint8_t *bytes, size_t count, struct service *made);
};

static uint32_t lib_power_on(void) { return bel_power_on(record, sizeof record, 0, 0); }
static uint32_t lib_read_port(uint8_t offset) { return bel_read_port(record, sizeof record, offset); }
static uint32_t lib_write_port(uint8_t offset, uint8_t byte) { return bel_write_port(record, sizeof record, offset, byte); }
static uint32_t lib_dma_read(bool tc) { return bel_dma_read(record, sizeof record, tc); }
static uint32_t lib_dma_write(uint8_t byte, bool tc) { return bel_dma_write(record, sizeof record, byte, tc); }
static uint32_t lib_tick(void) { return bel_tick(record, sizeof record, image.bytes, image.length, lent(NULL), 0); }

static uint64_t lib_ticks(uint32_t n)
{
    return bel_ticks(record, sizeof record, image.bytes, image.length, lent(NULL), 0, n);
}

static uint8_t status[STATUS_BYTES];

/* the library does not say what it made */
static uint32_t lib_block(uint32_t block, bool out, uint8_t *bytes, size_t count, struct service *made)
{
    (void)made;
    if (out)
        return bel_block_write(record, sizeof record, image.bytes, image.length, lent(NULL), 0, 0, block, bytes, count, status,
                               sizeof status);
    return bel_block_read(record, sizeof record, image.bytes, image.length, lent(NULL), 0, 0, block, bytes, count, status,
                          sizeof status);
}

static const struct image no_image;

static uint32_t mod_block(uint32_t block, bool out, uint8_t *bytes, size_t count, struct service *made)
{
    if (out)
        return model_block_write(&model, image, no_image, 0, block, bytes, count, status, sizeof status, made);
    return model_block_read(&model, image, no_image, 0, block, bytes, count, status, sizeof status, made);
}

static uint32_t mod_power_on(void) { return model_power_on(&model, 0, 0); }
static uint32_t mod_read_port(uint8_t offset) { return model_read_port(&model, offset); }
static uint32_t mod_write_port(uint8_t offset, uint8_t byte) { return model_write_port(&model, offset, byte); }
static uint32_t mod_dma_read(bool tc) { return model_dma_read(&model, tc); }
static uint32_t mod_dma_write(uint8_t byte, bool tc) { return model_dma_write(&model, byte, tc); }
static uint32_t mod_tick(void) { return model_tick(&model, image, no_image); }
static uint64_t mod_ticks(uint32_t n) { return model_ticks(&model, image, no_image, n); }

static const struct box library = { lib_power_on, lib_read_port, lib_write_port, lib_dma_read, lib_dma_write, lib_tick,
                                    lib_ticks, lib_block };
static const struct box reference = { mod_power_on, mod_read_port, mod_write_port, mod_dma_read, mod_dma_write, mod_tick,
                                      mod_ticks, mod_block };

/* ---- the image ---- */

struct geometry { uint8_t cylinders, sides, slots, n; const char *name; unsigned repeat; };

static void put_tag(uint8_t *at, uint8_t tag, size_t length)
{
    at[0] = tag;
    at[1] = (uint8_t)(length >> 8);
    at[2] = (uint8_t)length;
}

static struct image make_image(const struct geometry *g)
{
    struct image made;
    size_t sector = (size_t)128 << g->n, track = 5 + g->slots * (5 + sector);
    const uint8_t header[5] = { g->cylinders, g->sides, g->slots, g->n, 0 };
    made.length = 8 + g->cylinders * g->sides * track + 3;
    made.bytes = calloc(made.length, 1);
    if (!made.bytes)
        abort();
    put_tag(made.bytes, 1, 5);
    memcpy(made.bytes + 3, header, 5);
    uint8_t *at = made.bytes + 8;
    for (unsigned t = 0; t < (unsigned)g->cylinders * g->sides; t++) {
        put_tag(at, 2, track - 3);
        at[3] = (uint8_t)(t / g->sides);
        at[4] = (uint8_t)(t % g->sides);
        at += 5;
        for (unsigned k = 0; k < g->slots; k++, at += 5 + sector) {
            const uint8_t id[5] = { 1, (uint8_t)(t / g->sides), (uint8_t)(t % g->sides), (uint8_t)(k + 1), g->n };
            memcpy(at, id, 5);
            for (size_t i = 0; i < sector; i++)
                at[5 + i] = (uint8_t)(t + k * 7 + i * 3);
        }
    }
    put_tag(at, 3, 0);
    return made;
}

/* ---- the host ---- */

struct host { const struct box *box; bool singly; uint32_t word; unsigned long ticks, cycles; uint32_t sum; };

static void fail(const char *what)
{
    fprintf(stderr, "bench: %s\n", what);
    exit(1);
}

/* on to the next change of a line */
static void run(struct host *h)
{
    uint32_t before = h->word & (INT_LINE | DRQ_LINE);
    if (!h->singly) {
        uint64_t made = h->box->ticks(100000);
        h->word = (uint32_t)made;
        h->ticks += made >> 32;
        return;
    }
    do {
        h->word = h->box->tick();
        h->ticks++;
    } while ((h->word & (INT_LINE | DRQ_LINE)) == before);
}

static void write_port(struct host *h, uint8_t offset, uint8_t byte)
{
    h->word = h->box->write_port(offset, byte);
    if (h->word >> 8 & 0xFF)
        fail("a write was refused");
}

static uint8_t read_fifo(struct host *h)
{
    h->word = h->box->read_port(5);
    if (h->word >> 8 & 0xFF)
        fail("a read was refused");
    return (uint8_t)h->word;
}

static void send(struct host *h, const uint8_t *bytes, unsigned count)
{
    for (unsigned i = 0; i < count; i++)
        write_port(h, 5, bytes[i]);
}

#define SEND(h, ...) send(h, (const uint8_t[]){ __VA_ARGS__ }, sizeof((const uint8_t[]){ __VA_ARGS__ }))

static void sense_interrupt(struct host *h)
{
    SEND(h, 0x08);
    read_fifo(h);
    read_fifo(h);
}

static void start(struct host *h)
{
    h->word = h->box->power_on();
    write_port(h, 2, 0x1C);
    for (unsigned d = 0; d < 4; d++)
        sense_interrupt(h);
    SEND(h, 0x03, 0xF0, 0x02);
    SEND(h, 0x13, 0x00, 0x07, 0x00);
}

static void seek(struct host *h, uint8_t cylinder)
{
    SEND(h, 0x0F, 0x00, cylinder);
    while (!(h->word & INT_LINE))
        run(h);
    sense_interrupt(h);
}

enum deed { READ, WRITE, FORMATTING };

/* serves DMA until the command's end; TC goes with the last byte that the host has */
static void serve(struct host *h, size_t left, bool out, const uint8_t *bytes)
{
    while (!(h->word & INT_LINE)) {
        while ((h->word & DRQ_LINE) && left > 0) {
            left--;
            h->cycles++;
            uint8_t byte = bytes ? *bytes++ : (uint8_t)(left * 5);
            h->word = out ? h->box->dma_write(byte, left == 0) : h->box->dma_read(left == 0);
            h->sum = h->sum * 31 + (h->word & 0xFF);
        }
        if (!(h->word & INT_LINE))
            run(h);
    }
    if ((read_fifo(h) & 0xC0) != 0)
        fail("a command did not end normally");
    for (unsigned i = 1; i < 7; i++)
        read_fifo(h);
}

static void transfer(struct host *h, const struct geometry *g, uint8_t cylinder, bool out)
{
    uint8_t mt = g->sides == 2 ? 0x80 : 0;
    SEND(h, (uint8_t)(mt | (out ? 0x45 : 0x46)), 0x00, cylinder, 0x00, 0x01, g->n, g->slots, 0x1B, 0xFF);
    serve(h, (size_t)g->sides * g->slots << (7 + g->n), out, NULL);
}

static void format(struct host *h, const struct geometry *g, uint8_t cylinder)
{
    uint8_t ids[4 * 36];
    for (uint8_t side = 0; side < g->sides; side++) {
        for (uint8_t k = 0; k < g->slots; k++)
            memcpy(ids + 4 * k, (const uint8_t[]){ cylinder, side, (uint8_t)(k + 1), g->n }, 4);
        SEND(h, 0x4D, (uint8_t)(side << 2), g->n, g->slots, 0x1B, 0xF6);
        serve(h, 4u * g->slots, true, ids);
    }
}

static void whole_image(struct host *h, const struct geometry *g, enum deed deed)
{
    start(h);
    for (unsigned pass = 0; pass < g->repeat; pass++)
        for (unsigned c = 0; c < g->cylinders; c++) {
            if (g->cylinders > 1)
                seek(h, (uint8_t)c);
            if (deed == FORMATTING)
                format(h, g, (uint8_t)c);
            else
                transfer(h, g, (uint8_t)c, deed == WRITE);
        }
}

/* ---- the blocks ---- */

enum { EVERY = 7, LONGEST_SECTOR = 1024 };

struct blocks { uint32_t count, made; }; /* of the image; read or written in one run */

static struct blocks blocks_of(const struct geometry *g)
{
    uint32_t count = (uint32_t)g->cylinders * g->sides * g->slots;
    return (struct blocks){ count, (count + EVERY - 1) / EVERY * (count > 1 ? g->repeat : g->repeat / EVERY) };
}

static void some_blocks(struct host *h, const struct geometry *g, bool out)
{
    uint8_t bytes[LONGEST_SECTOR];
    struct blocks b = blocks_of(g);
    h->word = h->box->power_on();
    for (uint32_t i = 0; i < b.made; i++) {
        struct service made = { 0 };
        if (out)
            memset(bytes, (int)(i * 5 & 0xFF), sizeof bytes);
        h->word = h->box->block(i * EVERY % b.count, out, bytes, (size_t)128 << g->n, &made);
        if (!(h->word & 1))
            fail("a block call did not end normally");
        h->ticks += made.ticks;
        h->cycles += made.cycles;
        h->sum = h->sum * 31 + bytes[i & 127] + status[5];
    }
}

/* ---- measuring ---- */

enum way { RUNS_OF_TICKS, ONE_TICK, BLOCK_CALLS, WAYS };

static double seconds_of(struct host *h, struct image on, const struct geometry *g, enum deed deed, enum way way)
{
    image = on;
    h->ticks = h->cycles = h->sum = 0;
    clock_t from = clock();
    if (way == BLOCK_CALLS)
        some_blocks(h, g, deed == WRITE);
    else
        whole_image(h, g, deed);
    return (double)(clock() - from) / CLOCKS_PER_SEC;
}

static double blocks_a_second[2]; /* of the first image read: library and model */

/* a block call of the library has the ticks and cycles of the model's */
static void note_blocks(struct host *lib, const struct host *mod, double of_lib, double of_mod)
{
    lib->ticks = mod->ticks;
    lib->cycles = mod->cycles;
    if (blocks_a_second[0] > 0)
        return;
    blocks_a_second[0] = of_lib;
    blocks_a_second[1] = of_mod;
}

static void measure(const struct geometry *g, enum deed deed, enum way way)
{
    static const char *deeds[3] = { "read", "write", "format" };
    static const char *ways[WAYS] = { "runs of ticks", "one tick", "block calls" };
    bool singly = way == ONE_TICK;
    struct host lib = { .box = &library, .singly = singly }, mod = { .box = &reference, .singly = singly };
    double lib_seconds = 1e9, mod_seconds = 1e9;
    struct image lib_image = make_image(g), mod_image = make_image(g);
    /* by turns, so that a machine that is busy for a while is so for both */
    for (unsigned i = 0; i < RUNS; i++) {
        lib_seconds = fmin(lib_seconds, seconds_of(&lib, lib_image, g, deed, way));
        mod_seconds = fmin(mod_seconds, seconds_of(&mod, mod_image, g, deed, way));
    }
    if (way == BLOCK_CALLS)
        note_blocks(&lib, &mod, blocks_of(g).made / lib_seconds, blocks_of(g).made / mod_seconds);
    if (lib.ticks != mod.ticks || lib.sum != mod.sum || memcmp(mod_image.bytes, lib_image.bytes, lib_image.length) != 0)
        fail("library and model do not agree");
    free(mod_image.bytes);
    free(lib_image.bytes);
    printf("| %-11s | %-6s | %-13s | %9lu | %9lu | %12.1f | %10.1f | %5.2f |\n", g->name, deeds[deed],
           ways[way], lib.ticks, lib.cycles, (double)lib.ticks / lib_seconds / 1e6,
           (double)mod.ticks / mod_seconds / 1e6, lib_seconds / mod_seconds);
    fflush(stdout);
}

int main(int argc, char **argv)
{
    unsigned times = argc > 1 ? (unsigned)strtoul(argv[1], NULL, 10) : 1;
    const struct geometry disks[2] = { { 80, 2, 18, 2, "80/2/18/N 2", times }, { 1, 1, 1, 1, "1/1/1/N 1", 5760 * times } };
    printf("| image       | DMA    | called by     | ticks     | cycles    | library, M/s | model, M/s | ratio |\n");
    printf("|---|---|---|---|---|---|---|---|\n");
    for (enum way way = RUNS_OF_TICKS; way < WAYS; way++)
        for (unsigned d = 0; d < 2; d++)
            for (enum deed deed = READ; deed <= (way == BLOCK_CALLS ? WRITE : FORMATTING); deed++)
                measure(&disks[d], deed, way);
    printf("M/s: million ticks a second; ratio: the library's time to the model's. A record has %u bytes, the model's %u.\n",
           (unsigned)bel_record_size(), (unsigned)sizeof(struct model));
    printf("Blocks read a second, %s, every %u-th in order: %.0f by the library, %.0f by the model.\n", disks[0].name, EVERY,
           blocks_a_second[0], blocks_a_second[1]);
    return 0;
}
