/* The checked examples of document 01, and some of 02's requests, played through the library's interface: on the model
 * they show that it read the documents right, on the library that it did. One line for each example; status 1 if one
 * fails. */
#include <stdbool.h>
#include <stdio.h>
#include <stdlib.h>
#include <string.h>

#include "beleduritz.h"
#include "lent.h"

enum { INT_LINE = 1 << 16, DRQ_LINE = 1 << 17 };

static uint8_t record[512];
static uint8_t *image;
static size_t length;
static unsigned failed;
static bool holds;          /* the example at work, so far */

static void expect(bool fact) { holds = holds && fact; }

static void example(const char *name)
{
    printf("example %s: %s\n", name, holds ? "holds" : "FAILS");
    failed += !holds;
    holds = true;
}

/* ---- a small host ---- */

static uint32_t write_port(uint8_t offset, uint8_t byte) { return bel_write_port(record, sizeof record, offset, byte); }
static uint32_t read_port(uint8_t offset) { return bel_read_port(record, sizeof record, offset); }
static uint32_t tick(void) { return bel_tick(record, sizeof record, lent(image), length, lent(NULL), 0); }

static uint32_t ticks(unsigned n)
{
    uint32_t word = 0;
    for (unsigned i = 0; i < n; i++)
        word = tick();
    return word;
}

static void send(const uint8_t *bytes, unsigned count)
{
    for (unsigned i = 0; i < count; i++)
        expect((write_port(5, bytes[i]) & 0xFF00) == 0);
}

#define SEND(...) send((const uint8_t[]){ __VA_ARGS__ }, sizeof((const uint8_t[]){ __VA_ARGS__ }))

static void expect_bytes(const uint8_t *bytes, unsigned count)
{
    for (unsigned i = 0; i < count; i++)
        expect((read_port(5) & 0xFFFF) == bytes[i]);
}

#define EXPECT(...) expect_bytes((const uint8_t[]){ __VA_ARGS__ }, sizeof((const uint8_t[]){ __VA_ARGS__ }))

/* power on, the reset released with motor 0 on, its four reports taken; Configure: EFIFO 1, FIFOTHR 0 */
static void start(uint8_t head)
{
    bel_power_on(record, sizeof record, head, 0);
    write_port(2, 0x1C);
    for (uint8_t d = 0; d < 4; d++) {
        SEND(0x08);
        EXPECT((uint8_t)(0xC0 | d), 0x00);
    }
    SEND(0x13, 0x00, 0x20, 0x00);
}

/* sectors 1 .. S in order, all normal; each begins with its track and R */
static void make_image(uint8_t cylinders, uint8_t sides, uint8_t slots, uint8_t n)
{
    size_t sector = (size_t)128 << n, track = 5 + slots * (5 + sector);
    free(image);
    length = 8 + cylinders * sides * track + 3;
    image = calloc(length, 1);
    if (!image)
        abort();
    memcpy(image, (const uint8_t[]){ 1, 0, 5, cylinders, sides, slots, n, 0 }, 8);
    for (unsigned t = 0; t < (unsigned)cylinders * sides; t++) {
        uint8_t *at = image + 8 + t * track, c = (uint8_t)(t / sides), h = (uint8_t)(t % sides);
        memcpy(at, (const uint8_t[]){ 2, (uint8_t)((track - 3) >> 8), (uint8_t)(track - 3), c, h }, 5);
        for (unsigned k = 0; k < slots; k++) {
            uint8_t *slot = at + 5 + k * (5 + sector), r = (uint8_t)(k + 1);
            memcpy(slot, (const uint8_t[]){ 1, c, h, r, n, (uint8_t)t, r }, 7);
        }
    }
    image[length - 3] = 3;
}

/* the first byte that a read of this sector hands over; it is put at `offset` before */
static void expect_byte_at(size_t offset, uint8_t c, uint8_t h, uint8_t r)
{
    uint8_t byte = (uint8_t)(image[offset + 5] ^ 0xFF);
    image[offset + 5] = byte;
    start(c);
    SEND(0x46, (uint8_t)(h << 2), c, h, r, 0x02, r, 0x1B, 0xFF);
    uint32_t word = 0;
    while (!(word & (INT_LINE | DRQ_LINE)))
        word = tick();
    expect((word & DRQ_LINE) && (bel_dma_read(record, sizeof record, 1) & 0xFF) == byte);
}

/* ---- the examples ---- */

static void step_time(uint8_t srt, unsigned expected)
{
    start(0);
    SEND(0x03, (uint8_t)(srt << 4), 0x00);
    SEND(0x0F, 0x00, 0x01);
    expect(!(ticks(expected - 1) & INT_LINE));
    expect(tick() & INT_LINE);
}

static void codes(void)
{
    start(0);
    SEND(0x06);
    EXPECT(0x80);
    SEND(0x46);
    for (unsigned i = 1; i < 9; i++) {
        expect((read_port(4) & 0xFF) == 0x90);
        SEND(0x00);
    }
    expect((read_port(4) & 0xFF) == 0x10);
}

/* an image of a length one off is not mounted: Sense Drive then shows no protection */
static void length_is(uint8_t cylinders, uint8_t sides, uint8_t slots, uint8_t n, size_t expected)
{
    make_image(cylinders, sides, slots, n);
    expect(length == expected);
    image[7] = 1;
    for (unsigned less = 0; less < 2; less++) {
        start(0);
        SEND(0x04, 0x00);
        length = expected - less;
        tick();
        EXPECT(less ? 0x38 : 0x78);
    }
    length = expected;
    image[7] = 0;
}

/* a read of one sector, TC with its first byte: the address that the result gives */
static void next_is(uint8_t code, uint8_t side, uint8_t c, uint8_t h, uint8_t r, uint8_t eot, const uint8_t *expected)
{
    start(c);
    SEND(code, (uint8_t)(side << 2), c, h, r, 0x01, eot, 0x1B, 0xFF);
    uint32_t word = 0;
    while (!(word & (INT_LINE | DRQ_LINE)))
        word = tick();
    word = bel_dma_read(record, sizeof record, 1);
    while (!(word & INT_LINE))
        word = tick();
    EXPECT((uint8_t)(side << 2), 0x00, 0x00);
    expect_bytes(expected, 3);
}

static void next_addresses(void)
{
    make_image(6, 2, 9, 1);
    next_is(0x46, 0, 4, 0, 8, 9, (const uint8_t[]){ 4, 0, 9 });
    next_is(0x46, 0, 4, 0, 9, 9, (const uint8_t[]){ 5, 0, 1 });
    next_is(0xC6, 0, 4, 0, 9, 9, (const uint8_t[]){ 4, 1, 1 });
    next_is(0xC6, 1, 4, 1, 9, 9, (const uint8_t[]){ 5, 0, 1 });
}

/* tick 1 tests, tick 2 finds slot 0, then a byte a tick */
static void read_request_at(uint8_t fifothr, unsigned expected)
{
    start(0);
    SEND(0x13, 0x00, fifothr, 0x00);
    SEND(0x46, 0x00, 0x00, 0x00, 0x01, 0x01, 0x01, 0x1B, 0xFF);
    expect(!(ticks(2 + expected - 1) & DRQ_LINE));
    expect(tick() & DRQ_LINE);
}

static void recalibrate_from(uint8_t head, uint8_t report, uint8_t left)
{
    start(head);
    SEND(0x03, 0xF0, 0x00);
    SEND(0x07, 0x00);
    expect(!(ticks(79 * 63 - 1) & INT_LINE));
    expect(tick() & INT_LINE);
    SEND(0x08);
    EXPECT(report, 0x00);
    /* so many steps more to track 0 */
    SEND(0x07, 0x00);
    expect(!(ticks(left ? left * 63 - 1 : 0) & INT_LINE));
    expect(tick() & INT_LINE);
    SEND(0x08);
    EXPECT(0x20, 0x00);
}

static void empty_read(void)
{
    free(image);
    image = NULL;
    length = 0;
    start(0);
    SEND(0x46, 0x00, 0x00, 0x00, 0x01, 0x02, 0x01, 0x1B, 0xFF);
    expect(tick() & INT_LINE);
    EXPECT(0x40, 0x01, 0x00);
}

/* the write's stores: broken mark, B bytes, good mark; each tick that stores is counted */
static void stores(unsigned count, uint8_t mark, unsigned bytes)
{
    make_image(1, 1, 1, 1);
    memset(image + 18, 0x00, 256);
    start(0);
    SEND(0x45, 0x00, 0x00, 0x00, 0x01, 0x01, 0x01, 0x1B, 0xFF);
    uint32_t word = ticks(2);
    for (unsigned i = 0; i < count; i++) {
        if (word & DRQ_LINE)
            bel_dma_write(record, sizeof record, 0xE5, i == 256);
        word = tick();
    }
    expect(image[13] == mark);
    for (unsigned i = 0; i < 256; i++)
        expect(image[18 + i] == (i < bytes ? 0xE5 : 0x00));
}

/* ---- 02 2026-02, the short save ---- */

static uint8_t saved(unsigned i) { return (uint8_t)(i % 251 + 1); }

static uint8_t *slot_of(unsigned k) { return image + 13 + k * (5 + (128u << image[6])); }

/* bytes handed over while DRQ is on and then none, with no TC; the last tick stores the last of them */
static void save(uint8_t code, uint8_t eot, unsigned count)
{
    start(0);
    SEND(code, 0x00, 0x00, 0x00, 0x01, image[6], eot, 0x1B, 0xFF);
    for (unsigned i = 0; i <= count; i++) {
        uint32_t word = 0;
        while (!(word & (INT_LINE | DRQ_LINE)))
            word = tick();
        expect(word & DRQ_LINE);
        if (i < count)
            bel_dma_write(record, sizeof record, saved(i), 0);
    }
}

/* so many bytes of the save, those after `before`, and zeros behind them */
static void expect_slot(unsigned slot, uint8_t mark, unsigned before, unsigned bytes)
{
    expect(slot_of(slot)[0] == mark);
    for (unsigned i = 0; i < 128u << image[6]; i++)
        expect(slot_of(slot)[5 + i] == (i < bytes ? saved(before + i) : 0));
}

/* the sector in hand is filled up: the first zero falls in the tick that misses a byte, the good mark in the last */
static void finished(unsigned slot, uint8_t mark, unsigned before, unsigned bytes)
{
    unsigned zeros = (128u << image[6]) - bytes;
    expect(!(tick() & (DRQ_LINE | INT_LINE)));
    expect(bel_dma_write(record, sizeof record, 0x99, 1) == 3u << 8); /* no byte follows, and no TC */
    expect(!(ticks(zeros - 1) & INT_LINE));
    expect_slot(slot, mark + 2, before, bytes);
    expect(tick() & INT_LINE);
    expect_slot(slot, mark, before, bytes);
}

/* of any length that leaves a sector short */
static void short_save(unsigned count)
{
    uint8_t last = (uint8_t)(count / 256);
    make_image(1, 1, 2, 1);
    memset(slot_of(last) + 5, 0xE5, 256);
    save(0x45, 2, count);
    finished(last, 1, last * 256u, count % 256);
    EXPECT(0x40, 0x10, 0x00, 0x00, 0x00, last + 1, 0x01); /* at EOT too: no 80, and the address is not the next one */
    if (last > 0)
        expect_slot(0, 1, 0, 256);
}

static void short_saves(void)
{
    for (unsigned count = 1; count < 512; count++) /* 300 among them, the club's */
        if (count != 256)
            short_save(count);
    make_image(1, 1, 2, 2);
    memset(slot_of(0) + 5, 0xE5, 512);
    save(0x45, 2, 300);
    finished(0, 1, 0, 300);
    EXPECT(0x40, 0x10, 0x00, 0x00, 0x00, 0x01, 0x02);
    make_image(1, 2, 1, 1);
    save(0xC9, 1, 44); /* deleted; MT on side 0 makes no turn */
    finished(0, 2, 0, 44);
    EXPECT(0x40, 0x10, 0x00, 0x00, 0x00, 0x01, 0x01);
}

/* the first byte of a sector is taken and the second is not: the tick of the third finds the FIFO full */
static void overrun(uint8_t mark, uint8_t st1, uint8_t st2)
{
    make_image(1, 2, 1, 1);
    image[13] = mark;
    start(0);
    SEND(0xC6, 0x00, 0x00, 0x00, 0x01, 0x01, 0x01, 0x1B, 0xFF);
    expect(ticks(3) & DRQ_LINE);
    bel_dma_read(record, sizeof record, 0);
    expect(tick() & DRQ_LINE);
    expect(!(tick() & (DRQ_LINE | INT_LINE)));
    expect(bel_dma_read(record, sizeof record, 1) == 3u << 8);
    expect(!(ticks(256 - 3) & INT_LINE)); /* the lost byte's tick was the third of 256 */
    expect(tick() & INT_LINE);
    EXPECT(0x40, st1, st2, 0x00, 0x00, 0x01, 0x01);
}

/* the waits stay: before a sector's first byte, and after a read's last, where a broken mark adds nothing */
static void waits(void)
{
    make_image(1, 1, 2, 1);
    save(0x45, 2, 256);
    ticks(2); /* the good mark, and slot 1 */
    expect(!(ticks(63) & INT_LINE));
    expect(tick() & INT_LINE);
    EXPECT(0x40, 0x10, 0x00, 0x00, 0x00, 0x02, 0x01);
    expect(slot_of(1)[0] == 1 && slot_of(1)[6] == 2);
    slot_of(0)[0] = 3;
    SEND(0x46, 0x00, 0x00, 0x00, 0x01, 0x01, 0x02, 0x1B, 0xFF);
    uint32_t word = ticks(3);
    for (unsigned i = 0; i < 255; i++) {
        expect(word & DRQ_LINE);
        bel_dma_read(record, sizeof record, 0);
        word = tick();
    }
    expect(!(ticks(63) & INT_LINE));
    expect(tick() & INT_LINE);
    EXPECT(0x40, 0x10, 0x00, 0x00, 0x00, 0x01, 0x01);
}

/* what is set stays set: a disk pulled, or its motor off, in the rest of the sector, which stays broken */
static void gone(bool pulled)
{
    make_image(1, 1, 2, 1);
    memset(slot_of(0) + 5, 0xE5, 256);
    save(0x45, 2, 44);
    ticks(101);
    if (pulled)
        length = 0;
    else
        write_port(2, 0x0C);
    expect(tick() & INT_LINE);
    EXPECT(0x40, 0x11, 0x00, 0x00, 0x00, 0x01, 0x01);
    expect(slot_of(0)[0] == 3);
    for (unsigned i = 44; i < 256; i++)
        expect(slot_of(0)[5 + i] == (i < 44 + 101 ? 0x00 : 0xE5));
}

static void port_log(void)
{
    bel_power_on(record, sizeof record, 0, 0);
    expect(write_port(2, 0x0C) == INT_LINE);
    expect(read_port(4) == (INT_LINE | 0x80));
    expect(write_port(5, 0x10) == INT_LINE);
    expect(read_port(4) == (INT_LINE | 0xD0));
    expect(read_port(5) == (INT_LINE | 0x90));
    expect(read_port(4) == (INT_LINE | 0x80));
    expect(read_port(0) == (INT_LINE | 1 << 8));
}

int main(void)
{
    holds = true;
    step_time(0, 1000);
    step_time(13, 188);
    step_time(15, 63);
    example("1, step times");
    codes();
    example("2, codes");
    length_is(1, 1, 1, 1, 277);
    length_is(80, 2, 18, 2, 1489771);
    example("3, lengths");
    expect_byte_at(9324, 0, 1, 1);
    expect_byte_at(1489251, 79, 1, 18);
    example("4, offsets");
    next_addresses();
    example("5, next addresses");
    read_request_at(0, 15);
    read_request_at(7, 8);
    read_request_at(15, 1);
    example("6, read requests");
    recalibrate_from(79, 0x20, 0);
    recalibrate_from(80, 0x70, 1);
    example("7, Recalibrate");
    start(0);
    SEND(0x04, 0x00);
    tick();
    EXPECT(0x38);
    example("8, Sense Drive");
    empty_read();
    example("9, an empty drive");
    stores(100, 3, 99);
    stores(258, 1, 256);
    example("10, stores");
    short_saves();
    example("2026-02, short saves");
    overrun(1, 0x10, 0x00);
    overrun(3, 0x30, 0x20);
    overrun(2, 0x10, 0x40);
    overrun(4, 0x30, 0x60);
    example("2026-02, overruns");
    waits();
    example("2026-02, the waits stay");
    gone(true);
    gone(false);
    example("2026-02, a disk gone after a missing byte");
    port_log();
    example("portlog");
    free(image);
    return failed != 0;
}
