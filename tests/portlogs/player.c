/* player LOG none|plain|protected: plays a recorded port log on the library, command by command. Where the log has RQM or
 * INT on, it ticks until they are; while ticking it serves DMA as the log's `# dma` line says, TC with the last byte. Every
 * value read must be as recorded, INT must change where `# irq` says and nowhere else, bytes read by DMA must be the
 * sectors' that the command names, and a formatted track must carry the IDs and the fill byte sent.
 *
 * The images of the recorded runs are not known. Assumed: drive 0 empty; or 80/2/18/N 2, sectors 1 to 18 in order, all
 * normal, each filled with bytes that tell its address; protected or not. Drive 1 empty; heads at 0. */
#include <stdbool.h>
#include <stdint.h>
#include <stdio.h>
#include <stdlib.h>
#include <string.h>

#include "beleduritz.h"
#include "lent.h"

enum { CYLINDERS = 80, SIDES = 2, SLOTS = 18, N = 2, SECTOR = 512, SLOT = 5 + SECTOR, TRACK = 5 + SLOTS * SLOT };
enum { IMAGE = 8 + CYLINDERS * SIDES * TRACK + 3, PATIENCE = 200000 };
enum { FIFO = 5, MSR = 4, RQM = 0x80, INT_LINE = 1 << 16, DRQ_LINE = 1 << 17 };
enum { SEND_MOST = 4096 };

static uint8_t record[512];
static uint8_t *image;
static size_t image_length;

static uint32_t word;            /* the last answer */
static unsigned line;            /* of the log */
static unsigned calls, values, interrupts, differences;
static unsigned long ticks, dma_bytes;

static bool interrupt(void) { return word & INT_LINE; }

static void differ(const char *what, unsigned recorded, unsigned seen)
{
    printf("line %u: %s: recorded %02X, seen %02X\n", line, what, recorded, seen);
    differences++;
}

/* ---- the image ---- */

static uint8_t pattern(unsigned c, unsigned h, unsigned r, unsigned i)
{
    return (uint8_t)(c * 7 + h * 101 + r * 13 + i * 3 + i / 256);
}

static uint8_t *track_at(unsigned c, unsigned h) { return image + 8 + (c * SIDES + h) * TRACK; }

static void put_tag(uint8_t *at, uint8_t tag, unsigned length)
{
    at[0] = tag;
    at[1] = (uint8_t)(length >> 8);
    at[2] = (uint8_t)length;
}

static void make_track(unsigned c, unsigned h)
{
    uint8_t *track = track_at(c, h);
    put_tag(track, 2, TRACK - 3);
    track[3] = (uint8_t)c;
    track[4] = (uint8_t)h;
    for (unsigned k = 0; k < SLOTS; k++) {
        uint8_t *slot = track + 5 + k * SLOT;
        const uint8_t id[5] = { 1, (uint8_t)c, (uint8_t)h, (uint8_t)(k + 1), N };
        memcpy(slot, id, 5);
        for (unsigned i = 0; i < SECTOR; i++)
            slot[5 + i] = pattern(c, h, k + 1, i);
    }
}

static void make_image(bool protect)
{
    const uint8_t header[5] = { CYLINDERS, SIDES, SLOTS, N, protect };
    image_length = IMAGE;
    image = calloc(IMAGE, 1);
    if (!image)
        abort();
    put_tag(image, 1, 5);
    memcpy(image + 3, header, 5);
    for (unsigned c = 0; c < CYLINDERS; c++)
        for (unsigned h = 0; h < SIDES; h++)
            make_track(c, h);
    put_tag(image + IMAGE - 3, 3, 0);
}

static const uint8_t *sector(unsigned c, unsigned h, unsigned r)
{
    for (unsigned k = 0; image && c < CYLINDERS && h < SIDES && k < SLOTS; k++) {
        const uint8_t *slot = track_at(c, h) + 5 + k * SLOT;
        if (slot[1] == c && slot[2] == h && slot[3] == r)
            return slot + 5;
    }
    return NULL;
}

/* ---- the command being sent, and its DMA ---- */

static uint8_t command[16];
static unsigned sent;

static struct { bool armed, out; unsigned count, moved; uint8_t bytes[SEND_MOST]; } dma;

/* byte number i of a read: R on to EOT, then, by MT, side 1 from R 1 */
static int byte_wanted(unsigned i)
{
    unsigned h = command[1] >> 2 & 1, r = command[4] + i / SECTOR;
    if (r > command[6] && h == 0 && (command[0] & 0x80)) {
        r -= command[6];
        h = 1;
    }
    const uint8_t *data = sector(command[2], h, r);
    return data ? data[i % SECTOR] : -1;
}

static void serve_dma(void)
{
    uint8_t tc = ++dma.moved == dma.count;
    unsigned i = dma.moved - 1;
    dma_bytes++;
    if (dma.out) {
        word = bel_dma_write(record, sizeof record, dma.bytes[i], tc);
        return;
    }
    word = bel_dma_read(record, sizeof record, tc);
    if ((int)(word & 0xFF) != byte_wanted(i))
        differ("DMA byte", (unsigned)byte_wanted(i), word & 0xFF);
}

/* a DMA controller serves no request after its count; Format still asks then */
static void tick(void)
{
    if ((word & DRQ_LINE) && dma.armed && dma.moved < dma.count) {
        serve_dma();
        return;
    }
    uint64_t made = bel_ticks(record, sizeof record, lent(image), image_length, lent(NULL), 0, 1000);
    word = (uint32_t)made;
    ticks += made >> 32;
}

/* after Format: IDs as sent, in their order, and the fill byte */
static void check_formatted(void)
{
    unsigned side = command[1] >> 2 & 1;
    const uint8_t *track = track_at(dma.bytes[0], side);
    for (unsigned k = 0; k < SLOTS; k++) {
        const uint8_t *slot = track + 5 + k * SLOT;
        bool good = slot[0] == 1 && memcmp(slot + 1, dma.bytes + 4 * k, 4) == 0;
        for (unsigned i = 0; i < SECTOR; i++)
            good = good && slot[5 + i] == command[5];
        if (!good)
            differ("formatted slot", k, slot[0]);
    }
}

static void check_dma(void)
{
    if (!dma.armed)
        return;
    if (dma.moved != dma.count)
        differ("DMA bytes", dma.count, dma.moved);
    else if (command[0] == 0x4D)
        check_formatted();
    dma.armed = false;
}

/* ---- lines of the log ---- */

static uint32_t status(void) { return bel_read_port(record, sizeof record, MSR); }

static void wait_for_rqm(void)
{
    for (unsigned i = 0; i < PATIENCE && !(status() & RQM); i++)
        tick();
}

static void wait_for_interrupt(void)
{
    for (unsigned i = 0; i < PATIENCE && !interrupt(); i++)
        tick();
}

static bool recorded_interrupt;

static void check_interrupt(void)
{
    if (interrupt() != recorded_interrupt)
        differ("INT", recorded_interrupt, interrupt());
    recorded_interrupt = interrupt();
}

static void play_write(unsigned offset, unsigned byte)
{
    if (offset == FIFO) {
        wait_for_rqm();
        if (!(status() & 0x10))
            sent = 0;
        if (sent < sizeof command)
            command[sent++] = (uint8_t)byte;
    }
    word = bel_write_port(record, sizeof record, (uint8_t)offset, (uint8_t)byte);
    calls++;
    if (word >> 8 & 0xFF)
        differ("refusal", 0, word >> 8 & 0xFF);
}

static void play_read(unsigned offset, unsigned recorded)
{
    if (offset == FIFO || (offset == MSR && (recorded & RQM)))
        wait_for_rqm();
    word = bel_read_port(record, sizeof record, (uint8_t)offset);
    calls++;
    values++;
    if ((word & 0xFFFF) != recorded)
        differ("value", recorded, word & 0xFFFF);
}

static void play_irq(unsigned on)
{
    if (on)
        wait_for_interrupt();
    if (on)
        check_dma();
    interrupts++;
    recorded_interrupt = on;
}

static void play_dma(char way, unsigned count, const char *hex)
{
    unsigned byte;
    memset(&dma, 0, sizeof dma);
    dma.armed = true;
    dma.out = way == 'w';
    dma.count = dma.out && count > SEND_MOST ? SEND_MOST : count;
    for (unsigned i = 0; dma.out && i < SEND_MOST && sscanf(hex + 2 * i, "%2x", &byte) == 1; i++)
        dma.bytes[i] = (uint8_t)byte;
}

static bool play_line(const char *text)
{
    unsigned a, b;
    char way;
    int at = 0;
    if (sscanf(text, "# irq %u", &a) == 1) {
        play_irq(a);
        return true;
    }
    if (sscanf(text, "# dma %c %u %n", &way, &a, &at) == 2) {
        play_dma(way, a, text + at);
        return true;
    }
    if (text[0] == '#' || text[0] == '\n')
        return true;
    check_interrupt();
    if (sscanf(text, "w %x %x", &a, &b) == 2)
        play_write(a, b);
    else if (sscanf(text, "r %x -> %x", &a, &b) == 2)
        play_read(a, b);
    else
        return false;
    return true;
}

int main(int argc, char **argv)
{
    char text[2 * SEND_MOST + 64];
    FILE *log = argc == 3 ? fopen(argv[1], "r") : NULL;
    if (!log) {
        fprintf(stderr, "player: LOG none|plain|protected\n");
        return 2;
    }
    if (strcmp(argv[2], "none") != 0)
        make_image(strcmp(argv[2], "protected") == 0);
    word = bel_power_on(record, sizeof record, 0, 0);
    for (line = 1; fgets(text, sizeof text, log); line++)
        if (!play_line(text)) {
            fprintf(stderr, "player: %s line %u: not understood\n", argv[1], line);
            return 2;
        }
    check_interrupt();
    fclose(log);
    free(image);
    printf("%u calls, %u values compared, %u changes of INT, %lu bytes by DMA, %lu ticks, %u differences\n", calls, values,
           interrupts, dma_bytes, ticks, differences);
    return differences != 0;
}
