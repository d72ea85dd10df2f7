#include "images.h"

#include <stdlib.h>
#include <string.h>

#include "chance.h"

/* ---- the layout ---- */

static size_t length_of(const uint8_t *header)
{
    return 8 + (size_t)header[CYLINDERS] * header[HEADS] * model_track_size(header) + 3;
}

static void put_tag(uint8_t *at, uint8_t tag, size_t length)
{
    at[0] = tag;
    at[1] = (uint8_t)(length >> 8);
    at[2] = (uint8_t)length;
}

/* each sector's bytes tell where they are, so that a byte from a wrong place shows */
static void put_data(uint8_t *slot, size_t size)
{
    uint8_t start = any_byte(), stride = (uint8_t)(2 * below(128) + 1);
    for (size_t i = 0; i < size; i++)
        slot[5 + i] = (uint8_t)(start + i * stride);
}

static void put_slot(uint8_t *slot, uint8_t mark, uint8_t c, uint8_t h, uint8_t r, uint8_t n)
{
    const uint8_t bytes[5] = { mark, c, h, r, n };
    memcpy(slot, bytes, 5);
}

/* ---- tracks of several kinds ---- */

enum track_kind { SOUND, BLANK, FOREIGN, WILD };

static uint8_t usual_mark(void)
{
    static const uint8_t marks[20] = { 1, 1, 1, 1, 1, 1, 1, 1, 1, 2, 2, 2, 2, 3, 3, 4, 4, 5, 5, 0 };
    return marks[below(20)];
}

static uint8_t no_id_mark(void)
{
    static const uint8_t marks[4] = { 0, 6, 7, 0xFF };
    return marks[below(4)];
}

/* all normal, both kinds, or a few of each */
enum mixture { NORMAL, BOTH_KINDS, ALL_MARKS };

static uint8_t mark_by(enum mixture mixture)
{
    return mixture == NORMAL ? 1 : mixture == BOTH_KINDS ? (uint8_t)between(1, 2) : usual_mark();
}

static void put_foreign_slot(uint8_t *slot, uint8_t c, uint8_t h, uint8_t r, uint8_t n, unsigned kind)
{
    bool bad = kind == 0 || (kind == 2 && chance(500));
    put_slot(slot, usual_mark(), bad ? 0xFF : (uint8_t)(c + between(1, 3)), h, r, n);
}

static void put_wild_slot(uint8_t *slot, uint8_t c, uint8_t h, uint8_t n)
{
    put_slot(slot, chance(600) ? usual_mark() : chance(500) ? (uint8_t)below(8) : no_id_mark(),
             chance(800) ? c : chance(500) ? 0xFF : any_byte(), chance(900) ? h : any_byte(),
             chance(900) ? (uint8_t)between(1, 3) : any_byte(), chance(850) ? n : any_byte());
}

static enum track_kind any_kind(void)
{
    uint32_t k = below(20);
    return k < 13 ? SOUND : k < 14 ? BLANK : k < 17 ? FOREIGN : WILD;
}

static void shuffle(uint8_t *order, unsigned count)
{
    for (unsigned i = count; i > 1; i--) {
        unsigned j = below(i);
        uint8_t swapped = order[i - 1];
        order[i - 1] = order[j];
        order[j] = swapped;
    }
}

/* sound: sectors first .. first + S - 1 in any order */
static void put_track(uint8_t *track, const uint8_t *header, uint8_t c, uint8_t h, enum track_kind kind)
{
    uint8_t slots = header[SLOTS], n = header[SIZE_N], order[40];
    size_t size = (size_t)128 << n;
    uint8_t first = chance(860) ? 1 : (uint8_t)between(0xFC, 0xFF);
    uint32_t mixed = below(20);
    enum mixture mixture = mixed < 5 ? NORMAL : mixed < 12 ? BOTH_KINDS : ALL_MARKS;
    unsigned foreign = below(3);
    for (uint8_t k = 0; k < slots; k++)
        order[k] = (uint8_t)(first + k);
    if (chance(600))
        shuffle(order, slots);
    put_tag(track, 2, 2 + slots * (5 + size));
    track[3] = c;
    track[4] = h;
    for (unsigned k = 0; k < slots; k++) {
        uint8_t *slot = track + 5 + k * (5 + size);
        put_data(slot, size);
        if (kind == SOUND)
            put_slot(slot, mark_by(mixture), c, h, order[k], n);
        else if (kind == BLANK)
            put_slot(slot, no_id_mark(), c, h, order[k], n);
        else if (kind == FOREIGN)
            put_foreign_slot(slot, c, h, order[k], n, foreign);
        else
            put_wild_slot(slot, c, h, n);
    }
}

/* two slots of a track with one address, each with its own mark and bytes */
static void double_address(uint8_t *track, const uint8_t *header)
{
    size_t slot = 5 + ((size_t)128 << header[SIZE_N]);
    unsigned one = below(header[SLOTS]), other = below(header[SLOTS]);
    memcpy(track + 5 + one * slot + 1, track + 5 + other * slot + 1, 4);
}

/* ---- whole images ---- */

static struct image make_laid_out(const uint8_t *header, bool plain)
{
    struct image image = { NULL, length_of(header) };
    image.bytes = calloc(image.length + 1, 1); /* one more, for an image too long by a byte */
    if (!image.bytes)
        abort();
    put_tag(image.bytes, 1, HEADER_BYTES);
    memcpy(image.bytes + 3, header, HEADER_BYTES);
    uint8_t *track = image.bytes + 8;
    for (unsigned c = 0; c < header[CYLINDERS]; c++)
        for (unsigned h = 0; h < header[HEADS]; h++) {
            put_track(track, header, (uint8_t)c, (uint8_t)h, plain ? SOUND : any_kind());
            if (!plain && header[SLOTS] > 0 && chance(50))
                double_address(track, header);
            track += model_track_size(header);
        }
    put_tag(track, 3, 0);
    return image;
}

static void any_geometry(uint8_t *header)
{
    header[CYLINDERS] = (uint8_t)between(1, 3);
    header[HEADS] = chance(750) ? 2 : 1;
    header[SLOTS] = (uint8_t)between(1, 5);
    header[SIZE_N] = chance(850) ? 1 : (uint8_t)between(2, 3);
    header[PROTECT] = chance(60);
    if (chance(40)) {
        header[CYLINDERS] = chance(500) ? 82 : (uint8_t)between(4, 81);
        header[SLOTS] = 1;
        header[SIZE_N] = 1;
    } else if (chance(30)) {
        header[CYLINDERS] = 1;
        header[SLOTS] = chance(500) ? 36 : (uint8_t)between(6, 35);
    }
}

/* one field out of range; the image may still be as long as such a header asks */
static void spoil_geometry(uint8_t *header)
{
    static const uint8_t wrong[HEADER_BYTES][2] = { { 0, 83 }, { 0, 3 }, { 0, 37 }, { 0, 4 }, { 2, 255 } };
    unsigned which = chance(300) ? CYLINDERS : below(HEADER_BYTES);
    if (which == CYLINDERS || which == SLOTS) /* keep it small */
        header[CYLINDERS] = header[SLOTS] = header[SIZE_N] = 1;
    header[which] = wrong[which][chance(700)];
}

/* a wrong tag, a header changed, or a length that is not the header's */
static void spoil(struct image *image)
{
    unsigned which = below(8);
    if (which < 3)
        image->bytes[which] ^= (uint8_t)(chance(500) ? 1u << below(8) : between(1, 255));
    else if (which == 3)
        spoil_geometry(image->bytes + 3);
    else if (which < 7)
        image->length += which == 4 ? 1 : (size_t)-1;
    else
        image->length = below(9);
    if (image->length == 0) {
        free(image->bytes);
        image->bytes = NULL;
    }
}

struct image make_image(void)
{
    uint8_t header[HEADER_BYTES];
    if (chance(60))
        return (struct image){ NULL, 0 };
    any_geometry(header);
    if (chance(60))
        spoil_geometry(header);
    struct image image = make_laid_out(header, chance(200));
    if (chance(50))
        spoil(&image);
    return image;
}
