#include "samples.h"

#include <stdlib.h>
#include <string.h>

#include "chance.h"

enum { LONGER = 40 }; /* bytes that an image may be too long by */

struct sample {
    uint8_t header[HEADER_BYTES];
    struct image image; /* with room for LONGER bytes more */
    size_t slot, track; /* bytes of each */
    unsigned tracks;
};

/* ---- places: the first and the last come often ---- */

static unsigned any_place(unsigned count)
{
    uint32_t which = below(10);
    return which < 3 ? 0 : which < 6 ? count - 1 : below(count);
}

static uint8_t *track_at(const struct sample *s, unsigned t) { return s->image.bytes + 8 + t * s->track; }
static uint8_t *any_track(const struct sample *s) { return track_at(s, any_place(s->tracks)); }
static uint8_t *slot_at(const struct sample *s, uint8_t *track, unsigned k) { return track + 5 + k * s->slot; }

static uint8_t *any_slot(const struct sample *s, uint8_t *track)
{
    return slot_at(s, track, any_place(s->header[SLOTS]));
}

/* ---- a sound image ---- */

static void any_geometry(uint8_t *header)
{
    header[CYLINDERS] = (uint8_t)between(1, 3);
    header[HEADS] = (uint8_t)between(1, 2);
    header[SLOTS] = (uint8_t)between(1, 6);
    header[SIZE_N] = chance(900) ? 1 : (uint8_t)between(1, 3);
    header[PROTECT] = chance(100);
    if (chance(30)) {
        header[CYLINDERS] = 1;
        header[SLOTS] = chance(500) ? 36 : (uint8_t)between(7, 35);
    } else if (chance(8)) {
        header[CYLINDERS] = chance(500) ? 82 : (uint8_t)between(4, 81);
        header[SLOTS] = (uint8_t)between(1, 4);
    }
}

static void put_tag(uint8_t *at, uint8_t tag, size_t length)
{
    at[0] = tag;
    at[1] = (uint8_t)(length >> 8);
    at[2] = (uint8_t)length;
}

/* how the slots of a track differ: by sector number as on a usual disk, under another C, H and N, or by any one byte */
enum addresses { USUAL, FOREIGN, BY_ONE_BYTE };

/* numbers that wrap round 256, so that no two of 36 are equal */
static void put_addresses(const struct sample *s, uint8_t *track, enum addresses kind)
{
    uint8_t base[4] = { track[3], track[4], 1, s->header[SIZE_N] };
    unsigned moving = 2;
    if (kind != USUAL)
        for (unsigned i = 0; i < 4; i++)
            base[i] = chance(500) ? (uint8_t)below(4) : any_byte();
    if (kind == BY_ONE_BYTE)
        moving = below(4);
    for (unsigned k = 0; k < s->header[SLOTS]; k++) {
        uint8_t *slot = slot_at(s, track, k);
        slot[0] = chance(900) ? (uint8_t)between(1, 5) : 0;
        memcpy(slot + 1, base, 4);
        slot[1 + moving] = (uint8_t)(base[moving] + k);
    }
}

static void put_track(const struct sample *s, unsigned t)
{
    uint8_t *track = track_at(s, t);
    put_tag(track, 2, s->track - 3);
    track[3] = (uint8_t)(t / s->header[HEADS]);
    track[4] = (uint8_t)(t % s->header[HEADS]);
    put_addresses(s, track, chance(500) ? USUAL : chance(400) ? FOREIGN : BY_ONE_BYTE);
}

/* the sectors' bytes are those of a tag, a mark or an address, so that a judge that looks there is found */
static void lay_out(struct sample *s)
{
    any_geometry(s->header);
    s->slot = 5 + ((size_t)128 << s->header[SIZE_N]);
    s->track = 5 + s->header[SLOTS] * s->slot;
    s->tracks = (unsigned)s->header[CYLINDERS] * s->header[HEADS];
    s->image.length = 8 + s->tracks * s->track + 3;
    s->image.bytes = malloc(s->image.length + LONGER);
    if (!s->image.bytes)
        abort();
    memset(s->image.bytes, chance(500) ? (int)below(7) : any_byte(), s->image.length + LONGER);
    put_tag(s->image.bytes, 1, HEADER_BYTES);
    memcpy(s->image.bytes + 3, s->header, HEADER_BYTES);
    for (unsigned t = 0; t < s->tracks; t++)
        put_track(s, t);
    put_tag(s->image.bytes + s->image.length - 3, 3, 0);
}

/* ---- damage ---- */

static void damage_byte(uint8_t *at)
{
    uint32_t how = below(4);
    *at = how == 0 ? any_byte() : how == 1 ? *at ^ (uint8_t)(1u << below(8)) : how == 2 ? *at + 1 : *at - 1;
}

/* just out of range, or still in it but another disk's */
static void damage_header(struct sample *s)
{
    static const uint8_t outside[HEADER_BYTES][2] = { { 0, 83 }, { 0, 3 }, { 0, 37 }, { 0, 4 }, { 2, 255 } };
    unsigned which = any_place(8);
    if (which >= 3 && chance(500))
        s->image.bytes[which] = outside[which - 3][below(2)];
    else
        damage_byte(s->image.bytes + which);
}

static void damage_length(struct sample *s)
{
    size_t length = 8 + s->tracks * s->track + 3;
    switch (below(6)) {
    case 0:
        length--;
        break;
    case 1:
        length++;
        break;
    case 2:
        length += below(LONGER) + 1;
        break;
    case 3:
        length = below((uint32_t)length);
        break;
    case 4:
        length = below(10);
        break;
    default:
        length = 8;
        break;
    }
    s->image.length = length;
}

static uint8_t no_mark(void)
{
    static const uint8_t marks[4] = { 6, 7, 0x80, 0xFF };
    return chance(500) ? marks[below(4)] : (uint8_t)between(6, 255);
}

static void damage_mark(struct sample *s)
{
    uint8_t *slot = any_slot(s, any_track(s));
    slot[0] = chance(700) ? no_mark() : any_byte();
}

/* one slot's address at another, or all of it but a byte; the marks stay or become those of slots without an address */
static void copy_address(struct sample *s)
{
    uint8_t *track = any_track(s);
    unsigned k = any_place(s->header[SLOTS]), j = k > 0 && chance(100) ? k - 1 : any_place(s->header[SLOTS]);
    uint8_t *one = slot_at(s, track, k), *other = slot_at(s, track, j);
    memcpy(one + 1, other + 1, 4);
    if (chance(250))
        damage_byte(one + 1 + below(4));
    if (chance(150))
        (chance(500) ? one : other)[0] = 0;
    if (chance(150))
        (chance(500) ? one : other)[0] = no_mark();
}

static void copy_to_another_track(struct sample *s)
{
    memcpy(any_slot(s, any_track(s)) + 1, any_slot(s, any_track(s)) + 1, 4);
}

/* two or three addresses at four slots of a track, in any order */
static void copy_groups(struct sample *s)
{
    static const uint8_t orders[6][4] = { { 0, 1, 1, 0 }, { 0, 1, 0, 1 }, { 0, 0, 1, 1 }, { 0, 1, 2, 0 },
                                          { 0, 1, 1, 1 }, { 0, 1, 2, 1 } };
    uint8_t *track = any_track(s), ids[3][4];
    const uint8_t *order = orders[below(6)];
    if (s->header[SLOTS] < 4)
        return;
    for (unsigned i = 0; i < 3; i++)
        memcpy(ids[i], any_slot(s, track) + 1, 4);
    ids[1][below(4)] ^= 1; /* often all of the first but a byte */
    ids[2][2] ^= 2;
    unsigned k = below(s->header[SLOTS] - 3u);
    for (unsigned i = 0; i < 4; i++) {
        uint8_t *slot = slot_at(s, track, k);
        memcpy(slot + 1, ids[order[i]], 4);
        if (slot[0] == 0 && chance(700))
            slot[0] = (uint8_t)between(1, 5);
        k += 1 + (k + 4 - i < s->header[SLOTS] && chance(300));
    }
}

static void damage(struct sample *s)
{
    uint32_t which = below(100);
    if (which < 8)
        damage_header(s);
    else if (which < 16)
        damage_length(s);
    else if (which < 28)
        damage_byte(any_track(s) + below(3));
    else if (which < 38)
        damage_byte(any_track(s) + between(3, 4));
    else if (which < 50)
        damage_mark(s);
    else if (which < 70)
        copy_address(s);
    else if (which < 75)
        copy_to_another_track(s);
    else if (which < 88)
        copy_groups(s);
    else
        damage_byte(track_at(s, s->tracks) + below(3));
}

/* ---- whole ---- */

/* as many bytes as the image has, so that a look behind them is found by a tool that finds such looks */
static struct image fitted(struct image image)
{
    struct image fit = { NULL, image.length };
    if (image.length > 0) {
        fit.bytes = malloc(image.length);
        if (!fit.bytes)
            abort();
        memcpy(fit.bytes, image.bytes, image.length);
    }
    free(image.bytes);
    return fit;
}

struct image make_sample(void)
{
    struct sample s;
    uint32_t which = below(10);
    unsigned times = which < 2 ? 0 : which < 6 ? 1 : between(2, 4);
    lay_out(&s);
    for (unsigned i = 0; i < times; i++)
        damage(&s);
    if (chance(20))
        s.image.length = below(9);
    return fitted(s.image);
}
