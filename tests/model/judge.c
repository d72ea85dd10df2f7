#include "judge.h"

enum { HEADER_FIELD = 8, TRACK_FIELD = 3, PLACE_BYTES = 2, SLOT_HEAD = 5, END_FIELD = 3 };

struct fault { enum fault_kind kind; size_t at; };

static const struct fault no_fault = { NO_FAULT, 0 };

/* ---- header and length ---- */

/* tag 01 and length 5, then the header: what each byte may be */
static const struct { uint8_t least, most; } header_range[HEADER_FIELD] = {
    { 0x01, 0x01 }, { 0x00, 0x00 }, { 0x05, 0x05 },
    { 1, 82 }, /* cylinders */
    { 1, 2 },  /* heads */
    { 1, 36 }, /* slots */
    { 1, 3 },  /* N */
    { 0, 1 },  /* protect */
};

/* an image that ends inside of its header has its fault at the end, where no byte before is wrong */
static struct fault judge_header(struct image image)
{
    for (size_t i = 0; i < HEADER_FIELD; i++)
        if (i == image.length || image.bytes[i] < header_range[i].least || image.bytes[i] > header_range[i].most)
            return (struct fault){ HEADER_FAULT, i };
    return no_fault;
}

/* in bytes: a slot, a track with its tag, the whole image */
struct laid { unsigned heads, slots, tracks; size_t slot, track, whole; };

static struct laid laid_out(const uint8_t *header)
{
    struct laid l;
    l.heads = header[HEADS];
    l.slots = header[SLOTS];
    l.tracks = (unsigned)header[CYLINDERS] * header[HEADS];
    l.slot = SLOT_HEAD + ((size_t)128 << header[SIZE_N]);
    l.track = TRACK_FIELD + PLACE_BYTES + l.slots * l.slot;
    l.whole = HEADER_FIELD + l.tracks * l.track + END_FIELD;
    return l;
}

static struct fault judge_length(size_t given, size_t asked)
{
    if (given == asked)
        return no_fault;
    return (struct fault){ LENGTH_FAULT, given < asked ? given : asked };
}

/* ---- tracks ---- */

/* the first of some bytes that is not as it should be */
static struct fault judge_bytes(struct image image, size_t at, const uint8_t *right, size_t count, enum fault_kind kind)
{
    for (size_t i = 0; i < count; i++)
        if (image.bytes[at + i] != right[i])
            return (struct fault){ kind, at + i };
    return no_fault;
}

static bool has_address(const uint8_t *slot) { return slot[0] >= 1 && slot[0] <= 5; }

static bool same_address(const uint8_t *a, const uint8_t *b)
{
    return a[1] == b[1] && a[2] == b[2] && a[3] == b[3] && a[4] == b[4];
}

/* slot k of the track whose slots begin at `slots` */
static struct fault judge_slot(struct image image, const struct laid *l, size_t slots, unsigned k)
{
    size_t at = slots + k * l->slot;
    const uint8_t *slot = image.bytes + at;
    if (slot[0] > 5)
        return (struct fault){ MARK_FAULT, at };
    for (unsigned j = 0; j < k; j++) {
        const uint8_t *earlier = image.bytes + slots + j * l->slot;
        if (has_address(slot) && has_address(earlier) && same_address(slot, earlier))
            return (struct fault){ TWICE_FAULT, at };
    }
    return no_fault;
}

static struct fault judge_track(struct image image, const struct laid *l, unsigned t)
{
    size_t at = HEADER_FIELD + t * l->track, length = l->track - TRACK_FIELD;
    const uint8_t field[TRACK_FIELD] = { 0x02, (uint8_t)(length >> 8), (uint8_t)length };
    const uint8_t place[PLACE_BYTES] = { (uint8_t)(t / l->heads), (uint8_t)(t % l->heads) };
    struct fault f = judge_bytes(image, at, field, TRACK_FIELD, TRACK_FAULT);
    at += TRACK_FIELD;
    if (f.kind == NO_FAULT)
        f = judge_bytes(image, at, place, PLACE_BYTES, PLACE_FAULT);
    at += PLACE_BYTES;
    for (unsigned k = 0; k < l->slots && f.kind == NO_FAULT; k++)
        f = judge_slot(image, l, at, k);
    return f;
}

/* ---- the whole ---- */

static struct fault judge_end(struct image image, const struct laid *l)
{
    static const uint8_t end_field[END_FIELD] = { 0x03, 0x00, 0x00 };
    return judge_bytes(image, l->whole - END_FIELD, end_field, END_FIELD, END_FAULT);
}

static struct fault judge_image(struct image image)
{
    struct fault f = judge_header(image);
    if (f.kind != NO_FAULT)
        return f;
    struct laid l = laid_out(image.bytes + 3);
    f = judge_length(image.length, l.whole);
    for (unsigned t = 0; t < l.tracks && f.kind == NO_FAULT; t++)
        f = judge_track(image, &l, t);
    return f.kind == NO_FAULT ? judge_end(image, &l) : f;
}

uint64_t model_judge(struct image image)
{
    struct fault f = judge_image(image);
    return (uint64_t)f.at << 32 | f.kind;
}
