#include "cover_judge.h"

#include <string.h>

#include "judge.h"
#include "rows.h"

static struct rows rows;

static void row(const char *group, const char *name, bool met) { rows_count(&rows, group, name, met); }

/* ---- the image as its header lays it out ---- */

/* read anew here, and not by the judge's code */
static struct {
    struct image image;
    uint32_t kind;
    size_t at;
    bool laid;            /* header in range: all below is known */
    unsigned slots, heads, tracks;
    size_t slot, track, asked;
    unsigned t, k;        /* track and slot of the fault; track `tracks` is the end field */
    size_t within;        /* offset inside of the track */
} seen;

static void see(struct image image, uint64_t word)
{
    memset(&seen, 0, sizeof seen);
    seen.image = image;
    seen.kind = FAULT_KIND(word);
    seen.at = FAULT_AT(word);
    seen.laid = seen.kind != HEADER_FAULT;
    if (!seen.laid)
        return;
    const uint8_t *header = image.bytes + 3;
    seen.slots = header[SLOTS];
    seen.heads = header[HEADS];
    seen.tracks = (unsigned)header[CYLINDERS] * header[HEADS];
    seen.slot = 5 + ((size_t)128 << header[SIZE_N]);
    seen.track = 5 + seen.slots * seen.slot;
    seen.asked = 8 + seen.tracks * seen.track + 3;
    if (seen.kind == NO_FAULT || seen.kind == LENGTH_FAULT)
        return;
    seen.t = (unsigned)((seen.at - 8) / seen.track);
    seen.within = (seen.at - 8) % seen.track;
    seen.k = seen.within < 5 ? 0 : (unsigned)((seen.within - 5) / seen.slot);
}

static const uint8_t *track_of(unsigned t) { return seen.image.bytes + 8 + t * seen.track; }
static const uint8_t *slot_of(unsigned t, unsigned k) { return track_of(t) + 5 + k * seen.slot; }

static bool addressed(const uint8_t *slot) { return slot[0] > 0 && slot[0] < 6; }
static bool alike(const uint8_t *a, const uint8_t *b) { return memcmp(a + 1, b + 1, 4) == 0; }

/* which of the four bytes differ, a bit for each */
static unsigned unlike(const uint8_t *a, const uint8_t *b)
{
    unsigned bits = 0;
    for (unsigned i = 0; i < 4; i++)
        bits |= (unsigned)(a[1 + i] != b[1 + i]) << i;
    return bits;
}

/* ---- every fault of the whole tracks that are there, found one by one ---- */

static bool track_wrong(unsigned t)
{
    const uint8_t *at = track_of(t);
    return at[0] != 2 || (size_t)(at[1] << 8 | at[2]) != seen.track - 3;
}

static bool place_wrong(unsigned t)
{
    const uint8_t *at = track_of(t);
    return at[3] != t / seen.heads || at[4] != t % seen.heads;
}

static bool mark_wrong(unsigned t)
{
    bool wrong = false;
    for (unsigned k = 0; k < seen.slots; k++)
        wrong = wrong || slot_of(t, k)[0] > 5;
    return wrong;
}

static bool twice(unsigned t)
{
    bool found = false;
    for (unsigned k = 1; k < seen.slots; k++)
        for (unsigned j = 0; j < k && addressed(slot_of(t, k)); j++)
            found = found || (addressed(slot_of(t, j)) && alike(slot_of(t, j), slot_of(t, k)));
    return found;
}

/* the kinds that are somewhere in the image, whatever was named */
static bool there[FAULT_KINDS];

static void look_round(void)
{
    memset(there, 0, sizeof there);
    if (!seen.laid)
        return;
    size_t have = seen.image.length < seen.asked ? seen.image.length : seen.asked;
    for (unsigned t = 0; t < seen.tracks && 8 + (t + 1) * seen.track <= have; t++) {
        there[TRACK_FAULT] = there[TRACK_FAULT] || track_wrong(t);
        there[PLACE_FAULT] = there[PLACE_FAULT] || place_wrong(t);
        there[MARK_FAULT] = there[MARK_FAULT] || mark_wrong(t);
        there[TWICE_FAULT] = there[TWICE_FAULT] || twice(t);
    }
    if (have == seen.asked)
        there[END_FAULT] = memcmp(seen.image.bytes + have - 3, "\3\0\0", 3) != 0;
}

/* ---- sound ---- */

/* what pairs of slots are on a sound image's tracks */
static struct { unsigned only; bool zero_earlier, zero_later, other_n, across; } pairs;

static void note_pair(const uint8_t *a, const uint8_t *b)
{
    if (addressed(a) && addressed(b))
        pairs.only |= 1u << unlike(a, b);
    if (!alike(a, b))
        return;
    pairs.zero_earlier = pairs.zero_earlier || (a[0] == 0 && addressed(b));
    pairs.zero_later = pairs.zero_later || (b[0] == 0 && addressed(a));
}

static void note_pairs(void)
{
    memset(&pairs, 0, sizeof pairs);
    if (seen.kind != NO_FAULT)
        return;
    for (unsigned t = 0; t < seen.tracks; t++)
        for (unsigned k = 0; k < seen.slots; k++) {
            const uint8_t *slot = slot_of(t, k);
            pairs.other_n = pairs.other_n || (addressed(slot) && slot[4] != seen.image.bytes[3 + SIZE_N]);
            for (unsigned j = 0; j < k; j++)
                note_pair(slot_of(t, j), slot);
            pairs.across = pairs.across || (t > 0 && addressed(slot) && addressed(slot_of(t - 1, k)) &&
                                            alike(slot, slot_of(t - 1, k)));
        }
}

static void cover_sound(void)
{
    bool sound = seen.kind == NO_FAULT;
    const uint8_t *header = sound ? seen.image.bytes + 3 : (const uint8_t[HEADER_BYTES]){ 0 };
    note_pairs();
    row("sound", "sound", sound);
    row("sound", "one slot alone", sound && seen.tracks == 1 && seen.slots == 1);
    row("sound", "two heads", header[HEADS] == 2);
    row("sound", "82 cylinders", header[CYLINDERS] == 82);
    row("sound", "36 slots", header[SLOTS] == 36);
    row("sound", "N 2", header[SIZE_N] == 2);
    row("sound", "N 3", header[SIZE_N] == 3);
    row("sound", "protected", header[PROTECT] == 1);
    row("sound", "tracks longer than 32767 bytes", sound && seen.track > 32767);
    row("sound", "a slot's N is not the header's", pairs.other_n);
    row("sound", "all alike but C", pairs.only >> 1 & 1);
    row("sound", "all alike but H", pairs.only >> 2 & 1);
    row("sound", "all alike but R", pairs.only >> 4 & 1);
    row("sound", "all alike but N", pairs.only >> 8 & 1);
    row("sound", "an address, and the same later at mark 0", pairs.zero_later);
    row("sound", "mark 0, and the same address later", pairs.zero_earlier);
    row("sound", "an address on two tracks", pairs.across);
}

/* ---- header and length ---- */

static void cover_header(void)
{
    static const char *at[8] = { "at 0", "at 1", "at 2", "at 3", "at 4", "at 5", "at 6", "at 7" };
    bool header = seen.kind == HEADER_FAULT, inside = header && seen.at < seen.image.length;
    bool whole = inside && seen.image.length >= 8, cut = inside && seen.image.length < 8;
    uint8_t byte = inside ? seen.image.bytes[seen.at] : 0;
    for (unsigned i = 0; i < 8; i++)
        row("header", at[i], whole && seen.at == i);
    row("header", "no cylinders", whole && seen.at == 3 && byte == 0);
    row("header", "83 cylinders", whole && seen.at == 3 && byte == 83);
    row("header", "no heads", whole && seen.at == 4 && byte == 0);
    row("header", "3 heads", whole && seen.at == 4 && byte == 3);
    row("header", "no slots", whole && seen.at == 5 && byte == 0);
    row("header", "37 slots", whole && seen.at == 5 && byte == 37);
    row("header", "N 0", whole && seen.at == 6 && byte == 0);
    row("header", "N 4", whole && seen.at == 6 && byte == 4);
    row("header", "protect 2", whole && seen.at == 7 && byte == 2);
    row("header", "empty image", header && seen.image.length == 0);
    row("header", "image under 8: wrong at 0", cut && seen.at == 0);
    row("header", "image under 8: wrong at its last byte", cut && seen.at > 0 && seen.at + 1 == seen.image.length);
    row("header", "image under 8: wrong before its last byte", cut && seen.at > 0 && seen.at + 1 < seen.image.length);
    row("header", "one byte, and right", header && !inside && seen.image.length == 1);
    row("header", "seven bytes, and right", header && !inside && seen.image.length == 7);
    row("header", "eight bytes alone, one wrong", whole && seen.image.length == 8);
}

static void cover_length(void)
{
    bool length = seen.kind == LENGTH_FAULT;
    size_t given = seen.image.length, asked = seen.asked;
    row("length", "given under asked", length && given < asked);
    row("length", "given over asked", length && given > asked);
    row("length", "a byte too few", length && given + 1 == asked);
    row("length", "a byte too many", length && given == asked + 1);
    row("length", "eight right bytes and no more", length && given == 8);
    row("length", "nine bytes", length && given == 9);
    row("length", "hides a track", length && there[TRACK_FAULT]);
    row("length", "hides a place", length && there[PLACE_FAULT]);
    row("length", "hides a mark", length && there[MARK_FAULT]);
    row("length", "hides an address twice", length && there[TWICE_FAULT]);
    row("length", "hides the end", length && there[END_FAULT]);
}

/* ---- tracks ---- */

/* among several tracks, so that the two are not one */
static bool first_track(void) { return seen.t == 0 && seen.tracks > 1; }
static bool last_track(void) { return seen.t + 1 == seen.tracks && seen.tracks > 1; }

static void cover_track(void)
{
    bool track = seen.kind == TRACK_FAULT;
    const uint8_t *at = track ? track_of(seen.t) : NULL;
    row("track", "tag", track && seen.within == 0);
    row("track", "high byte", track && seen.within == 1);
    row("track", "low byte", track && seen.within == 2);
    row("track", "first track: tag", track && first_track() && seen.within == 0);
    row("track", "last track: low byte", track && last_track() && seen.within == 2);
    row("track", "tag and length", track && at[0] != 2 && (size_t)(at[1] << 8 | at[2]) != seen.track - 3);
    row("track", "both bytes of the length", track && seen.within == 1 && at[2] != (uint8_t)(seen.track - 3));
    row("track", "and a place on the same", track && place_wrong(seen.t));
}

static void cover_place(void)
{
    bool place = seen.kind == PLACE_FAULT;
    const uint8_t *at = place ? track_of(seen.t) : NULL;
    row("place", "cylinder", place && seen.within == 3);
    row("place", "side", place && seen.within == 4);
    row("place", "first track: cylinder", place && first_track() && seen.within == 3);
    row("place", "last track: side", place && last_track() && seen.within == 4);
    row("place", "both", place && seen.within == 3 && at[4] != seen.t % seen.heads);
    row("place", "side 0's on side 1", place && seen.within == 4 && seen.heads == 2 && at[4] == 0);
    row("place", "side 1 of one head", place && seen.within == 4 && seen.heads == 1 && at[4] == 1);
    row("place", "and a mark on the same", place && mark_wrong(seen.t));
}

/* ---- slots ---- */

/* whether the slot of the fault has an address that was met before it on its track, at a slot that has one */
static bool met_before(void)
{
    bool met = false;
    for (unsigned j = 0; j < seen.k; j++)
        met = met || (addressed(slot_of(seen.t, j)) && alike(slot_of(seen.t, j), slot_of(seen.t, seen.k)));
    return met;
}

/* whether it comes again behind, at a slot that has an address */
static bool meets_after(void)
{
    bool met = false;
    for (unsigned j = seen.k + 1; j < seen.slots; j++)
        met = met || (addressed(slot_of(seen.t, j)) && alike(slot_of(seen.t, j), slot_of(seen.t, seen.k)));
    return met;
}

static void cover_mark(void)
{
    bool mark = seen.kind == MARK_FAULT;
    uint8_t is = mark ? slot_of(seen.t, seen.k)[0] : 0;
    row("mark", "slot 0 of the first track", mark && first_track() && seen.k == 0);
    row("mark", "last slot of the last track", mark && last_track() && seen.k > 0 && seen.k + 1 == seen.slots);
    row("mark", "slot 35", mark && seen.k == 35);
    row("mark", "6", is == 6);
    row("mark", "7", is == 7);
    row("mark", "80", is == 0x80);
    row("mark", "FF", is == 0xFF);
    row("mark", "on an address met before", mark && met_before());
    row("mark", "on an address that comes again", mark && meets_after());
    row("mark", "and an address twice on the same track", mark && twice(seen.t));
}

/* the first slot with the address of the fault, and what is round the two */
static struct {
    unsigned first;
    bool zero_before, around, crossed, behind, same_r, third, mark_behind;
} pair;

/* a pair of another address: round the two, from between them on, or behind; its later slot is behind, since the fault
 * is the first */
static void note_others(unsigned j, unsigned k)
{
    const uint8_t *a = slot_of(seen.t, j), *b = slot_of(seen.t, k), *own = slot_of(seen.t, seen.k);
    if (!addressed(a) || !addressed(b) || !alike(a, b) || alike(a, own))
        return;
    pair.around = pair.around || (j < pair.first && k > seen.k);
    pair.crossed = pair.crossed || (j > pair.first && j < seen.k && k > seen.k);
    pair.behind = pair.behind || j > seen.k;
    pair.same_r = pair.same_r || a[3] == own[3];
}

static void note_fault(void)
{
    const uint8_t *own = slot_of(seen.t, seen.k);
    memset(&pair, 0, sizeof pair);
    while (!addressed(slot_of(seen.t, pair.first)) || !alike(slot_of(seen.t, pair.first), own))
        pair.first++;
    for (unsigned j = 0; j < seen.k; j++)
        pair.zero_before = pair.zero_before || (slot_of(seen.t, j)[0] == 0 && alike(slot_of(seen.t, j), own));
    for (unsigned k = 0; k < seen.slots; k++)
        for (unsigned j = 0; j < k; j++)
            note_others(j, k);
    pair.third = meets_after();
    for (unsigned k = seen.k + 1; k < seen.slots; k++)
        pair.mark_behind = pair.mark_behind || slot_of(seen.t, k)[0] > 5;
}

static void cover_twice(void)
{
    static const char *first[5] = { "first mark 1", "first mark 2", "first mark 3", "first mark 4", "first mark 5" };
    static const char *later[5] = { "later mark 1", "later mark 2", "later mark 3", "later mark 4", "later mark 5" };
    bool twice = seen.kind == TWICE_FAULT;
    memset(&pair, 0, sizeof pair);
    const uint8_t none[5] = { 0 }, *a = none, *b = none;
    if (twice) {
        note_fault();
        a = slot_of(seen.t, pair.first);
        b = slot_of(seen.t, seen.k);
    }
    row("twice", "slots 0 and 1 of the first track", twice && first_track() && seen.k == 1);
    row("twice", "last slot of the last track", twice && last_track() && seen.k > 1 && seen.k + 1 == seen.slots);
    row("twice", "slots 0 and 35", twice && pair.first == 0 && seen.k == 35);
    row("twice", "slots 34 and 35", twice && pair.first == 34 && seen.k == 35);
    row("twice", "marks differ", a[0] != b[0]);
    for (unsigned m = 1; m <= 5; m++)
        row("twice", first[m - 1], a[0] == m);
    for (unsigned m = 1; m <= 5; m++)
        row("twice", later[m - 1], b[0] == m);
    row("twice", "N is not the header's", twice && b[4] != seen.image.bytes[3 + SIZE_N]);
    row("twice", "mark 0 with the address before", pair.zero_before);
    row("twice", "three times", pair.third);
    row("twice", "A B B A", pair.around);
    row("twice", "A B A B", pair.crossed);
    row("twice", "A A B B", pair.behind);
    row("twice", "two groups with one R", pair.same_r);
    row("twice", "and a mark behind on the same track", pair.mark_behind);
}

/* ---- end ---- */

static void cover_end(void)
{
    bool end = seen.kind == END_FAULT;
    size_t within = end ? seen.at + 3 - seen.asked : 0;
    const uint8_t *at = end ? seen.image.bytes + seen.asked - 3 : (const uint8_t[3]){ 3, 0, 0 };
    row("end", "tag", end && within == 0);
    row("end", "high byte", end && within == 1);
    row("end", "low byte", end && within == 2);
    row("end", "tag and low byte", end && within == 0 && at[2] != 0);
    row("end", "both bytes of the length", end && within == 1 && at[2] != 0);
}

/* each kind before each other that a file may have behind it */
static void cover_order(void)
{
    static const char *kinds[4][5] = {
        { "", "track before place", "track before mark", "track before twice", "track before end" },
        { "place before track", "", "place before mark", "place before twice", "place before end" },
        { "mark before track", "mark before place", "", "mark before twice", "mark before end" },
        { "twice before track", "twice before place", "twice before mark", "", "twice before end" },
    };
    for (unsigned i = 0; i < 4; i++)
        for (unsigned j = 0; j < 5; j++)
            if (i != j)
                row("order", kinds[i][j], seen.kind == TRACK_FAULT + i && there[TRACK_FAULT + j]);
}

static void cover_far(void)
{
    static const char *kinds[5] = { "track", "place", "mark", "twice", "end" };
    for (unsigned i = 0; i < 5; i++)
        row("above 65535", kinds[i], seen.kind == TRACK_FAULT + i && seen.at > 65535);
}

void cover_judge(struct image image, uint64_t word)
{
    rows.place = 0;
    see(image, word);
    look_round();
    cover_sound();
    cover_header();
    cover_length();
    cover_track();
    cover_place();
    cover_mark();
    cover_twice();
    cover_end();
    cover_order();
    cover_far();
}

unsigned cover_judge_print(void) { return rows_print(&rows); }
