#include "damage.h"

#include <stdio.h>
#include <stdlib.h>
#include <string.h>

#include "beleduritz.h"
#include "lent.h"
#include "chance.h"

static unsigned long tried, refused, short_tried, blocks_tried, blocks_refused;

static void spoil(uint8_t *bytes, size_t size)
{
    uint8_t version = bytes[0];
    switch (below(4)) {
    case 0: /* random bytes */
        for (size_t i = 0; i < size; i++)
            bytes[i] = any_byte();
        break;
    case 1: /* one bit */
        bytes[below((uint32_t)size)] ^= (uint8_t)(1u << below(8));
        break;
    case 2: /* one byte */
        bytes[below((uint32_t)size)] = any_byte();
        break;
    default: /* a run of one value */
        memset(bytes + below((uint32_t)size / 2), chance(500) ? 0xFF : any_byte(), 1 + below((uint32_t)size / 2));
        break;
    }
    if (chance(900)) /* another version is refused before anything else is asked */
        bytes[0] = version;
}

/* what a block call is lent besides: the block and its status */
enum { BLOCK, STATUS, BESIDES };

static uint32_t any_block_call(uint8_t *record, size_t len, const struct image *i, const struct image *b, uint8_t drive)
{
    uint8_t *image0 = lent(i[0].bytes), *image1 = lent(i[1].bytes);
    uint32_t block = below(16);
    if (chance(500))
        return bel_block_read(record, len, image0, i[0].length, image1, i[1].length, drive, block, b[BLOCK].bytes,
                              b[BLOCK].length, b[STATUS].bytes, b[STATUS].length);
    return bel_block_write(record, len, image0, i[0].length, image1, i[1].length, drive, block, b[BLOCK].bytes,
                           b[BLOCK].length, b[STATUS].bytes, b[STATUS].length);
}

/* refused, whatever the number: block and status too are as they were */
static const char *block_call_on(struct image record, size_t len, struct image *images, uint32_t *word)
{
    uint8_t bytes[1024];
    memset(bytes, 0xA7, sizeof bytes);
    uint8_t drive = (uint8_t)below(chance(900) ? 2 : 4);
    bool good = drive < 2 && model_blocks(images[drive]) > 0;
    size_t size = good && chance(950) ? (size_t)128 << images[drive].bytes[3 + SIZE_N] : below(sizeof bytes + 1);
    struct image besides[BESIDES] = { image_guarded((struct image){ bytes, size }),
                                      image_guarded((struct image){ bytes, chance(900) ? 7 : below(10) }) };
    *word = any_block_call(record.bytes, len, images, besides, drive);
    bool changed = false, guarded = true;
    for (unsigned k = 0; k < BESIDES; k++) {
        changed = changed || (besides[k].length > 0 && memcmp(besides[k].bytes, bytes, besides[k].length) != 0);
        guarded = guarded && image_guard_holds(besides[k]);
        image_free_guarded(besides[k]);
    }
    blocks_tried++;
    blocks_refused += (*word >> 8 & 0xFF) == 4;
    if (!guarded)
        return "a block call on a damaged record wrote outside what it was lent";
    return (*word >> 8 & 0xFF) != 0 && changed ? "a refused block call changed the block or its status" : NULL;
}

/* the whole of bel_ticks' word: a refusal has made no tick */
static uint64_t any_library_call(uint8_t *record, size_t len, const struct image *i)
{
    switch (below(7)) {
    case 0:
        return bel_read_port(record, len, (uint8_t)below(9));
    case 1:
        return bel_write_port(record, len, (uint8_t)below(9), any_byte());
    case 2:
        return bel_dma_read(record, len, (uint8_t)below(2));
    case 3:
        return bel_dma_write(record, len, any_byte(), (uint8_t)below(2));
    case 4:
        return bel_note_change(record, len, (uint8_t)below(3));
    case 5:
        return bel_ticks(record, len, lent(i[0].bytes), i[0].length, lent(i[1].bytes), i[1].length, below(400));
    default:
        return bel_tick(record, len, lent(i[0].bytes), i[0].length, lent(i[1].bytes), i[1].length);
    }
}

static bool same(struct image a, struct image b) { return a.length == 0 || memcmp(a.bytes, b.bytes, a.length) == 0; }

/* a few calls in a row on one damaged record, since a call may carry the damage on */
static const char *calls_on(struct image record, size_t len, struct image *lent)
{
    for (unsigned i = 0; i < 6; i++) {
        struct image was = image_copy(record);
        struct image before[2] = { image_copy(lent[0]), image_copy(lent[1]) };
        uint32_t answer = 0;
        bool block = chance(150);
        const char *wrong = block ? block_call_on(record, len, lent, &answer) : NULL;
        uint64_t word = block ? answer : any_library_call(record.bytes, len, lent);
        bool four = (word >> 8 & 0xFF) == 4;
        bool unchanged = same(was, record) && same(before[0], lent[0]) && same(before[1], lent[1]);
        bool guarded = image_guard_holds(record) && image_guard_holds(lent[0]) && image_guard_holds(lent[1]);
        free(was.bytes);
        free(before[0].bytes);
        free(before[1].bytes);
        tried++;
        refused += four;
        if (wrong)
            return wrong;
        if (!guarded)
            return "a call on a damaged record wrote outside what it was lent";
        if (four && !unchanged)
            return "refusal 4 changed the record or an image";
        /* the lines are that record's, which nobody here can tell */
        if (four && (word & ~(uint64_t)(3 << 16)) != 4 << 8)
            return "refusal 4 came with a value or a tick";
        if (len < bel_record_size() && !four)
            return "too few bytes did not get refusal 4";
    }
    return NULL;
}

static const char *short_power_on(struct image record, size_t len)
{
    struct image was = image_copy(record);
    uint32_t word = bel_power_on(record.bytes, len, 0, 0);
    bool unchanged = same(was, record);
    free(was.bytes);
    if (len < bel_record_size() && (word != 4 << 8 || !unchanged))
        return "power-on on too few bytes did not get refusal 4, or changed them";
    return NULL;
}

const char *damage_try(const struct world *w, unsigned times)
{
    const char *wrong = NULL;
    for (unsigned i = 0; i < times && !wrong; i++) {
        struct image record = image_guarded((struct image){ w->record, w->record_size });
        struct image lent[2] = { image_guarded(w->ours[0]), image_guarded(w->ours[1]) };
        size_t len = chance(850) ? w->record_size : below((uint32_t)w->record_size);
        short_tried += len < w->record_size;
        if (chance(900))
            spoil(record.bytes, record.length);
        wrong = calls_on(record, len, lent);
        if (!wrong && len < w->record_size)
            wrong = short_power_on(record, len);
        image_free_guarded(record);
        image_free_guarded(lent[0]);
        image_free_guarded(lent[1]);
    }
    return wrong;
}

void damage_print(void)
{
    printf("Damaged records\n%10lu  calls\n%10lu  answered by refusal 4\n%10lu  records of too few bytes\n", tried, refused,
           short_tried);
    printf("%10lu  block calls among them\n%10lu  answered by refusal 4\n", blocks_tried, blocks_refused);
}
