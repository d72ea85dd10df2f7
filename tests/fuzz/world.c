#include "world.h"

#include <stdlib.h>
#include <string.h>

#include "beleduritz.h"
#include "lent.h"

/* ---- bytes with guards around them ---- */

static uint8_t *guarded(const uint8_t *bytes, size_t length)
{
    uint8_t *block = malloc(length + 2 * GUARD);
    if (!block)
        abort();
    memset(block, GUARD_BYTE, length + 2 * GUARD);
    if (length > 0 && bytes)
        memcpy(block + GUARD, bytes, length);
    return block + GUARD;
}

static bool guard_holds(const uint8_t *bytes, size_t length)
{
    uint8_t whole[GUARD];
    memset(whole, GUARD_BYTE, GUARD);
    return memcmp(bytes - GUARD, whole, GUARD) == 0 && memcmp(bytes + length, whole, GUARD) == 0;
}

struct image image_copy(struct image image)
{
    struct image copy = { NULL, image.length };
    if (image.length == 0)
        return copy;
    copy.bytes = malloc(image.length);
    if (!copy.bytes)
        abort();
    memcpy(copy.bytes, image.bytes, image.length);
    return copy;
}

struct image image_guarded(struct image image)
{
    return (struct image){ image.length ? guarded(image.bytes, image.length) : NULL, image.length };
}

bool image_guard_holds(struct image image) { return !image.bytes || guard_holds(image.bytes, image.length); }

void image_free_guarded(struct image image)
{
    if (image.bytes)
        free(image.bytes - GUARD);
}

/* ---- opening and closing ---- */

static void mount(struct world *w, unsigned drive, struct image image)
{
    free(w->ours[drive].bytes);
    image_free_guarded(w->lent[drive]);
    w->ours[drive] = image_copy(image);
    w->lent[drive] = image_guarded(image);
}

void world_open(struct world *w, const struct episode *e)
{
    memset(w, 0, sizeof *w);
    w->episode = e;
    w->record_size = bel_record_size();
    w->record = guarded(NULL, w->record_size);
    w->len = w->record_size + e->spare;
    mount(w, 0, e->start[0]);
    mount(w, 1, e->start[1]);
}

void world_close(struct world *w)
{
    for (unsigned d = 0; d < 2; d++) {
        free(w->ours[d].bytes);
        image_free_guarded(w->lent[d]);
    }
    free(w->record - GUARD);
}

/* ---- one call on each ---- */

static uint32_t model_answers(struct world *w, const struct event *e)
{
    switch (e->call) {
    case POWER_ON:
        return model_power_on(&w->model, e->a, e->b);
    case READ_PORT:
        return model_read_port(&w->model, e->a);
    case WRITE_PORT:
        return model_write_port(&w->model, e->a, e->b);
    case DMA_READ:
        return model_dma_read(&w->model, e->a);
    case DMA_WRITE:
        return model_dma_write(&w->model, e->a, e->b);
    case NOTE_CHANGE:
        return model_note_change(&w->model, e->a);
    default:
        return model_tick(&w->model, w->ours[0], w->ours[1]);
    }
}

static uint32_t library_answers(struct world *w, const struct event *e)
{
    switch (e->call) {
    case POWER_ON:
        return bel_power_on(w->record, w->len, e->a, e->b);
    case READ_PORT:
        return bel_read_port(w->record, w->len, e->a);
    case WRITE_PORT:
        return bel_write_port(w->record, w->len, e->a, e->b);
    case DMA_READ:
        return bel_dma_read(w->record, w->len, e->a);
    case DMA_WRITE:
        return bel_dma_write(w->record, w->len, e->a, e->b);
    case NOTE_CHANGE:
        return bel_note_change(w->record, w->len, e->a);
    default:
        return bel_tick(w->record, w->len, lent(w->lent[0].bytes), w->lent[0].length, lent(w->lent[1].bytes),
                        w->lent[1].length);
    }
}

static uint32_t watched_model_answer(struct world *w, const struct event *e, watcher watch)
{
    if (!watch)
        return model_answers(w, e);
    struct model before = w->model;
    uint32_t word = model_answers(w, e);
    watch(&(struct moment){ .before = &before, .after = &w->model, .event = e, .word = word });
    return word;
}

/* ---- comparing ---- */

static struct difference differs(const char *what, uint32_t model, uint32_t library, uint32_t ticks)
{
    return (struct difference){ true, what, model, library, ticks };
}

static const struct difference none;

static struct difference compare_images(const struct world *w, uint32_t ticks)
{
    static const char *names[2] = { "image of drive 0", "image of drive 1" };
    for (unsigned d = 0; d < 2; d++) {
        const struct image *a = &w->ours[d], *b = &w->lent[d];
        if (!image_guard_holds(*b))
            return differs("bytes around an image", 0, 0, ticks);
        if (a->length == 0 || memcmp(a->bytes, b->bytes, a->length) == 0)
            continue;
        for (size_t i = 0; i < a->length; i++)
            if (a->bytes[i] != b->bytes[i])
                return differs(names[d], (uint32_t)i << 8 | a->bytes[i], (uint32_t)i << 8 | b->bytes[i], ticks);
    }
    return none;
}

static struct difference compare_words(const struct world *w, uint32_t model, uint32_t library, uint32_t ticks)
{
    if (model != library)
        return differs("answer", model, library, ticks);
    if (!guard_holds(w->record, w->record_size))
        return differs("bytes around the record", model, library, ticks);
    return none;
}

/* ---- events ---- */

/* a refused call leaves the record's bytes as they were; power-on (5) gives a fresh one */
static struct difference play_call(struct world *w, const struct event *e, watcher watch)
{
    uint8_t before[512];
    memcpy(before, w->record, w->record_size);
    uint32_t model = watched_model_answer(w, e, watch);
    uint32_t library = library_answers(w, e);
    w->calls++;
    bool refused = (library >> 8 & 0xFF) != 0 && e->call != POWER_ON;
    if (refused && memcmp(before, w->record, w->record_size) != 0)
        return differs("record after a refusal", model, library, 0);
    return compare_words(w, model, library, 0);
}

static struct difference play_ticks_one_by_one(struct world *w, const struct event *e, watcher watch)
{
    for (uint32_t i = 1; i <= e->n; i++) {
        uint32_t model = watched_model_answer(w, e, watch);
        uint32_t library = library_answers(w, e);
        w->calls++;
        w->ticks++;
        struct difference d = compare_words(w, model, library, i);
        if (!d.found)
            d = compare_images(w, i);
        if (d.found)
            return d;
    }
    return none;
}

enum { LINES = 3 << 16 };

/* bel_ticks: as many ticks of the model as its contract says, counted here and not by the model */
static struct difference play_ticks_at_once(struct world *w, const struct event *e, watcher watch)
{
    uint64_t library = bel_ticks(w->record, w->len, lent(w->lent[0].bytes), w->lent[0].length, lent(w->lent[1].bytes),
                                 w->lent[1].length, e->n);
    uint32_t before = model_read_port(&w->model, 4) & LINES, model = before, made = 0;
    while (made < e->n && (model & LINES) == before) {
        model = watched_model_answer(w, e, watch);
        made++;
    }
    w->calls++;
    w->ticks += made;
    if (made != library >> 32)
        return differs("ticks made by bel_ticks", made, (uint32_t)(library >> 32), made);
    struct difference d = compare_words(w, model, (uint32_t)library, made);
    return d.found ? d : compare_images(w, made);
}

/* ---- block calls ---- */

/* what a block call is lent: the block and the status, once for the model and once for the library */
struct lent_block { struct image slice, status; };

/* bytes that tell where they stand, so that one kept, cleared or given in a wrong place shows */
static struct image patterned(size_t length, uint8_t start)
{
    struct image image = { guarded(NULL, length), length };
    for (size_t i = 0; i < length; i++)
        image.bytes[i] = (uint8_t)(start + i * 7 + (i >> 8));
    return image;
}

static struct lent_block lend_block(const struct event *e)
{
    return (struct lent_block){ patterned(e->slice, e->b), patterned(e->status, (uint8_t)~e->b) };
}

static void take_back(struct lent_block *l)
{
    image_free_guarded(l->slice);
    image_free_guarded(l->status);
}

static uint32_t model_serves(struct world *w, const struct event *e, struct lent_block *l, struct service *made)
{
    if (e->call == BLOCK_READ)
        return model_block_read(&w->model, w->ours[0], w->ours[1], e->a, e->n, l->slice.bytes, l->slice.length,
                                l->status.bytes, l->status.length, made);
    return model_block_write(&w->model, w->ours[0], w->ours[1], e->a, e->n, l->slice.bytes, l->slice.length,
                             l->status.bytes, l->status.length, made);
}

static uint32_t library_serves(struct world *w, const struct event *e, struct lent_block *l)
{
    uint8_t *image0 = lent(w->lent[0].bytes), *image1 = lent(w->lent[1].bytes);
    if (e->call == BLOCK_READ)
        return bel_block_read(w->record, w->len, image0, w->lent[0].length, image1, w->lent[1].length, e->a, e->n,
                              l->slice.bytes, l->slice.length, l->status.bytes, l->status.length);
    return bel_block_write(w->record, w->len, image0, w->lent[0].length, image1, w->lent[1].length, e->a, e->n,
                           l->slice.bytes, l->slice.length, l->status.bytes, l->status.length);
}

static struct difference compare_bytes(const char *what, struct image model, struct image library)
{
    if (!guard_holds(library.bytes, library.length))
        return differs("bytes around a block or its status", 0, 0, 0);
    for (size_t i = 0; i < model.length; i++)
        if (model.bytes[i] != library.bytes[i])
            return differs(what, (uint32_t)i << 8 | model.bytes[i], (uint32_t)i << 8 | library.bytes[i], 0);
    return none;
}

static struct difference compare_blocks(const struct world *w)
{
    for (unsigned d = 0; d < 2; d++) {
        uint32_t model = model_blocks(w->ours[d]), library = bel_blocks(lent(w->lent[d].bytes), w->lent[d].length);
        if (model != library)
            return differs("blocks of an image", model, library, 0);
    }
    return none;
}

static struct difference compare_lent(const struct world *w, const struct lent_block *ours, const struct lent_block *theirs)
{
    struct difference d = compare_bytes("status", ours->status, theirs->status);
    if (!d.found)
        d = compare_bytes("block", ours->slice, theirs->slice);
    if (!d.found)
        d = compare_images(w, 0);
    return d.found ? d : compare_blocks(w);
}

/* refused: the record's bytes as they were; the model has left image, block and status so */
static struct difference play_block(struct world *w, const struct event *e, watcher watch)
{
    struct lent_block ours = lend_block(e), theirs = lend_block(e);
    struct service made = { .each = w->each, .whose = w->whose };
    struct model before = w->model;
    uint8_t record[512];
    memcpy(record, w->record, w->record_size);
    uint32_t model = model_serves(w, e, &ours, &made);
    uint32_t library = library_serves(w, e, &theirs);
    if (watch)
        watch(&(struct moment){ &before, &w->model, e, model, ours.status.bytes, &made });
    w->calls++;
    w->ticks += made.ticks;
    w->inside += made.calls;
    struct difference d = compare_words(w, model, library, 0);
    if (!d.found && library >> 8 & 0xFF && memcmp(record, w->record, w->record_size) != 0)
        d = differs("record after a refusal", model, library, 0);
    if (!d.found)
        d = compare_lent(w, &ours, &theirs);
    take_back(&ours);
    take_back(&theirs);
    return d;
}

static void poke(struct world *w, const struct event *e)
{
    if (e->n < w->ours[e->a].length)
        w->ours[e->a].bytes[e->n] = w->lent[e->a].bytes[e->n] = e->b;
}

struct difference world_play(struct world *w, const struct event *e, watcher watch)
{
    switch (e->call) {
    case SWAP:
        mount(w, e->a, w->episode->pool[e->n]);
        return none;
    case POKE:
        poke(w, e);
        return none;
    case TICK:
        return play_ticks_one_by_one(w, e, watch);
    case TICKS:
        return play_ticks_at_once(w, e, watch);
    case BLOCK_READ:
    case BLOCK_WRITE:
        return play_block(w, e, watch);
    default:
        return play_call(w, e, watch);
    }
}
