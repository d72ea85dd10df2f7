#include "shrink.h"

#include <stdio.h>
#include <stdlib.h>
#include <string.h>

/* ---- playing a candidate ---- */

/* calls that shrinking may still make: a log that stays long is not worth minutes */
static unsigned long budget;
enum { SHRINK_CALLS = 5000000, TC_TRIES = 48, INSIDE_A_CALL = 4 };

struct difference episode_play(const struct episode *e, size_t *at)
{
    struct world w;
    struct difference d = { 0 };
    world_open(&w, e);
    size_t i = 0;
    for (; i < e->count; i++) {
        d = world_play(&w, &e->events[i], NULL);
        if (d.found)
            break;
    }
    *at = i;
    unsigned long made = w.calls + w.inside / INSIDE_A_CALL;
    budget -= made < budget ? made : budget;
    world_close(&w);
    return d;
}

static void make_room(struct episode *e, size_t count)
{
    if (count <= e->room)
        return;
    e->room = 2 * count;
    e->events = realloc(e->events, e->room * sizeof *e->events);
    if (!e->events)
        abort();
}

/* If the candidate still differs, it takes the episode's place, cut off behind the call that shows it. */
static bool keep_if_differs(struct episode *e, struct episode *candidate)
{
    size_t at;
    bool differs = candidate->count > 0 && budget > 0 && episode_play(candidate, &at).found;
    if (differs) {
        candidate->count = at + 1;
        make_room(e, candidate->count);
        memcpy(e->events, candidate->events, candidate->count * sizeof *e->events);
        e->count = candidate->count;
        memcpy(e->start, candidate->start, sizeof e->start);
        e->spare = candidate->spare;
    }
    return differs;
}

static struct episode copy_of(const struct episode *e)
{
    struct episode c = *e;
    c.events = NULL;
    c.room = 0;
    make_room(&c, e->count);
    memcpy(c.events, e->events, e->count * sizeof *e->events);
    return c;
}

/* ---- ways to make it smaller; each says whether it did ---- */

static bool drop(struct episode *e, size_t from, size_t count)
{
    struct episode c = copy_of(e);
    memmove(c.events + from, c.events + from + count, (e->count - from - count) * sizeof *c.events);
    c.count -= count;
    bool smaller = keep_if_differs(e, &c);
    free(c.events);
    return smaller;
}

/* the power-on at the head stays */
static bool drop_chunks(struct episode *e, size_t chunk)
{
    bool any = false;
    size_t end = e->count;
    while (end > 1) {
        size_t count = chunk < end - 1 ? chunk : end - 1;
        if (drop(e, end - count, count))
            any = true;
        end -= count;
        if (end > e->count)
            end = e->count;
    }
    return any;
}

static bool drop_all_of(struct episode *e, enum call call)
{
    struct episode c = copy_of(e);
    c.count = 0;
    for (size_t i = 0; i < e->count; i++)
        if (e->events[i].call != call)
            c.events[c.count++] = e->events[i];
    bool smaller = c.count < e->count && keep_if_differs(e, &c);
    free(c.events);
    return smaller;
}

/* runs of ticks become one event */
static void merge_ticks(struct episode *e)
{
    size_t count = 0;
    for (size_t i = 0; i < e->count; i++) {
        if (count > 0 && e->events[i].call == TICK && e->events[count - 1].call == TICK)
            e->events[count - 1].n += e->events[i].n;
        else
            e->events[count++] = e->events[i];
    }
    e->count = count;
}

/* each bel_ticks becomes as many ticks as it made */
static void single_ticks(struct episode *e)
{
    struct episode c = copy_of(e);
    struct world w;
    world_open(&w, e);
    for (size_t i = 0; i < e->count; i++) {
        unsigned long before = w.ticks;
        world_play(&w, &e->events[i], NULL);
        if (e->events[i].call == TICKS)
            c.events[i] = (struct event){ .call = TICK, .n = (uint32_t)(w.ticks - before) };
    }
    world_close(&w);
    if (keep_if_differs(e, &c))
        merge_ticks(e);
    free(c.events);
}

static bool is_block(const struct event *e) { return e->call == BLOCK_READ || e->call == BLOCK_WRITE; }

static struct event plain_event(struct plain_call p)
{
    static const enum call calls[5] = { [PLAIN_READ] = READ_PORT, [PLAIN_WRITE] = WRITE_PORT, [PLAIN_DMA_READ] = DMA_READ,
                                        [PLAIN_DMA_WRITE] = DMA_WRITE, [PLAIN_TICK] = TICK };
    return (struct event){ .call = calls[p.call], .a = p.a, .b = p.b, .n = p.call == PLAIN_TICK };
}

static void append(struct episode *e, struct event event)
{
    make_room(e, e->count + 1);
    e->events[e->count++] = event;
}

static void append_plain(void *episode, struct plain_call p) { append(episode, plain_event(p)); }

/* Each block call becomes the calls that the model's request makes. Where they differ too, it is not the service that is
 * wrong but a call under it. */
static bool plain_blocks(struct episode *e)
{
    struct episode c = *e;
    struct world w;
    bool any = false;
    c.count = c.room = 0;
    c.events = NULL;
    world_open(&w, e);
    w.each = append_plain;
    w.whose = &c;
    for (size_t i = 0; i < e->count; i++) {
        if (!is_block(&e->events[i]))
            append(&c, e->events[i]);
        any = any || is_block(&e->events[i]);
        world_play(&w, &e->events[i], NULL);
    }
    world_close(&w);
    merge_ticks(&c);
    bool kept = any && keep_if_differs(e, &c);
    free(c.events);
    return kept;
}

/* an image that the host mounts later is there from the start */
static void mounted_from_the_start(struct episode *e)
{
    for (size_t i = e->count; i-- > 1;) {
        if (i >= e->count || e->events[i].call != SWAP)
            continue;
        struct episode c = copy_of(e);
        unsigned drive = e->events[i].a;
        c.start[drive] = e->pool[e->events[i].n];
        c.count = 0;
        for (size_t j = 0; j < e->count; j++)
            if (e->events[j].call != SWAP || e->events[j].a != drive)
                c.events[c.count++] = e->events[j];
        keep_if_differs(e, &c);
        free(c.events);
    }
}

static bool change(struct episode *e, size_t i, struct event to)
{
    struct episode c = copy_of(e);
    c.events[i] = to;
    bool kept = keep_if_differs(e, &c);
    free(c.events);
    return kept;
}

static bool fewer_ticks(struct episode *e)
{
    bool any = false;
    for (size_t i = 1; i < e->count; i++) {
        for (uint32_t cut = e->events[i].n; cut > 0 && i < e->count; cut /= 2) {
            struct event to = e->events[i];
            bool ticks = to.call == TICK || to.call == TICKS;
            if (!ticks || cut >= to.n)
                continue;
            to.n -= cut;
            any = change(e, i, to) || any;
        }
    }
    return any;
}

static bool is_dma(const struct event *e) { return e->call == DMA_READ || e->call == DMA_WRITE; }

/* TC with an earlier byte, and no DMA cycle after it; tried at a few places */
static bool earlier_tc(struct episode *e)
{
    size_t cycles = 0, seen = 0;
    for (size_t i = 1; i < e->count; i++)
        cycles += is_dma(&e->events[i]);
    for (size_t i = 1; i < e->count; i++) {
        struct event tc = e->events[i];
        if (!is_dma(&tc) || seen++ % (cycles / TC_TRIES + 1) != 0)
            continue;
        *(tc.call == DMA_READ ? &tc.a : &tc.b) = 1;
        struct episode c = copy_of(e);
        c.events[i] = tc;
        c.count = i + 1;
        for (size_t j = i + 1; j < e->count; j++)
            if (!is_dma(&e->events[j]))
                c.events[c.count++] = e->events[j];
        bool smaller = c.count < e->count && keep_if_differs(e, &c);
        free(c.events);
        if (smaller)
            return true;
    }
    return false;
}

static bool without_image(struct episode *e, unsigned drive)
{
    if (e->start[drive].length == 0)
        return false;
    struct episode c = copy_of(e);
    c.start[drive] = (struct image){ NULL, 0 };
    bool smaller = keep_if_differs(e, &c);
    free(c.events);
    return smaller;
}

static void simpler_values(struct episode *e)
{
    struct event first = e->events[0];
    for (unsigned i = 0; i < 2; i++) {
        struct event to = first;
        *(i == 0 ? &to.a : &to.b) = 0;
        change(e, 0, to);
        first = e->events[0];
    }
    for (size_t i = 1; i < e->count; i++) {
        struct event to = e->events[i];
        if (to.call == DMA_WRITE && to.a != 0) {
            to.a = 0;
            change(e, i, to);
        }
    }
}

void episode_shrink(struct episode *e)
{
    size_t at;
    budget = SHRINK_CALLS;
    episode_play(e, &at);
    e->count = at < e->count ? at + 1 : e->count;
    e->spare = 0;
    if (!episode_play(e, &at).found)
        e->spare = 1;
    drop_all_of(e, SWAP);
    mounted_from_the_start(e);
    drop_all_of(e, POKE);
    drop_all_of(e, BLOCK_READ);
    drop_all_of(e, BLOCK_WRITE);
    single_ticks(e);
    bool smaller = true;
    for (unsigned round = 0; smaller && round < 8; round++) {
        smaller = earlier_tc(e);
        smaller = (round > 0 && plain_blocks(e)) || smaller;
        merge_ticks(e);
        for (size_t chunk = e->count / 2; chunk > 0; chunk /= 2)
            smaller = drop_chunks(e, chunk) || smaller;
        merge_ticks(e);
        smaller = fewer_ticks(e) || smaller;
        smaller = without_image(e, 0) || smaller;
        smaller = without_image(e, 1) || smaller;
        mounted_from_the_start(e);
        single_ticks(e);
    }
    simpler_values(e);
}

/* ---- the log ---- */

/* a line of the log, as `replay` reads it; a port read with the value that the model gives */
static void print_event(FILE *f, const struct event *e, uint32_t word)
{
    bool refused = word >> 8 & 0xFF;
    switch (e->call) {
    case POWER_ON:
        fprintf(f, "p %u %u\n", e->a, e->b);
        break;
    case READ_PORT:
        fprintf(f, refused ? "r %X\n" : "r %X -> %02X\n", e->a, word & 0xFF);
        break;
    case WRITE_PORT:
        fprintf(f, "w %X %02X\n", e->a, e->b);
        break;
    case DMA_READ:
        fprintf(f, "dr %X\n", e->a);
        break;
    case DMA_WRITE:
        fprintf(f, "dw %02X %X\n", e->a, e->b);
        break;
    case NOTE_CHANGE:
        fprintf(f, "c %X\n", e->a);
        break;
    case TICK:
        fprintf(f, "t %u\n", (unsigned)e->n);
        break;
    case TICKS:
        fprintf(f, "# by one bel_ticks:\nt %u\n", (unsigned)e->n);
        break;
    case BLOCK_READ:
    case BLOCK_WRITE:
        fprintf(f, "# by one bel_block_%s of drive %u, block %u, %u bytes lent and %u for the status%s\n",
                e->call == BLOCK_READ ? "read" : "write", e->a, (unsigned)e->n, e->slice, e->status,
                refused ? ": refused" : ", these calls:");
        break;
    case SWAP:
        fprintf(f, "# here the host changes the image of drive %u to pool image %u\n", e->a, (unsigned)e->n);
        break;
    case POKE:
        fprintf(f, "# here the host stores %02X at offset %u of the image of drive %u\n", e->b, (unsigned)e->n, e->a);
        break;
    }
}

static void print_difference(FILE *f, const struct difference *d)
{
    if (!d->found)
        return;
    fprintf(f, "# %s differs", d->what);
    if (d->ticks)
        fprintf(f, " after %u ticks of this line", (unsigned)d->ticks);
    if (strncmp(d->what, "image", 5) == 0 || strcmp(d->what, "status") == 0 || strcmp(d->what, "block") == 0) {
        fprintf(f, ", offset %u: model %02X, library %02X\n", (unsigned)(d->model >> 8), (unsigned)(d->model & 0xFF),
                (unsigned)(d->library & 0xFF));
        return;
    }
    if (strcmp(d->what, "answer") != 0) {
        fprintf(f, ": model %u, library %u\n", (unsigned)d->model, (unsigned)d->library);
        return;
    }
    const uint32_t words[2] = { d->model, d->library };
    for (unsigned i = 0; i < 2; i++)
        fprintf(f, "%s %s: value %02X, refusal %u, INT %u, DRQ %u", i ? ";" : "", i ? "library" : "model",
                (unsigned)(words[i] & 0xFF), (unsigned)(words[i] >> 8 & 0xFF), (unsigned)(words[i] >> 16 & 1),
                (unsigned)(words[i] >> 17 & 1));
    fprintf(f, "\n");
}

static uint32_t last_answer;
static void remember(const struct moment *t) { last_answer = t->word; }

/* the calls of one block, and their answers on the model */
struct heard { struct episode calls; uint32_t *words; };

static void hear(void *heard, struct plain_call p)
{
    struct heard *h = heard;
    append(&h->calls, plain_event(p));
    h->words = realloc(h->words, h->calls.room * sizeof *h->words);
    if (!h->words)
        abort();
    h->words[h->calls.count - 1] = p.word;
}

static void print_heard(FILE *f, struct heard *h)
{
    const struct event *events = h->calls.events;
    for (size_t i = 0; i < h->calls.count; i++) {
        struct event e = events[i];
        for (; e.call == TICK && i + 1 < h->calls.count && events[i + 1].call == TICK; i++)
            e.n++;
        print_event(f, &e, h->words[i]);
    }
    if (h->calls.count > 0)
        fprintf(f, "# so far that block\n");
    h->calls.count = 0;
}

static void print_log(FILE *f, const struct episode *e)
{
    struct world w;
    struct heard heard = { 0 };
    world_open(&w, e);
    w.each = hear;
    w.whose = &heard;
    fprintf(f, "# drive 0: %s, drive 1: %s\n", e->start[0].length ? "an image" : "no image",
            e->start[1].length ? "an image" : "no image");
    for (size_t i = 0; i < e->count; i++) {
        last_answer = 0;
        struct difference d = world_play(&w, &e->events[i], remember);
        print_event(f, &e->events[i], last_answer);
        print_heard(f, &heard);
        print_difference(f, &d);
    }
    world_close(&w);
    free(heard.calls.events);
    free(heard.words);
}

static void write_image(const char *folder, unsigned drive, struct image image)
{
    char name[512];
    snprintf(name, sizeof name, "%s/difference.%u.img", folder, drive);
    remove(name);
    if (image.length == 0)
        return;
    FILE *f = fopen(name, "wb");
    if (!f || fwrite(image.bytes, 1, image.length, f) != image.length)
        fprintf(stderr, "fuzz: cannot write %s\n", name);
    if (f)
        fclose(f);
}

void episode_write(const struct episode *e, const char *folder)
{
    char name[512];
    snprintf(name, sizeof name, "%s/difference.log", folder);
    FILE *f = fopen(name, "w");
    if (f) {
        print_log(f, e);
        fclose(f);
    } else {
        fprintf(stderr, "fuzz: cannot write %s\n", name);
    }
    write_image(folder, 0, e->start[0]);
    write_image(folder, 1, e->start[1]);
    printf("The log, also in %s, the images beside it:\n", name);
    print_log(stdout, e);
}
