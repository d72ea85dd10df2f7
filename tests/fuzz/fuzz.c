/* fuzz [CALLS] [SEED]: the model of document 01 and the library side by side under a random host, call by call. A difference
 * is shrunk to a log that `replay` can play, and ends with status 1; so does a rule that a million calls never met.
 * The log and its images go to the folder that FUZZ_OUT names (here, if it does not). */
#include <stdio.h>
#include <stdlib.h>
#include <string.h>

#include "beleduritz.h"
#include "chance.h"
#include "cover.h"
#include "damage.h"
#include "host.h"
#include "images.h"
#include "shrink.h"

enum { EPISODE_EVENTS = 3000, EPISODE_CALLS = 6000, FAR_EVERY = 80, DAMAGED = 4 };
enum { ENOUGH_TO_MEET_ALL = 1000000 };

static void note(struct episode *e, struct event event)
{
    if (e->count == e->room) {
        e->room = e->room ? 2 * e->room : 1024;
        e->events = realloc(e->events, e->room * sizeof *e->events);
        if (!e->events)
            abort();
    }
    e->events[e->count++] = event;
}

static void open_episode(struct episode *e)
{
    memset(e, 0, sizeof *e);
    e->spare = chance(200) ? between(1, GUARD) : 0;
    for (unsigned i = 0; i < 2; i++)
        e->start[i] = make_image();
    for (unsigned i = 2; i < POOL; i++)
        e->pool[i] = make_image();
    /* the same image again is a swap that a command must not notice */
    e->pool[0] = image_copy(e->start[0]);
    e->pool[1] = image_copy(e->start[1]);
}

static void close_episode(struct episode *e)
{
    for (unsigned i = 0; i < 2; i++)
        free(e->start[i].bytes);
    for (unsigned i = 0; i < POOL; i++)
        free(e->pool[i].bytes);
    free(e->events);
}

static const char *out_folder(void)
{
    const char *folder = getenv("FUZZ_OUT");
    return folder ? folder : ".";
}

static void report(const struct episode *e, unsigned long calls)
{
    struct episode small = *e;
    small.events = malloc(e->count * sizeof *e->events);
    if (!small.events)
        abort();
    memcpy(small.events, e->events, e->count * sizeof *e->events);
    small.room = e->count;
    printf("fuzz: a difference after %lu calls, in an episode of %lu events; shrinking\n", calls, (unsigned long)e->count);
    fflush(stdout);
    episode_shrink(&small);
    episode_write(&small, out_folder());
    free(small.events);
}

/* one episode; false: something was wrong and has been told */
static bool run_episode(unsigned long *calls, unsigned long *ticks, bool far)
{
    struct episode e;
    struct world w;
    struct host h;
    struct difference d = { 0 };
    open_episode(&e);
    world_open(&w, &e);
    for (struct event next = host_first_event(&h, far); !d.found; next = host_next_event(&h, &w)) {
        note(&e, next);
        cover_event(&w, &next);
        d = world_play(&w, &next, cover_watch);
        if (e.count >= EPISODE_EVENTS || (w.calls >= EPISODE_CALLS && !h.far))
            break;
    }
    *calls += w.calls;
    *ticks += w.ticks;
    const char *wrong = d.found ? NULL : damage_try(&w, DAMAGED);
    if (d.found)
        report(&e, *calls);
    if (wrong)
        printf("fuzz: %s\n", wrong);
    world_close(&w);
    close_episode(&e);
    return !d.found && !wrong;
}

int main(int argc, char **argv)
{
    unsigned long wanted = argc > 1 ? strtoul(argv[1], NULL, 0) : ENOUGH_TO_MEET_ALL;
    unsigned long seed = argc > 2 ? strtoul(argv[2], NULL, 0) : 1;
    unsigned long calls = 0, ticks = 0, episodes = 0;
    if (bel_record_size() > 512) {
        printf("fuzz: a record of %u bytes, above 512\n", (unsigned)bel_record_size());
        return 1;
    }
    chance_seed(seed);
    for (; calls < wanted; episodes++)
        if (!run_episode(&calls, &ticks, episodes % FAR_EVERY == FAR_EVERY / 2))
            return 1;
    unsigned never = cover_print();
    damage_print();
    printf("fuzz: seed %lu: %lu calls and %lu ticks in %lu episodes, no difference; rules never met: %u\n", seed, calls, ticks,
           episodes, never);
    return never > 0 && wanted >= ENOUGH_TO_MEET_ALL;
}
