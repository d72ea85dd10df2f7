/* Model and library side by side: one call handed to both, and what they answer compared. */
#ifndef WORLD_H
#define WORLD_H

#include "blocks.h"

/* The seven calls, a run of bel_ticks, the two block calls, and what a host may do to an image between two ticks. */
enum call {
    POWER_ON, READ_PORT, WRITE_PORT, DMA_READ, DMA_WRITE, NOTE_CHANGE, TICK, TICKS, BLOCK_READ, BLOCK_WRITE, SWAP, POKE
};

/* a, b: heads; offset and byte; TC; byte and TC; drive; drive and what the bytes of a block begin with. n: ticks, the block,
 * the image of the pool, or the offset in an image. slice, status: bytes lent to a block call */
struct event { enum call call; uint8_t a, b; uint32_t n; uint16_t slice, status; };

enum { POOL = 6 };

/* From a power-on to the next one: all that is needed to play it again. */
struct episode {
    struct image start[2], pool[POOL];
    struct event *events;
    size_t count, room;
    size_t spare;           /* bytes lent behind the record, which nobody may touch */
};

/* Bytes of known value stand around everything that is lent to the library. */
enum { GUARD = 64, GUARD_BYTE = 0xC9 };

struct world {
    const struct episode *episode;
    struct model model;
    struct image ours[2];   /* the images as the model leaves them */
    struct image lent[2];   /* and as the library does */
    uint8_t *record;
    size_t record_size, len; /* bytes of a record; bytes lent for it */
    unsigned long calls, ticks; /* made on the library; a bel_ticks or a block is one call and as many ticks as it made */
    unsigned long inside;       /* calls that the blocks stood for, */
    void (*each)(void *whose, struct plain_call call); /* and who hears of them on the model */
    void *whose;
};

struct difference {
    bool found;
    const char *what;
    uint32_t model, library;
    uint32_t ticks;         /* ticks of the event until it showed */
};

/* what a call did to the model, for whoever counts; of a block call also its status bytes and what it made */
struct moment {
    const struct model *before, *after;
    const struct event *event;
    uint32_t word;
    const uint8_t *status;
    const struct service *made;
};
typedef void (*watcher)(const struct moment *);

struct image image_copy(struct image image);
struct image image_guarded(struct image image);
bool image_guard_holds(struct image image);
void image_free_guarded(struct image image);

void world_open(struct world *w, const struct episode *e);
void world_close(struct world *w);
struct difference world_play(struct world *w, const struct event *e, watcher watch);

#endif
