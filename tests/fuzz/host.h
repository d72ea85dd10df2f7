/* A random host. It completes real commands, serves requests promptly, late or never, and disturbs what goes on. It looks
 * into the model to know what would make sense next; what it does is handed to model and library alike. */
#ifndef HOST_H
#define HOST_H

#include "world.h"

struct host {
    uint8_t command[LONGEST_COMMAND];
    unsigned length, sent;      /* of the command it is sending */
    unsigned serve;             /* in 1000: how readily it serves a request */
    unsigned stops, tc_at;      /* it stops serving after so many bytes; TC goes with that one (0: never) */
    unsigned moved;             /* bytes served in this command */
    unsigned sector, pause;     /* bytes of a sector; waits or looks it lets pass at each sector before it serves */
    bool trickle;               /* and then it takes a read's last bytes one by one between further looks */
    unsigned noise, disturb;    /* in 1000: a call of any kind; something done to a command at work */
    bool non_dma;               /* how this episode runs */
    unsigned to_configure;      /* setting-up commands still to send */
    struct event power_on;      /* the one that counts, if another came before it */
    bool again;
    bool far;                   /* an episode of far steps, and the commands of it sent so far */
    unsigned far_sent;
    unsigned blocks;            /* in 1000: a block call */
    struct event planned[3];    /* what it does next, the last one first */
    unsigned plans;
};

struct event host_first_event(struct host *h, bool far);
struct event host_next_event(struct host *h, const struct world *w);

#endif
