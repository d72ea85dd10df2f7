/* Counts what the block calls met, row by row, as cover.h does for the others. */
#ifndef COVER_BLOCKS_H
#define COVER_BLOCKS_H

#include "world.h"

/* before a block call, while the images are as it will find them; and after it */
void cover_block_event(const struct world *w, const struct event *e);
void cover_block(const struct moment *t);
/* prints the table; returns how many rows were never met, and one more where a wait took too long */
unsigned cover_blocks_print(void);

#endif
