/* Counts what the judge met, row by row: each kind at the first and the last of its places, and beside which other. */
#ifndef COVER_JUDGE_H
#define COVER_JUDGE_H

#include "model.h"

/* an image and the judge's word about it */
void cover_judge(struct image image, uint64_t word);
/* prints the table; returns how many rows were never met */
unsigned cover_judge_print(void);

#endif
