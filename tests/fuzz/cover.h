/* Counts what happened, rule by rule, so that one sees that every rule was met. */
#ifndef COVER_H
#define COVER_H

#include "world.h"

void cover_watch(const struct moment *t);
void cover_event(const struct world *w, const struct event *e);
/* prints the table; returns how many rows were never met */
unsigned cover_print(void);

#endif
