/* A table of what was met and how often. Rows are counted in the same order each time, so a row is known by its place. */
#ifndef ROWS_H
#define ROWS_H

#include <stdbool.h>

enum { ROWS = 400 };

struct rows {
    struct { const char *group, *name; unsigned long hits; } row[ROWS];
    unsigned count, place;
};

static inline void rows_count(struct rows *r, const char *group, const char *name, bool met)
{
    if (r->place == r->count && r->count < ROWS) {
        r->row[r->place].group = group;
        r->row[r->place].name = name;
        r->count++;
    }
    r->row[r->place++].hits += met;
}

/* prints the table; returns how many rows were never met */
unsigned rows_print(const struct rows *r);

#endif
