/* A shortest list of calls that still shows a difference, and its log for `replay`. */
#ifndef SHRINK_H
#define SHRINK_H

#include "world.h"

/* plays the whole episode on a fresh world; `at`: the event that shows the difference */
struct difference episode_play(const struct episode *e, size_t *at);

void episode_shrink(struct episode *e);

/* writes the log and its images below a folder, and the log to standard output */
void episode_write(const struct episode *e, const char *folder);

#endif
