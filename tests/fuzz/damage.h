/* Damaged records on the library alone: no crash, nothing outside what was lent, and refusal 4 changes nothing. */
#ifndef DAMAGE_H
#define DAMAGE_H

#include "world.h"

/* tries damaged copies of the world's record; a message, or NULL */
const char *damage_try(const struct world *w, unsigned times);
void damage_print(void);

#endif
