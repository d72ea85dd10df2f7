#ifndef LENT_H
#define LENT_H

#include <stdint.h>

/* an image for the library: one that is not there is no byte at a place that is not null */
static inline uint8_t *lent(uint8_t *bytes)
{
    static uint8_t none;
    return bytes ? bytes : &none;
}

#endif
