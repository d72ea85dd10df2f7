/* The tests' own generator (xorshift64*), so that a seed gives the same calls on every machine. */
#ifndef CHANCE_H
#define CHANCE_H

#include <stdbool.h>
#include <stdint.h>

void chance_seed(uint64_t seed);
uint32_t below(uint32_t n);                     /* 0 .. n - 1 */
uint32_t between(uint32_t least, uint32_t most);
uint8_t any_byte(void);
bool chance(unsigned in_1000);

#endif
