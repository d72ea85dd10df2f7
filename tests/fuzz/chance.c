#include "chance.h"

static uint64_t state = 1;

/* 0 would stay 0 */
void chance_seed(uint64_t seed) { state = seed * 0x9E3779B97F4A7C15u + 0x1234567u; if (state == 0) state = 1; }

static uint32_t draw(void)
{
    state ^= state >> 12;
    state ^= state << 25;
    state ^= state >> 27;
    return (uint32_t)(state * 0x2545F4914F6CDD1Du >> 32);
}

uint32_t below(uint32_t n) { return (uint32_t)((uint64_t)draw() * n >> 32); }
uint32_t between(uint32_t least, uint32_t most) { return least + below(most - least + 1); }
uint8_t any_byte(void) { return (uint8_t)below(256); }
bool chance(unsigned in_1000) { return below(1000) < in_1000; }
