#include "draw.h"

#include <string.h>

static uint64_t state;

void draw_from(uint64_t seed)
{
    state = seed;
}

/* SplitMix64. */
uint64_t draw(void)
{
    uint64_t z = state += 0x9e3779b97f4a7c15;
    z = (z ^ z >> 30) * 0xbf58476d1ce4e5b9;
    z = (z ^ z >> 27) * 0x94d049bb133111eb;
    return z ^ z >> 31;
}

uint64_t below(uint64_t n)
{
    return draw() % n;
}

int between(int from, int to)
{
    return from + (int)below((uint64_t)(to - from) + 1);
}

bool one_in(uint64_t n)
{
    return below(n) == 0;
}

void fill_with_draws(uint8_t *bytes, size_t len)
{
    for (size_t i = 0; i < len; i += 8) {
        uint64_t word = draw();
        memcpy(bytes + i, &word, len - i < 8 ? len - i : 8);
    }
}
