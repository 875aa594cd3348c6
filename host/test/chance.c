#include "chance.h"

static uint64_t state;

void chance_start(uint64_t seed)
{
    state = seed;
}

/* splitmix64 */
static uint64_t next(void)
{
    uint64_t z = state += 0x9E3779B97F4A7C15u;

    z = (z ^ (z >> 30)) * 0xBF58476D1CE4E5B9u;
    z = (z ^ (z >> 27)) * 0x94D049BB133111EBu;
    return z ^ (z >> 31);
}

uint32_t chance(uint32_t n)
{
    return (uint32_t)(next() % n);
}

uint32_t chance_from(uint32_t low, uint32_t high)
{
    return low + (uint32_t)(next() % ((uint64_t)high - low + 1));
}

void chance_bytes(uint8_t *out, size_t size)
{
    for (size_t i = 0; i < size; i++)
        out[i] = (uint8_t)next();
}
