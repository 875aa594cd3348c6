#include "chance.h"

void chance_start(struct chance *c, uint64_t seed)
{
    c->state = seed;
}

/* splitmix64 */
static uint64_t next(struct chance *c)
{
    uint64_t z = c->state += 0x9E3779B97F4A7C15u;

    z = (z ^ (z >> 30)) * 0xBF58476D1CE4E5B9u;
    z = (z ^ (z >> 27)) * 0x94D049BB133111EBu;
    return z ^ (z >> 31);
}

bool chance_percent(struct chance *c, unsigned percent)
{
    return percent > 0 && next(c) % 100 < percent;
}
