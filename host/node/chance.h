/* Random numbers that depend on the seed alone, so that a run's losses can be had again. */
#ifndef NODE_CHANCE_H
#define NODE_CHANCE_H

#include <stdbool.h>
#include <stdint.h>

struct chance {
    uint64_t state;
};

void chance_start(struct chance *c, uint64_t seed);

/* true in so many cases of a hundred */
bool chance_percent(struct chance *c, unsigned percent);

#endif
