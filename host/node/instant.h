/* Time that only goes forward, in nanoseconds. */
#ifndef NODE_INSTANT_H
#define NODE_INSTANT_H

#include <stdint.h>
#include <time.h>

#define MICROSECOND 1000
#define MILLISECOND 1000000
#define SECOND 1000000000

typedef int64_t instant;

static inline instant instant_now(void)
{
    struct timespec t;

    clock_gettime(CLOCK_MONOTONIC, &t);
    return (instant)t.tv_sec * SECOND + t.tv_nsec;
}

#endif
