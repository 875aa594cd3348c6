/* A ring of stations in one process, on a cable that loses nothing and keeps the order. */
#ifndef FAIRNESS_RING_H
#define FAIRNESS_RING_H

#include <stdbool.h>

#include "totem.h"

struct ring {
    unsigned stations;
    uint8_t records[TOTEM_MOST_MEMBERS][TOTEM_STATION_LEN];
    uint8_t token[TOTEM_FRAMES_LEN]; /* the newest */
};

void ring_found(struct ring *r, unsigned stations);

/* One post more waits at that place; false where as many wait as may. */
bool ring_post(struct ring *r, unsigned place);

/* As many posts wait at that place as may. */
void ring_fill(struct ring *r, unsigned place);

/*
 * The token visits that place, whose turn it is, and the messages that the visit writes reach all others. The
 * number of new ones is the result.
 */
unsigned ring_visit(struct ring *r, unsigned place);

#endif
