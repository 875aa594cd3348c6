/* What a station does with what comes from the cable. */
#ifndef NODE_ARRIVAL_H
#define NODE_ARRIVAL_H

#include "node.h"

/* hands a datagram's frames to the station, but for those that are to be lost on purpose */
void take_datagram(struct node *n, const uint8_t *datagram, size_t size);

/* hands one frame to the station: sends what it writes, and delivers */
void arrive(struct node *n, const uint8_t *frame, size_t size);

/* no message has come or gone for so long that every station has delivered everything */
bool ring_is_idle(const struct node *n);

#endif
