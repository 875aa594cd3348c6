/* Deliveries to standard output, a line each in the bench's form: place, number, sender, service, content. */
#ifndef NODE_DELIVERIES_H
#define NODE_DELIVERIES_H

#include <stddef.h>
#include <stdint.h>

enum { OUTPUT_ROOM = 65536 };

struct deliveries {
    int output;
    unsigned place; /* of this station, from 0 */
    size_t size;
    char room[OUTPUT_ROOM];
};

void deliveries_start(struct deliveries *d, int output, unsigned place);

/* one delivered message frame of that size; it waits in the buffer */
void deliveries_put(struct deliveries *d, const uint8_t *frame, size_t size);

/*
 * Writes out what waits. A failed write ends the program. Once a stop is asked for, a reader that takes
 * nothing for a second is a failed write.
 */
void deliveries_flush(struct deliveries *d);

#endif
