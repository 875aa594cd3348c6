/*
 * The cable: one UDP socket. A datagram holds frames one after another, each beginning with its own length,
 * as an answer's frames stand in the buffer; these are at most 1,472 bytes and just fit an Ethernet frame.
 */
#ifndef NODE_CABLE_H
#define NODE_CABLE_H

#include <stdbool.h>
#include <stddef.h>
#include <stdint.h>
#include <sys/socket.h>

#include "instant.h"
#include "members.h"

enum { BATCH = 32, DATAGRAM_ROOM = 2048 };

struct cable {
    int socket;
    unsigned place; /* of this station */
    const struct members *members;
    bool complained; /* about a datagram that could not be sent */
    struct mmsghdr heads[BATCH];
    struct iovec parts[BATCH];
    uint8_t rooms[BATCH][DATAGRAM_ROOM];
};

/*
 * Opens the socket at this station's address; ends the program where that can't be done. `most` is how long
 * cable_wait_and_take sleeps.
 */
void cable_open(struct cable *c, const struct members *members, unsigned place, instant most);

/*
 * Waits until the cable or the input (-1: none) is ready, at most so long, and says whether the input is. For
 * the time `spin` it looks again and again, without sleep: waking up takes longer than a frame takes to come.
 */
bool cable_wait(const struct cable *c, int input, instant spin, instant most);

/* Takes the datagrams that are there, and says how many. */
unsigned cable_take(struct cable *c);

/* Both in one system call, where there is no input to look at. */
unsigned cable_wait_and_take(struct cable *c, instant spin);

static inline const uint8_t *cable_datagram(const struct cable *c, unsigned i, size_t *size)
{
    *size = c->heads[i].msg_len;
    return c->rooms[i];
}

/*
 * Sends one answer's frames: the messages to all other members, and the token, which is last, to its
 * addressee in the same datagram. Answers how many datagrams the system did not take; they are lost, as on
 * any cable.
 */
unsigned cable_send(struct cable *c, const uint8_t *frames, size_t size);

#endif
