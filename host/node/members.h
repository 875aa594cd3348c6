/* The members of the ring, in circulation order, and where each is reached. */
#ifndef NODE_MEMBERS_H
#define NODE_MEMBERS_H

#include <netinet/in.h>
#include <stdint.h>

/* More than a ring has: a list that is too long is for founding to refuse. */
enum { MOST_LISTED = 64 };

struct members {
    unsigned count;
    uint16_t ids[MOST_LISTED];
    struct sockaddr_in addresses[MOST_LISTED];
};

/* Adds one, from its id and its ADDRESS:PORT as text; `where` says in a complaint where the text stands. */
void members_add(struct members *m, const char *where, const char *id, const char *address);

/* the place of that id from 0, or the count where it is not among them */
unsigned members_place(const struct members *m, uint16_t id);

/* room for an address as text, with its port */
enum { ADDRESS_TEXT = 32 };

const char *address_text(const struct sockaddr_in *address, char text[ADDRESS_TEXT]);

#endif
