/* What the flags and the configuration file say. */
#ifndef NODE_OPTIONS_H
#define NODE_OPTIONS_H

#include <stdbool.h>
#include <stdint.h>

#include "instant.h"
#include "members.h"

struct options {
    struct members members;
    bool has_ring, has_own;
    uint32_t ring;
    uint16_t own;
    unsigned drop; /* percent of the arriving frames */
    uint64_t seed;
    instant resend, hold, spin, linger;
    bool refusals, count;
};

/* Reads the flags; complains and ends the program where they are wrong, and after --help. */
void options_read(struct options *o, int argc, char **argv);

/* The ring number, from a flag or a file; `where` says in a complaint where it stands. */
void options_ring(struct options *o, const char *where, const char *text);

#endif
