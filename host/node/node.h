/* A station at work: posts in, deliveries out, frames from and to the cable. */
#ifndef NODE_NODE_H
#define NODE_NODE_H

#include "cable.h"
#include "chance.h"
#include "deliveries.h"
#include "options.h"
#include "posts.h"
#include "resend.h"
#include "station.h"
#include "tally.h"

struct node {
    const struct options *options;
    unsigned place;
    instant now;           /* when the last wait ended */
    instant input_ended;
    unsigned quiet_visits; /* of the token, in a row, with no message since the one before */
    bool deaf;             /* the last visit brought the notice */
    bool silent;           /* nothing has been heard for a long time */
    struct station station;
    struct cable cable;
    struct posts posts;
    struct deliveries deliveries;
    struct resend resend;
    struct chance chance;
    struct tally tally;
};

/* Founds the station and opens the cable; ends the program where that can't be done. */
void node_start(struct node *n, const struct options *o);

/* Works until the input has ended and the ring is quiet, or a stop is asked for. Answers the exit status. */
int node_run(struct node *n);

#endif
