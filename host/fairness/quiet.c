/*
 * One station that posts a line now and then, full ones after it, and idle ones: whether its line goes out at
 * the first visit of the token.
 */
#include <stdio.h>

#include "ring.h"
#include "tables.h"

/* rounds from one line to the next: no small factor, so that lines meet different points of what repeats */
enum { BETWEEN = 97, LINES = 50, MOST_FULL = 3, MOST_VISITS = 1000 };

struct lines {
    unsigned posted;
    unsigned at_once; /* went out at the first visit */
    unsigned most;    /* visits that one took */
};

/* a round of the token; how many messages the quiet one sends in it */
static unsigned turn_round(struct ring *r, unsigned quiet, unsigned full)
{
    unsigned sent = 0;

    for (unsigned place = 0; place < r->stations; place++) {
        unsigned new_messages, steps = (place + r->stations - quiet) % r->stations;

        if (1 <= steps && steps <= full)
            ring_fill(r, place);
        new_messages = ring_visit(r, place);
        if (place == quiet)
            sent = new_messages;
    }
    return sent;
}

/* how many visits the next line takes, or one more than are waited for */
static unsigned line(struct ring *r, unsigned quiet, unsigned full)
{
    unsigned visits = 1;

    for (unsigned round = 0; round < BETWEEN; round++)
        turn_round(r, quiet, full);
    ring_post(r, quiet);
    while (turn_round(r, quiet, full) == 0 && visits <= MOST_VISITS)
        visits++;
    return visits;
}

static void run(unsigned stations, unsigned quiet, unsigned full, struct lines *l)
{
    static struct ring r;

    ring_found(&r, stations);
    for (unsigned i = 0; i < LINES && l->most <= MOST_VISITS; i++) {
        unsigned visits = line(&r, quiet, full);

        l->posted++;
        l->at_once += visits == 1;
        if (visits > l->most)
            l->most = visits;
    }
}

/* the quiet one at every place */
static void row(unsigned stations, unsigned full)
{
    struct lines l = {0, 0, 0};

    for (unsigned quiet = 0; quiet < stations; quiet++)
        run(stations, quiet, full, &l);
    printf("| %u | %u |", full, stations);
    if (l.most > MOST_VISITS)
        printf(" a line waited %u visits in vain | |\n", (unsigned)MOST_VISITS);
    else
        printf(" %u of %u | %u |\n", l.at_once, l.posted, l.most);
}

void print_quiet(void)
{
    static const unsigned rings[] = {2, 3, 4, 8};

    printf("A line now and then at one station, the queues of others always full, the rest idle.\n\n");
    printf("| full stations | stations in all | lines that went out at the first visit | visits, most |\n");
    printf("|---:|---:|---:|---:|\n");
    for (unsigned full = 1; full <= MOST_FULL; full++)
        for (unsigned i = 0; i < sizeof rings / sizeof rings[0]; i++)
            if (full < rings[i])
                row(rings[i], full);
}
