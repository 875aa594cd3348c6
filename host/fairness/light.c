/*
 * One station with one post at a time, the next as soon as the last one went out, beside busy ones: how many
 * visits of the token a post of the light station takes to go out, 1 at the least. Whether the light one has
 * been posting from the founding on or begins when the busy ones have filled the ring makes a difference.
 */
#include <stdio.h>

#include "ring.h"
#include "tables.h"

enum { MOST_BUSY = 3 };

struct waits {
    unsigned long posts, sum, most;
    unsigned long now; /* visits that the post has seen that waits now */
};

static void light_visit(struct ring *r, unsigned place, struct waits *w)
{
    w->now++;
    if (ring_visit(r, place) == 0)
        return;
    w->posts++;
    w->sum += w->now;
    if (w->now > w->most)
        w->most = w->now;
    w->now = 0;
    ring_post(r, place);
}

static void turn_round(struct ring *r, unsigned light, struct waits *w)
{
    for (unsigned place = 0; place < r->stations; place++)
        if (place == light) {
            light_visit(r, place, w);
        } else {
            ring_fill(r, place);
            ring_visit(r, place);
        }
}

/* counted after the warm-up; the light one begins before it or after it */
static struct waits run(unsigned stations, unsigned light, bool later)
{
    static struct ring r;
    static const struct waits none;
    struct waits w = none;

    ring_found(&r, stations);
    if (!later)
        ring_post(&r, light);
    for (unsigned round = 0; round < WARM_UP; round++)
        turn_round(&r, light, &w);
    if (later)
        ring_post(&r, light);
    w = none;
    for (unsigned round = 0; round < ROUNDS; round++)
        turn_round(&r, light, &w);
    return w;
}

static void cells(struct waits w)
{
    if (w.posts == 0)
        printf(" none goes out in %u rounds | |", (unsigned)ROUNDS);
    else if (w.now > w.most)
        printf(" %.1f | over %lu |", (double)w.sum / (double)w.posts, w.now);
    else
        printf(" %.1f | %lu |", (double)w.sum / (double)w.posts, w.most);
}

void print_light(void)
{
    printf("One station with one post at a time beside busy ones: how many visits of the token a post takes "
           "to go out.\n\n");
    printf("| busy stations | place of the light one | posting from the founding on, mean | most |"
           " beginning later, mean | most |\n");
    printf("|---:|---:|---:|---:|---:|---:|\n");
    for (unsigned busy = 1; busy <= MOST_BUSY; busy++)
        for (unsigned light = 0; light <= busy; light++) {
            printf("| %u | %u |", busy, light);
            cells(run(busy + 1, light, false));
            cells(run(busy + 1, light, true));
            printf("\n");
        }
}
