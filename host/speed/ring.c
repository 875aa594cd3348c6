/*
 * Ordered messages each second of a ring of three stations in one process: library against oracle, in short
 * runs by turns. All contents are agreed and have 64 bytes; each station always has posts waiting; frames are
 * handed over by pointers. A message counts when it is delivered everywhere.
 *
 * 'ring' prints the table. 'ring RATIO' also fails unless the rate is above RATIO times the oracle's.
 */
#include <stdbool.h>
#include <stdio.h>
#include <stdlib.h>
#include <string.h>

#include "middle.h"
#include "stations.h"

enum { MEMBERS = 3, MESSAGES = 1000, RUNS = 300, FRAMES_ROOM = TOTEM_FRAMES_LEN };

struct list {
    unsigned count;
    uint64_t sum; /* told by what was delivered and in which order */
};

struct ring {
    const struct stations *stations;
    uint8_t records[MEMBERS][TOTEM_STATION_LEN];
    struct list delivered[MEMBERS];
    uint64_t posts;
    uint8_t written[2][FRAMES_ROOM]; /* by this visit and by the one before */
    uint8_t deliveries[TOTEM_DELIVERIES_LEN];
};

static unsigned size_of(const uint8_t *frame)
{
    return 2u + frame[0] + 256u * frame[1];
}

static void fail(const char *what, totem_answer a)
{
    fprintf(stderr, "ring: %s: refusal %u, outcome %u\n", what, a.refusal, a.outcome);
    exit(1);
}

/* delivered messages join the list, up to the last that counts */
static void add(struct list *list, const uint8_t *frames, unsigned size)
{
    for (const uint8_t *f = frames; f < frames + size && list->count < MESSAGES; f += size_of(f)) {
        uint64_t sender_and_number, content;

        memcpy(&sender_and_number, f + 10, sizeof sender_and_number);
        memcpy(&content, f + 22, sizeof content);
        list->sum = (list->sum ^ sender_and_number) * 0x9E3779B97F4A7C15u + content;
        list->count++;
    }
}

static void post(struct ring *r, unsigned at, unsigned count)
{
    uint8_t content[TOTEM_MOST_CONTENT] = {0};

    for (; count > 0; count--) {
        memcpy(content, &r->posts, sizeof r->posts);
        r->posts++;
        totem_answer a = r->stations->post(r->records[at], TOTEM_STATION_LEN, TOTEM_AGREED, content,
                                           sizeof content);
        if (a.outcome != TOTEM_POSTED)
            fail("a post", a);
    }
}

static unsigned arrive(struct ring *r, unsigned at, const uint8_t *frame, uint8_t *out, unsigned outcome)
{
    totem_answer a = r->stations->arrive(r->records[at], TOTEM_STATION_LEN, frame, size_of(frame), out,
                                         FRAMES_ROOM, r->deliveries, sizeof r->deliveries);

    if (a.outcome != outcome)
        fail("an arrival", a);
    add(&r->delivered[at], r->deliveries, a.deliveries);
    return a.frames;
}

/* the token visits; its messages reach the others, and as many posts follow; the next token is the result */
static const uint8_t *visit(struct ring *r, unsigned at, const uint8_t *token, uint8_t *out)
{
    uint8_t unused[FRAMES_ROOM];
    const uint8_t *end = out + arrive(r, at, token, out, TOTEM_ACCEPTED), *f = out;
    unsigned sent = 0;

    for (; f + size_of(f) < end; f += size_of(f)) {
        for (unsigned step = 1; step < MEMBERS; step++)
            arrive(r, (at + step) % MEMBERS, f, unused, TOTEM_KEPT);
        sent++;
    }
    post(r, at, sent);
    return f;
}

static const uint8_t *found(struct ring *r)
{
    static const uint8_t members[] = {3, 0, 7, 0, 9, 0};

    for (unsigned i = 0; i < MEMBERS; i++) {
        totem_answer a = r->stations->found(r->records[i], TOTEM_STATION_LEN, members, sizeof members,
                                            members[2 * i], 4, r->written[1], FRAMES_ROOM);
        if (a.outcome != TOTEM_FOUNDED)
            fail("founding", a);
        post(r, i, TOTEM_MOST_POSTS);
    }
    return r->written[1];
}

/* one run, from founding until all have delivered */
struct outcome {
    double rate;     /* messages each second */
    unsigned visits; /* of the token */
    uint64_t sum;    /* of the delivery lists, which are alike */
};

static bool is_over(const struct ring *r)
{
    for (unsigned i = 0; i < MEMBERS; i++)
        if (r->delivered[i].count < MESSAGES)
            return false;
    return true;
}

static struct outcome run(const struct stations *stations)
{
    static struct ring r;
    const uint8_t *token;
    double begin = nanoseconds();
    struct outcome o = {0, 0, 0};

    memset(&r, 0, sizeof r);
    r.stations = stations;
    for (token = found(&r); !is_over(&r); o.visits++)
        token = visit(&r, o.visits % MEMBERS, token, r.written[o.visits % 2]);
    o.rate = MESSAGES / (nanoseconds() - begin) * 1e9;
    o.sum = r.delivered[0].sum;
    for (unsigned i = 1; i < MEMBERS; i++)
        if (r.delivered[i].sum != o.sum) {
            fprintf(stderr, "ring: the %s's delivery lists are not alike\n", stations->name);
            exit(1);
        }
    return o;
}

/* a run of each, the library's first or last; what they deliver must be the same */
static void turn(struct outcome *ours, struct outcome *theirs, bool first)
{
    if (first)
        *ours = run(&library);
    *theirs = run(&oracle);
    if (!first)
        *ours = run(&library);
    if (ours->sum != theirs->sum || ours->visits != theirs->visits) {
        fprintf(stderr, "ring: library and oracle have delivered different lists\n");
        exit(1);
    }
}

static double per_round(struct outcome o)
{
    return (double)MESSAGES * MEMBERS / o.visits;
}

int main(int count, char **arguments)
{
    double rates[2][RUNS], ratios[RUNS], least = count > 1 ? atof(arguments[1]) : 0, ratio;
    struct outcome ours, theirs;

    if (count > 2 || (count == 2 && least <= 0)) {
        fprintf(stderr, "usage: %s [RATIO]\n", arguments[0]);
        return 2;
    }
    for (unsigned i = 0; i < RUNS; i++) {
        turn(&ours, &theirs, i % 2);
        rates[0][i] = ours.rate;
        rates[1][i] = theirs.rate;
        ratios[i] = ours.rate / theirs.rate;
    }
    ratio = middle(ratios, RUNS);
    printf("| Ring of three in one process | ratio | library | oracle |\n|---|---:|---:|---:|\n");
    printf("| ordered messages each second | %.2f | %.0f | %.0f |\n", ratio, middle(rates[0], RUNS),
           middle(rates[1], RUNS));
    printf("| messages for each round of the token | | %.1f | %.1f |\n", per_round(ours), per_round(theirs));
    if (least > 0 && ratio <= least) {
        fprintf(stderr, "ring: the library's rate is not above %.2f times the oracle's\n", least);
        return 1;
    }
    return 0;
}
