#include "ring.h"

#include <stdio.h>
#include <stdlib.h>
#include <string.h>

enum { RING_NUMBER = 4, NUMBER_AT = 12, HIGHEST_AT = 16 };

static unsigned word(const uint8_t *at)
{
    return at[0] + 256u * at[1];
}

static uint32_t number(const uint8_t *at)
{
    return word(at) + 65536u * word(at + 2);
}

static unsigned size_of(const uint8_t *frame)
{
    return 2u + word(frame);
}

/* the ring loses nothing, so no call may answer anything else */
static void expect(totem_answer answer, unsigned outcome, const char *what)
{
    if (answer.outcome == outcome)
        return;
    fprintf(stderr, "fairness: %s: refusal %u, outcome %u\n", what, answer.refusal, answer.outcome);
    exit(1);
}

void ring_found(struct ring *r, unsigned stations)
{
    uint8_t ids[2 * TOTEM_MOST_MEMBERS] = {0};

    memset(r, 0, sizeof *r);
    r->stations = stations;
    for (unsigned i = 0; i < stations; i++)
        ids[2 * i] = (uint8_t)(i + 1);
    for (unsigned i = 0; i < stations; i++)
        expect(totem_found(r->records[i], TOTEM_STATION_LEN, ids, 2 * stations, ids[2 * i], RING_NUMBER,
                           r->token, sizeof r->token),
               TOTEM_FOUNDED, "founding");
}

bool ring_post(struct ring *r, unsigned place)
{
    static const uint8_t content[] = {'l', 'i', 'n', 'e'};
    totem_answer a = totem_post(r->records[place], TOTEM_STATION_LEN, TOTEM_AGREED, content, sizeof content);

    if (a.refusal == TOTEM_POSTS_FULL)
        return false;
    expect(a, TOTEM_POSTED, "a post");
    return true;
}

void ring_fill(struct ring *r, unsigned place)
{
    while (ring_post(r, place))
        ;
}

static totem_answer arrive(struct ring *r, unsigned place, const uint8_t *frame, uint8_t *frames)
{
    static uint8_t deliveries[TOTEM_DELIVERIES_LEN];

    return totem_arrive(r->records[place], TOTEM_STATION_LEN, frame, size_of(frame), frames, TOTEM_FRAMES_LEN,
                        deliveries, sizeof deliveries);
}

static void broadcast(struct ring *r, unsigned from, const uint8_t *message)
{
    static uint8_t unused[TOTEM_FRAMES_LEN];

    for (unsigned step = 1; step < r->stations; step++)
        expect(arrive(r, (from + step) % r->stations, message, unused), TOTEM_KEPT, "a message");
}

unsigned ring_visit(struct ring *r, unsigned place)
{
    uint8_t frames[TOTEM_FRAMES_LEN];
    totem_answer a = arrive(r, place, r->token, frames);
    const uint8_t *f = frames;
    uint32_t highest = number(r->token + HIGHEST_AT);
    unsigned sent = 0;

    expect(a, TOTEM_ACCEPTED, "a token");
    for (; f + size_of(f) < frames + a.frames; f += size_of(f)) {
        sent += number(f + NUMBER_AT) > highest;
        broadcast(r, place, f);
    }
    memcpy(r->token, f, size_of(f));
    return sent;
}
