#include "arrival.h"

#include "complain.h"
#include "frame.h"

/* By the ring's promise, what all have received is delivered everywhere three rounds later. */
enum { IDLE_VISITS = 3 };

bool ring_is_idle(const struct node *n)
{
    return n->quiet_visits > IDLE_VISITS;
}

static void deliver(struct node *n, size_t size)
{
    const uint8_t *at = n->station.deliveries, *end = at + size;

    if (n->tally.delivered == 0)
        n->tally.first = n->now;
    n->tally.last = n->now;
    while (at < end) {
        size_t frame = first_frame(at, (size_t)(end - at));

        n->tally.delivered++;
        if (word(at + SENDER_AT) == n->options->own)
            n->tally.own_delivered++;
        if (!n->options->count)
            deliveries_put(&n->deliveries, at, frame);
        at += frame;
    }
}

/* the representative keeps an idle ring's token for a while, so that it does not run round for nothing */
static bool is_to_be_held(const struct node *n)
{
    return n->place == 0 && n->options->hold > 0 && ring_is_idle(n) && station_waiting(&n->station) == 0;
}

/* a token was accepted, and the next one is written, behind messages where there are any */
static void pass_on(struct node *n, size_t size)
{
    const uint8_t *frames = n->station.frames;
    size_t messages = last_frame(frames, size);

    n->tally.accepted++;
    n->quiet_visits = messages > 0 ? 0 : n->quiet_visits + 1;
    resend_keep(&n->resend, frames + messages, size - messages);
    if (is_to_be_held(n))
        resend_hold(&n->resend, n->now + n->options->hold);
    else
        n->tally.unsent += cable_send(&n->cable, frames, size);
}

static void notice_deaf(struct node *n, uint16_t deaf)
{
    if (deaf != 0 && !n->deaf)
        complain("station %u is deaf: the ring has waited for it for more than 10 visits of the token", deaf);
    n->deaf = deaf != 0;
}

/* a frame is passed over; that the ring has come to its end is said once */
static void refuse(struct node *n, uint16_t refusal)
{
    tally_refusal(&n->tally, refusal);
    if (refusal == TOTEM_LAST_TOKEN && n->tally.refusals[TOTEM_LAST_TOKEN] == 1)
        complain("the ring's token numbers have run out: found a new ring, with a higher ring number");
}

/* the frames leave before deliveries are written out: the ring waits for them */
void arrive(struct node *n, const uint8_t *frame, size_t size)
{
    totem_answer a = station_arrive(&n->station, frame, size);

    if (a.refusal != 0) {
        refuse(n, a.refusal);
        return;
    }
    if (a.outcome == TOTEM_ACCEPTED || a.outcome == TOTEM_KEPT)
        resend_heard(&n->resend, n->now);
    if (a.outcome == TOTEM_ACCEPTED) {
        pass_on(n, a.frames);
        notice_deaf(n, a.deaf);
    } else {
        n->quiet_visits = 0;
    }
    if (a.deliveries > 0)
        deliver(n, a.deliveries);
}

/* an empty datagram is one empty frame */
void take_datagram(struct node *n, const uint8_t *datagram, size_t size)
{
    do {
        size_t frame = first_frame(datagram, size);

        n->tally.arrived++;
        if (chance_percent(&n->chance, n->options->drop))
            n->tally.lost++;
        else
            arrive(n, datagram, frame);
        datagram += frame;
        size -= frame;
    } while (size > 0);
}
