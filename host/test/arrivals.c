#include "arrivals.h"

#include <stdlib.h>
#include <string.h>

#include "calls.h"
#include "expected.h"
#include "tally.h"

struct station reached(uint32_t level)
{
    static const uint16_t members[] = {3, 7, 9};
    struct station s = fresh_station(7, 4, 3, members);

    for (uint32_t n = 1; n <= level; n++)
        hold(&s, n, members[n % 3], 0, some_content(2 * n % (CONTENT_ROOM + 1), n));
    s.level = level;
    return s;
}

struct station posting(uint32_t level, unsigned posts)
{
    struct station s = reached(level);

    s.delivered = level;
    for (unsigned i = 0; i < posts; i++)
        add_post(&s, 0, some_content(5 * i % (CONTENT_ROOM + 1), 100 + i).bytes, 5 * i % (CONTENT_ROOM + 1));
    return s;
}

static struct arrival arrival_at(const struct station *s, unsigned outcome)
{
    struct arrival a;

    memset(&a, 0, sizeof a);
    a.before = *s;
    a.after = *s;
    a.want.answer = refused(0);
    a.want.answer.outcome = (uint16_t)outcome;
    return a;
}

struct arrival message_arrives(const struct station *s, struct held message, unsigned outcome)
{
    struct arrival a = arrival_at(s, outcome);

    a.size = message_bytes(s, &message, a.frame);
    a.after.leave = false;
    if (outcome == 3)
        hold(&a.after, message.number, message.sender, message.service, message.content);
    return a;
}

struct token token_for_7(uint32_t number, uint32_t highest, uint32_t aru, uint16_t blocker)
{
    struct token t = first_token(4, 3);

    t.addressee = 7;
    t.number = number;
    t.highest = highest;
    t.aru = aru;
    t.blocker = blocker;
    return t;
}

struct token requesting_also(struct token t, uint32_t first, uint32_t last)
{
    for (uint32_t n = first; n <= last; n++)
        t.requests[t.count++] = n;
    return t;
}

struct arrival token_arrives(const struct station *s, struct token t, struct token *leaves)
{
    struct arrival a = arrival_at(s, 6);

    a.size = token_bytes(&t, a.frame);
    *leaves = t;
    leaves->number = t.number + 1;
    leaves->addressee = 9;
    return a;
}

void forwards(struct arrival *a, struct token leaves)
{
    a->want.answer.frames += (uint16_t)token_bytes(&leaves, a->want.frames + a->want.answer.frames);
    a->after.leave = true;
    a->after.token = leaves;
    a->after.token_number = leaves.number;
    a->after.earlier = a->before.aru;
    a->after.aru = leaves.aru;
    a->after.own_part = a->after.post_count;
}

/* held before the call or by it */
static const struct held *message(const struct arrival *a, uint32_t number)
{
    const struct station *stations[] = {&a->before, &a->after};

    for (unsigned which = 0; which < 2; which++)
        for (unsigned i = 0; i < stations[which]->held_count; i++)
            if (stations[which]->held[i].number == number)
                return &stations[which]->held[i];
    abort();
}

void broadcasts(struct arrival *a, uint32_t number)
{
    a->want.answer.frames += (uint16_t)message_bytes(&a->before, message(a, number),
                                                     a->want.frames + a->want.answer.frames);
}

void delivers(struct arrival *a, uint32_t first, uint32_t last)
{
    for (uint32_t n = first; n <= last; n++)
        a->want.answer.deliveries += (uint16_t)message_bytes(&a->before, message(a, n),
                                                             a->want.deliveries + a->want.answer.deliveries);
    a->after.delivered = last;
}

void posts_become(struct station *s, uint32_t first, uint32_t last)
{
    for (uint32_t n = first; n <= last; n++) {
        hold(s, n, s->own, s->posts[0].service, s->posts[0].content);
        memmove(s->posts, s->posts + 1, sizeof s->posts - sizeof s->posts[0]);
        memset(&s->posts[POST_PLACES - 1], 0, sizeof s->posts[0]);
        s->post_count--;
    }
}

void sends_new(struct arrival *a, struct token *leaves, uint32_t count)
{
    uint32_t first = leaves->highest + 1, last = leaves->highest + count;

    posts_become(&a->after, first, last);
    for (uint32_t n = first; n <= last; n++)
        broadcasts(a, n);
    leaves->highest = leaves->aru = a->after.level = last;
    leaves->backlog = a->after.post_count;
    a->after.broadcast += (uint8_t)count;
}

void safe_to(struct station *s, uint32_t safe)
{
    unsigned kept = 0;

    for (unsigned i = 0; i < s->held_count; i++)
        if (s->held[i].number > safe)
            s->held[kept++] = s->held[i];
    s->held_count = (uint8_t)kept;
    s->safe = safe;
}

static bool same_reply(const struct reply *a, const struct reply *b)
{
    return memcmp(&a->answer, &b->answer, sizeof a->answer) == 0
           && memcmp(a->record, b->record, RECORD_END) == 0
           && memcmp(a->frames, b->frames, a->answer.frames) == 0
           && memcmp(a->deliveries, b->deliveries, a->answer.deliveries) == 0;
}

void try_arrival(const char *name, struct arrival *a)
{
    uint8_t record[RECORD_END];
    struct reply own;

    station_bytes(&a->before, record);
    station_bytes(&a->after, a->want.record);
    try_arrive(name, bytes_of(record, RECORD_END), bytes_of(a->frame, a->size), pattern(FRAMES_ROOM),
               pattern(DELIVERIES_ROOM), &a->want);
    expect_arrival(bytes_of(record, RECORD_END), bytes_of(a->frame, a->size), FRAMES_ROOM, DELIVERIES_ROOM,
                   &own);
    check(same_reply(&own, &a->want), "the test's own steps say otherwise");
}
