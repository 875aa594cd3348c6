#include "records.h"

#include <string.h>

#include "calls.h"
#include "expected.h"
#include "expected_arrival.h"
#include "look.h"
#include "tally.h"
#include "whole.h"
#include "words.h"

/* the token that comes next at a whole record, with all that could be held known to the ring */
static size_t fitting_token(const uint8_t *r, uint8_t out[TOKEN_ROOM])
{
    struct token t = first_token(get(r + RING, 4), (uint16_t)get(r + MEMBER(0), 2));

    t.addressee = (uint16_t)get(r + OWN, 2);
    t.number = get(r + TOKEN_NUMBER, 4) + 1;
    t.highest = lesser(get(r + SAFE, 4) + HELD_PLACES, LIMIT);
    t.aru = get(r + LEVEL, 4);
    t.blocker = t.aru == t.highest ? 0 : t.addressee;
    t.round = 20;
    t.backlog = 40;
    t.count = 1;
    t.requests[0] = lesser(get(r + SAFE, 4) + 1, LIMIT);
    return token_bytes(&t, out);
}

static void try_token(const char *name, struct bytes record, size_t room)
{
    uint8_t frame[TOKEN_ROOM];
    struct bytes token = pattern(TOKEN_LEAST);
    struct reply want;

    if (record.size >= RECORD_END)
        token = bytes_of(frame, fitting_token(record.at, frame));
    expect_arrival(record, token, room, DELIVERIES_ROOM, &want);
    try_arrive(name, record, token, pattern(room), pattern(DELIVERIES_ROOM), &want);
}

bool try_record(const char *name, struct bytes record, uint16_t service, struct bytes content, size_t room)
{
    unsigned post = posting_refusal(record.at, record.size, service, content.size);
    unsigned resend = resending_refusal(record.at, record.size, room);
    uint8_t after[RECORD_END];

    if (post == 0) {
        memcpy(after, record.at, RECORD_END);
        put_post(after, service, content.at, content.size);
        try_post(name, record, service, content, posted(), after);
    } else {
        try_post(name, record, service, content, refused(post), NULL);
    }
    try_token(name, record, room);
    if (resend == 0)
        try_resend(name, record, pattern(room), resent(record.at[TOKEN_SIZE]), record.at + TOKEN);
    else
        try_resend(name, record, pattern(room), refused(resend), NULL);
    return post != 2;
}

void make_edits(const struct edit edits[MOST_EDITS], uint8_t *bytes)
{
    for (const struct edit *e = edits; e < edits + MOST_EDITS && e->width != 0; e++)
        if (e->width <= 4)
            put(bytes + e->at, e->width, e->value);
        else
            memset(bytes + e->at, (int)e->value, e->width);
}

static bool edits_panel(const struct edit edits[MOST_EDITS])
{
    for (const struct edit *e = edits; e < edits + MOST_EDITS && e->width != 0; e++)
        if (e->at == PANEL)
            return true;
    return false;
}

static void make(const struct record_case *c, uint8_t out[RECORD_END])
{
    struct station s = sample(c->from);

    station_bytes(&s, out);
    make_edits(c->edits, out);
    if (!edits_panel(c->edits))
        out[PANEL] = undelivered(out);
}

void try_records(const struct record_case *cases, size_t count)
{
    uint8_t record[RECORD_END];

    for (size_t i = 0; i < count; i++) {
        unsigned broken;

        make(&cases[i], record);
        tally_case(cases[i].name);
        broken = broken_clauses(record, RECORD_END);
        check(broken == cases[i].broken, "the test's own clauses say %u, not %u", broken, cases[i].broken);
        try_record(cases[i].name, bytes_of(record, RECORD_END), 1, pattern(29), FRAMES_ROOM);
    }
}
