#include "expected_arrival.h"

#include <string.h>

#include "expected.h"
#include "frames.h"
#include "look.h"
#include "station.h"
#include "whole.h"
#include "words.h"

/* ---- the questions */

static bool held_above(const uint8_t *r, uint32_t highest)
{
    uint64_t safe = get(r + SAFE, 4);

    for (uint64_t n = safe + 1; n <= safe + HELD_PLACES; n++)
        if (n > highest && is_held(r, n))
            return true;
    return false;
}

static unsigned token_refusal(const uint8_t *r, const uint8_t *f)
{
    if (get(f + T_ADDRESSEE, 2) != get(r + OWN, 2))
        return 15;
    if (get(f + T_NUMBER, 4) <= get(r + TOKEN_NUMBER, 4))
        return 16;
    if (get(f + T_NUMBER, 4) >= LIMIT)
        return 17;
    return get(f + T_HIGHEST, 4) < get(r + LEVEL, 4) || held_above(r, get(f + T_HIGHEST, 4)) ? 18 : 0;
}

static unsigned arrival_refusal(struct bytes station, struct bytes frame, size_t frames_len,
                                size_t deliveries_len)
{
    unsigned number;

    if (frames_len < FRAMES_ROOM || deliveries_len < DELIVERIES_ROOM)
        return 1;
    if (broken_clauses(station.at, station.size) != WHOLE)
        return 2;
    number = layout_refusal(frame.at, frame.size);
    if (number == 0)
        number = ring_refusal(station.at, frame.at);
    if (number == 0 && get(frame.at + T_KIND, 2) == 2)
        number = token_refusal(station.at, frame.at);
    return number;
}

/* ---- holding and handing out */

/* the frame of the message at that number's place; its size is the result */
static uint16_t write_held(const uint8_t *r, uint32_t number, uint8_t *out)
{
    struct station ring = {.ring = get(r + RING, 4), .members = {(uint16_t)get(r + MEMBER(0), 2)}};
    struct held m = {number, (uint16_t)get(r + SENDER(number), 2), (uint16_t)get(r + SERVICE(number), 2),
                     {r[LENGTH(number)], {0}}};

    memcpy(m.content.bytes, r + CONTENT(number), CONTENT_ROOM);
    return (uint16_t)message_bytes(&ring, &m, out);
}

static void put_held(uint8_t *r, uint32_t number, uint32_t sender, uint32_t service, const uint8_t *content,
                     size_t length)
{
    put(r + SENDER(number), 2, sender);
    put(r + SERVICE(number), 2, service);
    put(r + LENGTH(number), 1, (uint32_t)length);
    memset(r + CONTENT(number), 0, CONTENT_ROOM);
    memcpy(r + CONTENT(number), content, length);
}

static void raise_level(uint8_t *r)
{
    while (is_held(r, get(r + LEVEL, 4) + 1))
        put(r + LEVEL, 4, get(r + LEVEL, 4) + 1);
}

static void broadcast(struct reply *out, uint32_t number)
{
    out->answer.frames += write_held(out->record, number, out->frames + out->answer.frames);
}

static void deliver(struct reply *out, uint32_t safe)
{
    uint8_t *r = out->record;

    for (;;) {
        uint32_t next = get(r + DELIVERED, 4) + 1;

        if (next > get(r + LEVEL, 4) || (get(r + SERVICE(next), 2) != 0 && next > safe))
            return;
        out->answer.deliveries += write_held(r, next, out->deliveries + out->answer.deliveries);
        put(r + DELIVERED, 4, next);
    }
}

/* ---- a message arrives */

static void take_message(struct reply *out, struct bytes frame)
{
    uint8_t *r = out->record;
    uint32_t number = get(frame.at + M_NUMBER, 4), safe = get(r + SAFE, 4);

    if (number <= safe || is_held(r, number)) {
        out->answer.outcome = 4;
    } else if (number > safe + HELD_PLACES) {
        out->answer.outcome = 5;
    } else {
        out->answer.outcome = 3;
        put_held(r, number, get(frame.at + M_SENDER, 2), get(frame.at + M_SERVICE, 2), frame.at + M_CONTENT,
                 frame.size - M_CONTENT);
        raise_level(r);
    }
    memset(r + TOKEN_SIZE, 0, 1 + TOKEN_ROOM);
    deliver(out, safe);
}

/* ---- a token is accepted */

/* of a round's messages, those in proportion to what waits here, but one at least; without a post, all */
static uint32_t share(uint32_t waiting, uint32_t others_backlog)
{
    uint32_t part = waiting == 0 ? 24 : 24 * waiting / (others_backlog + waiting);

    return part == 0 ? 1 : part;
}

/* step 2; how many were repeated */
static uint32_t repeat(struct reply *out, struct token *t)
{
    struct token asked = *t;

    t->count = 0;
    memset(t->requests, 0, sizeof t->requests);
    for (unsigned i = 0; i < asked.count; i++)
        if (is_held(out->record, asked.requests[i]))
            broadcast(out, asked.requests[i]);
        else
            t->requests[t->count++] = asked.requests[i];
    return asked.count - t->count;
}

/* the oldest post waits no longer */
static void drop_post(uint8_t *r)
{
    memmove(r + POST_SERVICES, r + POST_SERVICE(1), 2 * (POST_PLACES - 1));
    memmove(r + POST_LENGTHS, r + POST_LENGTH(1), POST_PLACES - 1);
    memmove(r + POST_CONTENTS, r + POST_CONTENT(1), CONTENT_ROOM * (POST_PLACES - 1));
    put(r + POST_SERVICE(POST_PLACES - 1), 2, 0);
    put(r + POST_LENGTH(POST_PLACES - 1), 1, 0);
    memset(r + POST_CONTENT(POST_PLACES - 1), 0, CONTENT_ROOM);
    r[POST_COUNT]--;
}

/* step 3; how many were broadcast, of those that the allowance less the repeats leaves */
static uint32_t broadcast_posts(struct reply *out, struct token *t, uint32_t left)
{
    uint8_t *r = out->record;
    uint32_t count = lesser(left, r[POST_COUNT]);

    count = lesser(count, minus(get(r + SAFE, 4) + HELD_PLACES, t->highest));
    count = lesser(count, minus(LIMIT, t->highest));
    for (uint32_t i = 0; i < count; i++) {
        put_held(r, ++t->highest, get(r + OWN, 2), get(r + POST_SERVICES, 2), r + POST_CONTENTS,
                 r[POST_LENGTHS]);
        broadcast(out, t->highest);
        drop_post(r);
    }
    raise_level(r);
    return count;
}

/* step 4 */
static void set_aru(const uint8_t *r, struct token *t)
{
    uint32_t level = get(r + LEVEL, 4), own = get(r + OWN, 2);

    if (level < t->aru || t->blocker == own || t->blocker == 0) {
        t->aru = level;
        t->blocker = (uint16_t)(level == t->highest ? 0 : own);
    }
}

/* step 5 */
static void count_stall(struct reply *out, const struct token *t)
{
    uint8_t *r = out->record;

    r[STALL] = t->aru == get(r + ARU, 4) && t->blocker != 0 ? (uint8_t)lesser(r[STALL] + 1, 255) : 0;
    if (r[STALL] > 10 && t->blocker == get(r + OWN, 2))
        out->answer.deaf = t->blocker;
}

static bool is_listed(const struct token *t, uint32_t number)
{
    for (unsigned i = 0; i < t->count; i++)
        if (t->requests[i] == number)
            return true;
    return false;
}

/* step 7; the record still has the safe mark under which its messages were taken */
static void ask_for_missing(const uint8_t *r, struct token *t, uint32_t safe)
{
    for (uint32_t n = get(r + LEVEL, 4) + 1; n <= lesser(t->highest, safe + HELD_PLACES); n++)
        if (!is_held(r, n) && !is_listed(t, n) && t->count < REQUEST_PLACES)
            t->requests[t->count++] = n;
}

static uint16_t next_member(const uint8_t *r)
{
    uint32_t place = 0;

    while (get(r + MEMBER(place), 2) != get(r + OWN, 2))
        place++;
    return (uint16_t)get(r + MEMBER((place + 1) % r[MEMBER_COUNT]), 2);
}

/* step 8: what is remembered, and the token written behind the broadcasts */
static void forward(struct reply *out, const struct token *t)
{
    uint8_t *r = out->record;

    put(r + EARLIER, 4, get(r + ARU, 4));
    put(r + ARU, 4, t->aru);
    put(r + TOKEN_NUMBER, 4, t->number);
    memset(r + TOKEN, 0, TOKEN_ROOM);
    r[TOKEN_SIZE] = (uint8_t)token_bytes(t, r + TOKEN);
    memcpy(out->frames + out->answer.frames, r + TOKEN, r[TOKEN_SIZE]);
    out->answer.frames += r[TOKEN_SIZE];
}

static void let_go(uint8_t *r, uint32_t safe)
{
    for (uint32_t n = get(r + SAFE, 4) + 1; n <= safe; n++)
        put_held(r, n, 0, 0, r, 0);
    put(r + SAFE, 4, safe);
}

static void accept_token(struct reply *out, struct token t)
{
    uint8_t *r = out->record;
    uint32_t others = minus(t.round, r[BROADCAST]), others_backlog = minus(t.backlog, r[OWN_PART]);
    uint32_t allowance = lesser(lesser(8, minus(24, others)), share(r[POST_COUNT], others_backlog));
    uint32_t sent, safe;

    out->answer.outcome = 6;
    sent = repeat(out, &t);
    sent += broadcast_posts(out, &t, minus(allowance, sent));
    set_aru(r, &t);
    count_stall(out, &t);
    safe = lesser(get(r + ARU, 4), t.aru);
    if (safe < get(r + SAFE, 4))
        safe = get(r + SAFE, 4);
    ask_for_missing(r, &t, safe);
    t.round = (uint16_t)lesser(others + sent, MOST_ROUND);
    t.backlog = (uint16_t)lesser(others_backlog + r[POST_COUNT], MOST_BACKLOG);
    t.number++;
    t.addressee = next_member(r);
    r[BROADCAST] = (uint8_t)sent;
    r[OWN_PART] = r[POST_COUNT];
    forward(out, &t);
    deliver(out, safe);
    let_go(r, safe);
}

void expect_arrival(struct bytes station, struct bytes frame, size_t frames_len, size_t deliveries_len,
                    struct reply *out)
{
    out->answer = refused(arrival_refusal(station, frame, frames_len, deliveries_len));
    if (out->answer.refusal != 0)
        return;
    memcpy(out->record, station.at, RECORD_END);
    if (get(frame.at + T_KIND, 2) == 1)
        take_message(out, frame);
    else
        accept_token(out, token_of(frame.at));
    out->record[PANEL] = undelivered(out->record);
}
