/* The encoder. It writes the fields one after another and knows no offset, so layout.h is tried by it too. */
#include "station.h"

#include <stdlib.h>
#include <string.h>

#include "words.h"

struct content some_content(unsigned length, unsigned first)
{
    struct content c;

    memset(&c, 0, sizeof c);
    c.length = (uint8_t)length;
    for (unsigned i = 0; i < length; i++)
        c.bytes[i] = (uint8_t)(first + 37 * i);
    return c;
}

struct station fresh_station(uint16_t own, uint32_t ring, unsigned count, const uint16_t *members)
{
    struct station s;

    memset(&s, 0, sizeof s);
    s.own = own;
    s.ring = ring;
    s.member_count = (uint8_t)count;
    for (unsigned i = 0; i < count; i++)
        s.members[i] = members[i];
    return s;
}

void hold(struct station *s, uint32_t number, uint16_t sender, uint16_t service, struct content content)
{
    struct held h = {number, sender, service, content};

    s->held[s->held_count++] = h;
}

void add_post(struct station *s, uint16_t service, const uint8_t *content, size_t length)
{
    struct post *p = &s->posts[s->post_count++];

    memset(p, 0, sizeof *p);
    p->service = service;
    p->content.length = (uint8_t)length;
    for (size_t i = 0; i < length; i++)
        p->content.bytes[i] = content[i];
}

struct token first_token(uint32_t ring, uint16_t representative)
{
    struct token t;

    memset(&t, 0, sizeof t);
    t.ring = ring;
    t.representative = representative;
    t.addressee = representative;
    t.number = 1;
    return t;
}

/* ---- writing one field after another */

static uint8_t *word(uint8_t *at, size_t width, uint32_t value)
{
    put(at, width, value);
    return at + width;
}

static uint8_t *bytes(uint8_t *at, const struct content *c)
{
    memcpy(at, c->bytes, CONTENT_ROOM);
    return at + CONTENT_ROOM;
}

static uint8_t *header(uint8_t *at, uint32_t size, uint32_t kind, uint32_t ring, uint32_t representative)
{
    at = word(at, 2, size - 2);
    at = word(at, 2, kind);
    at = word(at, 4, ring);
    return word(at, 2, representative);
}

size_t message_bytes(const struct station *s, const struct held *m, uint8_t out[MESSAGE_ROOM])
{
    uint8_t *at = header(out, MESSAGE_LEAST + m->content.length, 1, s->ring, s->members[0]);

    at = word(at, 2, m->sender);
    at = word(at, 4, m->number);
    at = word(at, 4, 0);
    at = word(at, 2, m->service);
    memcpy(at, m->content.bytes, m->content.length);
    return (size_t)(at - out) + m->content.length;
}

size_t token_bytes(const struct token *t, uint8_t out[TOKEN_ROOM])
{
    uint8_t *at = header(out, TOKEN_LEAST + 4u * t->count, 2, t->ring, t->representative);

    at = word(at, 2, t->addressee);
    at = word(at, 4, t->number);
    at = word(at, 4, t->highest);
    at = word(at, 4, t->aru);
    at = word(at, 2, t->blocker);
    at = word(at, 2, t->round);
    at = word(at, 2, t->backlog);
    at = word(at, 2, t->count);
    for (unsigned i = 0; i < t->count; i++)
        at = word(at, 4, t->requests[i]);
    return (size_t)(at - out);
}

/* the message that stands at a place, or an empty one */
static struct held at_place(const struct station *s, unsigned place)
{
    static const struct held none;

    for (unsigned i = 0; i < s->held_count; i++)
        if (s->held[i].number % HELD_PLACES == place)
            return s->held[i];
    return none;
}

static unsigned undelivered_of(const struct station *s)
{
    unsigned count = 0;

    for (unsigned i = 0; i < s->held_count; i++)
        count += s->held[i].number > s->delivered;
    return count;
}

void station_bytes(const struct station *s, uint8_t out[RECORD_END])
{
    struct held places[HELD_PLACES];
    uint8_t token[TOKEN_ROOM] = {0};
    uint8_t *at = out;

    for (unsigned i = 0; i < HELD_PLACES; i++)
        places[i] = at_place(s, i);
    at = word(at, 2, s->own);
    at = word(at, 1, undelivered_of(s));
    at = word(at, 4, s->ring);
    at = word(at, 1, s->member_count);
    for (unsigned i = 0; i < MEMBER_PLACES; i++)
        at = word(at, 2, s->members[i]);
    at = word(at, 4, s->level);
    at = word(at, 4, s->safe);
    at = word(at, 4, s->delivered);
    for (unsigned i = 0; i < HELD_PLACES; i++)
        at = word(at, 2, places[i].sender);
    for (unsigned i = 0; i < HELD_PLACES; i++)
        at = word(at, 2, places[i].service);
    for (unsigned i = 0; i < HELD_PLACES; i++)
        at = word(at, 1, places[i].content.length);
    for (unsigned i = 0; i < HELD_PLACES; i++)
        at = bytes(at, &places[i].content);
    at = word(at, 4, s->aru);
    at = word(at, 4, s->earlier);
    at = word(at, 4, s->token_number);
    at = word(at, 1, s->broadcast);
    at = word(at, 1, s->stall);
    at = word(at, 1, s->own_part);
    at = word(at, 1, s->leave ? (uint32_t)token_bytes(&s->token, token) : 0);
    memcpy(at, token, TOKEN_ROOM);
    at += TOKEN_ROOM;
    at = word(at, 1, s->post_count);
    for (unsigned i = 0; i < POST_PLACES; i++)
        at = word(at, 2, s->posts[i].service);
    for (unsigned i = 0; i < POST_PLACES; i++)
        at = word(at, 1, s->posts[i].content.length);
    for (unsigned i = 0; i < POST_PLACES; i++)
        at = bytes(at, &s->posts[i].content);
    if (at != out + RECORD_END)
        abort();
}

void founding_bytes(uint16_t own, uint32_t ring, unsigned count, const uint16_t *members,
                    uint8_t record[RECORD_END], uint8_t token[TOKEN_ROOM])
{
    struct station s = fresh_station(own, ring, count, members);
    struct token t = first_token(ring, members[0]);

    station_bytes(&s, record);
    token_bytes(&t, token);
}
