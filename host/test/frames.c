#include "frames.h"

#include <string.h>

#include "look.h"
#include "words.h"

static bool is_number(uint32_t value)
{
    return 1 <= value && value <= LIMIT;
}

static bool message_follows(const uint8_t *f, size_t size)
{
    return MESSAGE_LEAST <= size && size <= MESSAGE_ROOM && get(f + M_SENDER, 2) != 0
           && is_number(get(f + M_NUMBER, 4)) && get(f + M_CONFIGURATION, 4) == 0
           && get(f + M_SERVICE, 2) <= 1;
}

static bool requests_follow(const struct token *t)
{
    for (uint32_t i = 0; i < t->count; i++) {
        if (t->requests[i] < 1 || t->requests[i] > t->highest)
            return false;
        for (uint32_t j = 0; j < i; j++)
            if (t->requests[j] == t->requests[i])
                return false;
    }
    return true;
}

static bool token_follows(const uint8_t *f, size_t size)
{
    struct token t;

    if (size < TOKEN_LEAST || get(f + T_COUNT, 2) > REQUEST_PLACES
        || size != T_REQUESTS + 4 * get(f + T_COUNT, 2))
        return false;
    t = token_of(f);
    return t.addressee != 0 && is_number(t.number) && t.highest <= LIMIT && t.aru <= t.highest
           && (t.blocker == 0) == (t.aru == t.highest) && t.round <= MOST_ROUND && t.backlog <= MOST_BACKLOG
           && requests_follow(&t);
}

unsigned layout_refusal(const uint8_t *f, size_t size)
{
    uint32_t kind;

    if (size < HEADER_SIZE || get(f + T_LENGTH, 2) + 2 != size)
        return 10;
    kind = get(f + T_KIND, 2);
    if (kind != 1 && kind != 2)
        return 11;
    if (!is_number(get(f + T_RING, 4)) || get(f + T_REPRESENTATIVE, 2) == 0)
        return 12;
    return (kind == 1 ? message_follows(f, size) : token_follows(f, size)) ? 0 : 12;
}

unsigned ring_refusal(const uint8_t *r, const uint8_t *f)
{
    if (get(f + T_RING, 4) != get(r + RING, 4) || r[MEMBER_COUNT] == 0
        || get(f + T_REPRESENTATIVE, 2) != get(r + MEMBER(0), 2))
        return 13;
    if (get(f + T_KIND, 2) == 1)
        return is_member(r, get(f + M_SENDER, 2)) ? 0 : 14;
    return is_member(r, get(f + T_ADDRESSEE, 2))
                   && (get(f + T_BLOCKER, 2) == 0 || is_member(r, get(f + T_BLOCKER, 2)))
               ? 0
               : 14;
}

struct token token_of(const uint8_t *f)
{
    struct token t;

    memset(&t, 0, sizeof t);
    t.ring = get(f + T_RING, 4);
    t.representative = (uint16_t)get(f + T_REPRESENTATIVE, 2);
    t.addressee = (uint16_t)get(f + T_ADDRESSEE, 2);
    t.number = get(f + T_NUMBER, 4);
    t.highest = get(f + T_HIGHEST, 4);
    t.aru = get(f + T_ARU, 4);
    t.blocker = (uint16_t)get(f + T_BLOCKER, 2);
    t.round = (uint16_t)get(f + T_ROUND, 2);
    t.backlog = (uint16_t)get(f + T_BACKLOG, 2);
    t.count = (uint16_t)get(f + T_COUNT, 2);
    for (unsigned i = 0; i < t.count; i++)
        t.requests[i] = get(f + T_REQUESTS + 4 * i, 4);
    return t;
}
