#include "whole.h"

#include "frames.h"
#include "layout.h"
#include "look.h"
#include "words.h"

static bool in_range(const uint8_t *r)
{
    static const int numbers[] = {LEVEL, SAFE, DELIVERED, ARU, EARLIER, TOKEN_NUMBER};
    uint64_t safe = get(r + SAFE, 4);

    for (size_t i = 0; i < sizeof numbers / sizeof numbers[0]; i++)
        if (get(r + numbers[i], 4) > LIMIT)
            return false;
    for (int i = 0; i < HELD_PLACES; i++)
        if (get(r + SERVICES + 2 * i, 2) > 1 || r[LENGTHS + i] > CONTENT_ROOM)
            return false;
    for (int i = 0; i < POST_PLACES; i++)
        if (get(r + POST_SERVICE(i), 2) > 1 || r[POST_LENGTH(i)] > CONTENT_ROOM)
            return false;
    for (uint64_t n = safe + 1; n <= safe + HELD_PLACES; n++)
        if (n > LIMIT && place_used(r, n))
            return false;
    return r[MEMBER_COUNT] <= MEMBER_PLACES && r[BROADCAST] <= MOST_BROADCAST && r[OWN_PART] <= POST_PLACES
           && r[TOKEN_SIZE] <= TOKEN_ROOM && r[POST_COUNT] <= POST_PLACES;
}

static bool senders_members(const uint8_t *r)
{
    for (int i = 0; i < HELD_PLACES; i++) {
        uint32_t sender = get(r + SENDERS + 2 * i, 2);

        if (sender != 0 && !is_member(r, sender))
            return false;
    }
    return true;
}

static bool token_passes(const uint8_t *r, const uint8_t *t, size_t size)
{
    return layout_refusal(t, size) == 0 && get(t + T_KIND, 2) == 2 && ring_refusal(r, t) == 0;
}

static bool founding_holds(const uint8_t *r)
{
    uint32_t count = r[MEMBER_COUNT], ring = get(r + RING, 4);

    if (count < LEAST_MEMBERS || count > MEMBER_PLACES)
        return false;
    for (uint32_t i = 0; i < count; i++) {
        if (get(r + MEMBER(i), 2) == 0 || get(r + MEMBER(i), 2) < get(r + MEMBER(0), 2))
            return false;
        for (uint32_t j = 0; j < i; j++)
            if (get(r + MEMBER(i), 2) == get(r + MEMBER(j), 2))
                return false;
    }
    return is_member(r, get(r + OWN, 2)) && 1 <= ring && ring <= LIMIT;
}

static bool held_to_level(const uint8_t *r)
{
    uint64_t safe = get(r + SAFE, 4), level = get(r + LEVEL, 4);

    for (uint64_t n = safe + 1; n <= level; n++)
        if (!is_held(r, n))
            return false; /* at safe mark + 33 at the latest */
    return true;
}

static bool unused_zero(const uint8_t *r)
{
    uint32_t members = lesser(r[MEMBER_COUNT], MEMBER_PLACES), posts = lesser(r[POST_COUNT], POST_PLACES);
    uint32_t token = lesser(r[TOKEN_SIZE], TOKEN_ROOM);

    for (uint32_t i = 0; i < HELD_PLACES; i++) {
        uint32_t length = place_used(r, i) ? lesser(r[LENGTH(i)], CONTENT_ROOM) : 0;

        if (!place_used(r, i) && (get(r + SERVICE(i), 2) != 0 || r[LENGTH(i)] != 0))
            return false;
        if (!zero(r + CONTENT(i) + length, CONTENT_ROOM - length))
            return false;
    }
    for (uint32_t i = 0; i < POST_PLACES; i++) {
        uint32_t length = i < posts ? lesser(r[POST_LENGTH(i)], CONTENT_ROOM) : 0;

        if (i >= posts && (get(r + POST_SERVICE(i), 2) != 0 || r[POST_LENGTH(i)] != 0))
            return false;
        if (!zero(r + POST_CONTENT(i) + length, CONTENT_ROOM - length))
            return false;
    }
    return zero(r + MEMBER(members), 2 * (MEMBER_PLACES - members))
           && zero(r + TOKEN + token, TOKEN_ROOM - token);
}

unsigned broken_clauses(const uint8_t *r, size_t size)
{
    unsigned broken = WHOLE;
    uint32_t level, token;

    if (size != RECORD_END)
        return C_SIZE;
    level = get(r + LEVEL, 4);
    token = r[TOKEN_SIZE];
    broken |= in_range(r) ? 0 : C_RANGE;
    broken |= senders_members(r) ? 0 : C_SENDERS;
    broken |= token == 0 || token > TOKEN_ROOM || token_passes(r, r + TOKEN, token) ? 0 : C_TOKEN;
    broken |= founding_holds(r) ? 0 : C_FOUNDING;
    broken |= get(r + SAFE, 4) <= get(r + DELIVERED, 4) && get(r + DELIVERED, 4) <= level ? 0 : C_MARKS;
    broken |= get(r + ARU, 4) <= level && get(r + EARLIER, 4) <= level ? 0 : C_ARUS;
    broken |= held_to_level(r) ? 0 : C_HELD;
    broken |= is_held(r, (uint64_t)level + 1) ? C_NEXT : 0;
    broken |= unused_zero(r) ? 0 : C_UNUSED;
    broken |= r[PANEL] == undelivered(r) ? 0 : C_PANEL;
    return broken;
}
