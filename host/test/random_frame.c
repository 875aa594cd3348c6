#include "random_frame.h"

#include "chance.h"
#include "random_station.h"
#include "words.h"

/* one in so many is anything from 1 to 2,000,000,000; the others are `low` to `low + width` */
static uint32_t near(uint32_t low, uint32_t width, uint32_t one_in)
{
    return chance(one_in) == 0 ? chance_from(1, LIMIT) : chance_from(low, low + width);
}

static uint16_t some_member(const struct station *s)
{
    return s->members[chance(s->member_count)];
}

static size_t random_message(const struct station *s, uint8_t *out)
{
    struct held m;

    m.number = near(s->safe, HELD_PLACES + 2, 12);
    m.sender = some_member(s);
    m.service = (uint16_t)chance(2);
    m.content = some_content(chance(CONTENT_ROOM + 1), m.number);
    return message_bytes(s, &m, out);
}

static uint32_t highest_held(const struct station *s)
{
    uint32_t highest = s->level;

    for (unsigned i = 0; i < s->held_count; i++)
        if (s->held[i].number > highest)
            highest = s->held[i].number;
    return highest;
}

/* requests from near the highest downwards, now in larger and now in smaller steps */
static void random_requests(struct token *t)
{
    uint32_t next = t->highest - (t->highest > 10 ? chance(10) : 0);

    for (unsigned n = chance(REQUEST_PLACES + 1); n > 0 && next > 0; n--) {
        uint32_t step = chance_from(1, 4);

        t->requests[t->count++] = next;
        next = next > step ? next - step : 0;
    }
}

static size_t random_token(const struct station *s, uint8_t *out)
{
    struct token t = first_token(s->ring, s->members[0]);

    t.addressee = chance(12) == 0 ? some_member(s) : s->own;
    t.number = chance(16) == 0 ? LIMIT : near(s->token_number, 3, 12);
    t.highest = near(highest_held(s), chance(2) ? 4 : 40, 20);
    if (chance(12) == 0 && t.highest > 0)
        t.highest--;
    t.aru = t.highest;
    if (t.highest > 0 && chance(3) != 0)
        t.aru = chance(2) && s->level < t.highest ? s->level : chance_from(0, t.highest - 1);
    if (chance(4) == 0 && s->aru < t.highest)
        t.aru = s->aru;
    t.blocker = t.aru == t.highest ? 0 : chance(2) ? s->own : some_member(s);
    t.round = (uint16_t)chance_from(0, chance(4) == 0 ? MOST_ROUND : 30);
    t.backlog = (uint16_t)chance_from(0, chance(4) == 0 ? 20 : MOST_BACKLOG);
    random_requests(&t);
    return token_bytes(&t, out);
}

size_t random_frame(const struct station *s, uint8_t out[FRAME_MOST])
{
    return chance(3) == 0 ? random_message(s, out) : random_token(s, out);
}

size_t damage(uint8_t frame[FRAME_MOST], size_t size)
{
    static const unsigned words[][2] = {{T_KIND, 2},    {T_RING, 4}, {T_REPRESENTATIVE, 2}, {T_ADDRESSEE, 2},
                                        {T_NUMBER, 4},  {T_ARU, 4},  {T_HIGHEST, 4},        {M_SERVICE, 2},
                                        {T_BLOCKER, 2}, {T_ROUND, 2}, {T_BACKLOG, 2},       {T_COUNT, 2},
                                        {T_LENGTH, 2}};
    unsigned pick = chance(sizeof words / sizeof words[0]), at = chance(FRAME_MOST);

    switch (chance(4)) {
    case 0:
        frame[size > 0 ? at % size : 0] ^= (uint8_t)(1u << chance(8));
        return size;
    case 1: /* another length, and a length field that says so */
        at = chance(FRAME_MOST + 1);
        if (at > size)
            chance_bytes(frame + size, at - size);
        if (chance(3) != 0)
            put(frame + T_LENGTH, 2, at - 2);
        return at;
    default:
        if (words[pick][0] + words[pick][1] <= size)
            put(frame + words[pick][0], words[pick][1],
                near_edge(get(frame + words[pick][0], words[pick][1])));
        return size;
    }
}

size_t random_frame_bytes(uint8_t out[FRAME_MOST])
{
    size_t size = chance(FRAME_MOST + 1);

    chance_bytes(out, size);
    if (size >= HEADER_SIZE && chance(4) != 0) {
        put(out + T_LENGTH, 2, (uint32_t)size - 2);
        if (chance(2))
            put(out + T_KIND, 2, chance_from(1, 2));
    }
    return size;
}
