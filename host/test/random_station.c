#include "random_station.h"

#include "chance.h"
#include "look.h"
#include "words.h"

static struct content random_content(void)
{
    struct content c = some_content(chance(CONTENT_ROOM + 1), 0);

    chance_bytes(c.bytes, c.length);
    return c;
}

static void random_token(struct station *s)
{
    struct token *t = &s->token;

    s->leave = true;
    t->ring = s->ring;
    t->representative = s->members[0];
    t->addressee = s->members[chance(s->member_count)];
    t->number = chance_from(1, LIMIT);
    t->highest = chance(2) ? s->level + chance_from(0, LIMIT - s->level) % 40 : chance_from(0, LIMIT);
    t->aru = chance(3) == 0 ? t->highest : chance_from(0, t->highest);
    t->blocker = t->aru == t->highest ? 0 : s->members[chance(s->member_count)];
    t->round = (uint16_t)chance_from(0, MOST_ROUND);
    t->backlog = (uint16_t)chance_from(0, MOST_BACKLOG);
    t->count = (uint16_t)chance_from(0, t->highest < REQUEST_PLACES ? t->highest : REQUEST_PLACES);
    for (unsigned i = 0; i < t->count; i++)
        t->requests[i] = t->highest - i;
}

struct station random_station(void)
{
    static const uint32_t safes[] = {0,       1,          HELD_PLACES - 1, HELD_PLACES,
                                     1000000, LIMIT - 40, LIMIT - 10,      LIMIT};
    uint16_t ids[MEMBER_PLACES];
    unsigned count = chance_from(LEAST_MEMBERS, MEMBER_PLACES), own = chance(count), width;
    uint32_t ring = chance(4) == 0 ? LIMIT : chance_from(1, LIMIT);
    struct station s;

    ids[0] = (uint16_t)chance_from(1, 500);
    for (unsigned i = 1; i < count; i++)
        ids[i] = (uint16_t)(ids[0] + (count - i) * chance_from(1, 3) * 1000 + i);
    s = fresh_station(ids[own], ring, count, ids);
    s.safe = chance(2) ? safes[chance(sizeof safes / sizeof safes[0])] : chance_from(0, LIMIT);
    width = LIMIT - s.safe < HELD_PLACES ? LIMIT - s.safe : HELD_PLACES;
    s.level = s.safe + chance_from(0, width);
    s.delivered = chance_from(s.safe, s.level);
    for (uint32_t n = s.safe + 1; n <= s.safe + width; n++)
        if (n <= s.level || (n > s.level + 1 && chance(3) == 0)) {
            uint16_t sender = ids[chance(count)], service = chance(2);

            hold(&s, n, sender, service, random_content());
        }
    s.aru = chance_from(0, s.level);
    s.earlier = chance(2) ? s.level : chance_from(0, s.level);
    s.token_number = chance_from(0, LIMIT);
    s.broadcast = (uint8_t)chance(MOST_BROADCAST + 1);
    s.stall = (uint8_t)chance(256);
    s.own_part = (uint8_t)chance(POST_PLACES + 1);
    if (chance(3) != 0)
        random_token(&s);
    for (unsigned n = chance(POST_PLACES + 1); n > 0; n--) {
        struct content c = random_content();

        add_post(&s, chance(2), c.bytes, c.length);
    }
    return s;
}

uint32_t near_edge(uint32_t value)
{
    static const uint32_t edges[] = {0, 1, LEAST_MEMBERS, MEMBER_PLACES, POST_PLACES, TOKEN_LEAST,
                                     CONTENT_ROOM, TOKEN_ROOM, MOST_ROUND, 255, 65535, LIMIT - 1, LIMIT,
                                     ALL_ONES};

    if (chance(2) == 0)
        value = edges[chance(sizeof edges / sizeof edges[0])];
    return value + chance(3) - 1;
}

void change_a_field(uint8_t record[RECORD_END])
{
    static const unsigned words[][2] = {
        {OWN, 2},    {RING, 4},    {MEMBER_COUNT, 1}, {LEVEL, 4}, {SAFE, 4},       {DELIVERED, 4},
        {ARU, 4},    {EARLIER, 4}, {TOKEN_NUMBER, 4}, {STALL, 1}, {TOKEN_SIZE, 1}, {POST_COUNT, 1},
        {BROADCAST, 1}, {OWN_PART, 1}, {PANEL, 1}};
    static const unsigned token_words[][2] = {
        {T_LENGTH, 2}, {T_KIND, 2}, {T_RING, 4},    {T_REPRESENTATIVE, 2}, {T_ADDRESSEE, 2}, {T_NUMBER, 4},
        {T_HIGHEST, 4}, {T_ARU, 4}, {T_BLOCKER, 2}, {T_ROUND, 2},          {T_BACKLOG, 2},   {T_COUNT, 2}};
    unsigned at, width = 1, place = chance(HELD_PLACES), post = chance(POST_PLACES), pick;

    switch (chance(9)) {
    case 0:
        at = MEMBER(chance(MEMBER_PLACES));
        width = 2;
        break;
    case 1:
        at = SENDER(place);
        width = 2;
        break;
    case 2:
        at = chance(2) ? SERVICE(place) : POST_SERVICE(post);
        width = 2;
        break;
    case 3:
        at = chance(2) ? LENGTH(place) : POST_LENGTH(post);
        break;
    case 4:
        at = chance(2) ? CONTENT(place) : POST_CONTENT(post);
        at += chance(CONTENT_ROOM);
        break;
    case 5:
        pick = chance(sizeof token_words / sizeof token_words[0]);
        at = T(token_words[pick][0]);
        width = token_words[pick][1];
        break;
    case 6:
        at = REQUEST(chance(REQUEST_PLACES));
        width = 4;
        break;
    default:
        pick = chance(sizeof words / sizeof words[0]);
        at = words[pick][0];
        width = words[pick][1];
    }
    put(record + at, width, near_edge(get(record + at, width)));
    if (at != PANEL && chance(2))
        record[PANEL] = undelivered(record);
}
