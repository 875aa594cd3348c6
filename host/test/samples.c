#include "samples.h"

static const uint16_t members[] = {3, 7, 9, 12};

static struct station plain(void)
{
    return fresh_station(7, 4, 3, members);
}

static struct station level_7(void)
{
    struct station s = plain();

    for (uint32_t n = 1; n <= 7; n++)
        hold(&s, n, members[n % 3], n % 2, some_content(n, n));
    s.level = 7;
    return s;
}

/* safe mark 40, delivered 42, level 45; 41 to 45 held, and 47, 50, 72 above */
static struct station rich(void)
{
    struct station s = fresh_station(7, 4, 4, members);
    const struct token forwarded = {4, 3, 9, 19, 50, 43, 7, 12, 9, 3, {46, 48, 49}};

    hold(&s, 41, 3, 0, some_content(CONTENT_ROOM, 200));
    hold(&s, 42, 7, 1, some_content(0, 0));
    hold(&s, 43, 9, 0, some_content(1, 77));
    hold(&s, 44, 12, 1, some_content(CONTENT_ROOM - 1, 1));
    hold(&s, 45, 7, 1, some_content(10, 250));
    hold(&s, 47, 3, 0, some_content(5, 9));
    hold(&s, 50, 12, 1, some_content(CONTENT_ROOM, 3));
    hold(&s, 72, 9, 0, some_content(2, 100));
    s.safe = 40;
    s.delivered = 42;
    s.level = 45;
    s.aru = 43;
    s.earlier = 40;
    s.token_number = 19;
    s.broadcast = 5;
    s.stall = 3;
    s.own_part = 2;
    s.leave = true;
    s.token = forwarded;
    add_post(&s, 1, (const uint8_t *)"crown", 5);
    add_post(&s, 0, (const uint8_t *)"", 0);
    add_post(&s, 1, some_content(CONTENT_ROOM, 11).bytes, CONTENT_ROOM);
    add_post(&s, 0, (const uint8_t *)"\0throat\0", 8);
    return s;
}

static struct station full(void)
{
    struct station s = plain();

    for (uint32_t n = 101; n <= 132; n++)
        hold(&s, n, members[n % 3], n % 2, some_content(n % (CONTENT_ROOM + 1), n));
    s.safe = 100;
    s.delivered = 117;
    s.level = 132;
    for (unsigned i = 0; i < POST_PLACES; i++)
        add_post(&s, i % 2, some_content(4 * i, i).bytes, 4 * i);
    return s;
}

static struct station last(void)
{
    struct station s = plain();

    s.safe = s.delivered = s.level = LIMIT;
    return s;
}

struct station requesting(unsigned count)
{
    struct station s = rich();

    s.token.count = (uint16_t)count;
    for (unsigned i = 0; i < count; i++)
        s.token.requests[i] = 50 - 3 * i;
    return s;
}

struct station sample(enum sample which)
{
    switch (which) {
    case LEVEL_7:
        return level_7();
    case RICH:
        return rich();
    case FULL:
        return full();
    case LAST:
        return last();
    case LONG:
        return requesting(REQUEST_PLACES);
    default:
        return plain();
    }
}
