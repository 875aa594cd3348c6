/* What a station broadcasts when it accepts a token: repeats, new messages, and what it asks for itself. */
#include "arrivals.h"
#include "tally.h"
#include "tests.h"

/* round count, own last count and posts, no repeats: how many new messages, and the round count left */
static void rounds(void)
{
    static const struct {
        const char *name;
        uint16_t round;
        uint8_t last;
        unsigned posts, new_messages;
        uint16_t leaves;
    } trials[] = {
        {"round count 24, own last 0: no new message", 24, 0, 16, 0, 24},
        {"round count 23: one", 23, 0, 16, 1, 24},
        {"round count 17: seven", 17, 0, 16, 7, 24},
        {"round count 16: eight", 16, 0, 16, 8, 24},
        {"round count 0: eight at the most", 0, 0, 16, 8, 8},
        {"own last count taken off: 30 - 10", 30, 10, 16, 4, 24},
        {"own last count above the round count", 3, 10, 16, 8, 8},
        {"above 24: none", 40, 0, 16, 0, 40},
        {"round count 128: none, and it stays", 128, 0, 16, 0, 128},
        {"no post", 5, 3, 0, 0, 2},
        {"fewer posts than allowed", 5, 3, 3, 3, 5},
    };

    for (size_t i = 0; i < sizeof trials / sizeof trials[0]; i++) {
        struct station s = posting(10, trials[i].posts);
        struct token arriving = token_for_7(4, 10, 10, 0), t;
        struct arrival a;

        s.broadcast = trials[i].last;
        arriving.round = trials[i].round;
        a = token_arrives(&s, arriving, &t);
        a.after.broadcast = 0;
        sends_new(&a, &t, trials[i].new_messages);
        delivers(&a, 11, t.highest);
        t.round = trials[i].leaves;
        forwards(&a, t);
        try_arrival(trials[i].name, &a);
    }
}

/* the specification's trial: round count 30, own last 10, three repeats, many posts: one new, leaves 24 */
static void repeats_and_new(void)
{
    struct station s = posting(10, 16);
    struct token arriving = requesting_also(requesting_also(token_for_7(4, 10, 10, 0), 3, 3), 1, 2), t;
    struct arrival a;

    s.broadcast = 10;
    arriving.round = 30;
    a = token_arrives(&s, arriving, &t);
    broadcasts(&a, 3);
    broadcasts(&a, 1);
    broadcasts(&a, 2);
    a.after.broadcast = 3;
    sends_new(&a, &t, 1);
    delivers(&a, 11, 11);
    t = token_for_7(5, 11, 11, 0);
    t.addressee = 9;
    t.round = 24;
    t.backlog = 15;
    forwards(&a, t);
    try_arrival("three repeats and one new, leaves 24", &a);
}

/* 16 repeats leave no allowance, and the round count stays at most 128 */
static void repeats_alone(void)
{
    struct station s = reached(16);
    struct token arriving = requesting_also(token_for_7(4, 40, 0, 9), 1, 16), t;
    struct arrival a;

    for (unsigned i = 0; i < s.held_count; i++)
        s.held[i].content = some_content(CONTENT_ROOM, i);
    add_post(&s, 1, (const uint8_t *)"crown", 5);
    arriving.round = 120;
    a = token_arrives(&s, arriving, &t);
    for (uint32_t n = 1; n <= 16; n++)
        broadcasts(&a, n);
    a.after.broadcast = 16;
    a.after.stall = 1;
    t = requesting_also(token_for_7(5, 40, 0, 9), 17, 32);
    t.addressee = 9;
    t.round = 128;
    t.backlog = 1;
    forwards(&a, t);
    delivers(&a, 1, 16);
    try_arrival("16 repeats of 64 bytes and 16 requests fill the buffer", &a);
    tally_case("the buffer for frames");
    check(a.want.answer.frames == 1472, "%u bytes", a.want.answer.frames);
}

/* requests that are not held stay, in order; missing numbers are added behind them, none twice */
static void requests(void)
{
    struct station s = posting(7, 0);
    struct token arriving = token_for_7(4, 10, 5, 9), t;
    struct arrival a;

    arriving = requesting_also(requesting_also(requesting_also(arriving, 9, 9), 2, 2), 8, 8);
    a = token_arrives(&s, arriving, &t);
    broadcasts(&a, 2);
    a.after.broadcast = 1;
    t = requesting_also(requesting_also(token_for_7(5, 10, 5, 9), 9, 9), 8, 8);
    t.addressee = 9;
    t.round = 1;
    forwards(&a, requesting_also(t, 10, 10));
    try_arrival("9, 2, 8 asked, 2 held: leaves 9, 8, 10", &a);
}

/* a station with only these messages above its level asks for the rest */
static void asks(const char *name, struct station s, struct token arriving, struct token leaves)
{
    struct token t;
    struct arrival a = token_arrives(&s, arriving, &t);

    leaves.number = t.number;
    leaves.addressee = t.addressee;
    forwards(&a, leaves);
    a.after.stall = s.aru == leaves.aru;
    safe_to(&a.after, s.aru < leaves.aru ? s.aru : leaves.aru);
    try_arrival(name, &a);
}

static void missing(void)
{
    struct station s = posting(0, 0);
    struct token t = token_for_7(4, 32, 0, 9);

    asks("16 at the most", s, t, requesting_also(t, 1, 16));
    t = requesting_also(token_for_7(4, 40, 0, 9), 20, 35);
    asks("none where 16 are listed", s, t, t);
    t = requesting_also(token_for_7(4, 40, 0, 9), 26, 40);
    asks("one where 15 are listed", s, t, requesting_also(t, 1, 1));
    t = token_for_7(4, 3, 0, 9);
    asks("up to the highest", s, t, requesting_also(t, 1, 3));
    for (uint32_t n = 3; n <= 30; n++)
        hold(&s, n, 3, 0, some_content(n, n));
    t = token_for_7(4, 40, 0, 9);
    asks("up to safe mark + 32", s, t, requesting_also(requesting_also(t, 1, 2), 31, 32));
    s = posting(10, 0);
    for (uint32_t n = 12; n <= 32; n++)
        hold(&s, n, 3, 0, some_content(n, n));
    s.aru = 10;
    t = token_for_7(4, 45, 10, 9);
    asks("up to the new safe mark + 32", s, t, requesting_also(requesting_also(t, 11, 11), 33, 42));
}

/* oldest first, with their services; a safe one is not delivered, nor what stands behind it */
static void posts(void)
{
    struct station s = posting(0, 0);
    struct token t;
    struct arrival a;

    for (unsigned i = 0; i < 10; i++)
        add_post(&s, i == 2, some_content(i, i).bytes, i);
    a = token_arrives(&s, token_for_7(4, 0, 0, 0), &t);
    sends_new(&a, &t, 8);
    delivers(&a, 1, 2);
    t.round = 8;
    forwards(&a, t);
    try_arrival("ten posts, the third safe: eight go out, two wait", &a);
}

/* as many as safe mark + 32 and 2,000,000,000 permit; the new ones are the only ones held */
static void bounds(void)
{
    static const struct {
        const char *name;
        uint32_t safe, level;
        unsigned new_messages;
    } trials[] = {
        {"highest 30: two up to safe mark + 32", 0, 30, 2},
        {"highest 32: none", 0, 32, 0},
        {"safe mark 5: seven", 5, 30, 7},
        {"highest 1,999,999,999: one", LIMIT - 1, LIMIT - 1, 1},
        {"highest 2,000,000,000: none", LIMIT, LIMIT, 0},
    };

    for (size_t i = 0; i < sizeof trials / sizeof trials[0]; i++) {
        bool few = trials[i].level <= HELD_PLACES;
        struct station s = posting(few ? trials[i].level : 0, 16);
        struct token t;
        struct arrival a;

        s.level = s.delivered = trials[i].level;
        safe_to(&s, trials[i].safe);
        a = token_arrives(&s, token_for_7(4, s.level, s.level, 0), &t);
        sends_new(&a, &t, trials[i].new_messages);
        delivers(&a, s.level + 1, t.highest);
        t.round = (uint16_t)trials[i].new_messages;
        forwards(&a, t);
        try_arrival(trials[i].name, &a);
    }
}

/* a new message above a gap: held, but the level waits, and aru with it */
static void above_a_gap(void)
{
    struct station s = posting(7, 1);
    struct token t;
    struct arrival a = token_arrives(&s, token_for_7(4, 10, 10, 0), &t);

    posts_become(&a.after, 11, 11);
    broadcasts(&a, 11);
    a.after.broadcast = 1;
    t = requesting_also(token_for_7(5, 11, 7, 7), 8, 10);
    t.addressee = 9;
    t.round = 1;
    forwards(&a, t);
    try_arrival("a new message above a gap", &a);
}

/* highest beyond safe mark + 32: no new message, and nothing is counted below 0 */
static void beyond(void)
{
    struct station s = posting(7, 16);
    struct token t;
    struct arrival a = token_arrives(&s, token_for_7(4, 1000, 7, 9), &t);

    t.backlog = 16;
    forwards(&a, requesting_also(t, 8, 23));
    try_arrival("highest far beyond safe mark + 32", &a);
}

void test_broadcasts(void)
{
    tally_group("what a visit broadcasts");
    rounds();
    repeats_and_new();
    repeats_alone();
    requests();
    missing();
    posts();
    bounds();
    above_a_gap();
    beyond();
}
