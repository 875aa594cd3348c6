/* A token is accepted: aru, blocker, safe mark, delivery and letting go, the stall count and 'deaf'. */
#include "arrivals.h"
#include "calls.h"
#include "expected.h"
#include "samples.h"
#include "tally.h"
#include "tests.h"

/* the specification's trials: the record fresh but for its level, so all up to it is delivered */
static void blockers(void)
{
    static const struct {
        const char *name;
        uint32_t level, aru;
        uint16_t blocker;
        uint32_t leaves;
        uint16_t leaves_blocker;
    } trials[] = {
        {"aru 10, nobody; level 7: leaves 7, blocker 7", 7, 10, 0, 7, 7},
        {"aru 5, blocker 9; level 7: leaves 5, blocker 9", 7, 5, 9, 5, 9},
        {"aru 5, blocker 7; level 10: leaves 10, nobody", 10, 5, 7, 10, 0},
        {"aru 9, blocker 9; level 7: leaves 7, blocker 7", 7, 9, 9, 7, 7},
        {"aru 7, blocker 9; level 7: leaves 7, blocker 9", 7, 7, 9, 7, 9},
        {"aru 5, blocker 9; level 10: leaves 5, blocker 9", 10, 5, 9, 5, 9},
        {"aru 5, blocker 7; level 7: leaves 7, blocker 7", 7, 5, 7, 7, 7},
    };

    for (size_t i = 0; i < sizeof trials / sizeof trials[0]; i++) {
        struct station s = reached(trials[i].level);
        struct token t;
        struct arrival a = token_arrives(&s, token_for_7(4, 10, trials[i].aru, trials[i].blocker), &t);

        t.aru = trials[i].leaves;
        t.blocker = trials[i].leaves_blocker;
        forwards(&a, requesting_also(t, trials[i].level + 1, 10));
        delivers(&a, 1, trials[i].level);
        try_arrival(trials[i].name, &a);
    }
}

/* the last aru forwarded, that of the token, and the safe mark left; all ten are held, and nobody stalls */
static void safe_marks(void)
{
    static const struct {
        const char *name;
        uint32_t before, last, aru, safe;
    } trials[] = {
        {"forwarded 10, then 7: safe mark 7", 0, 10, 7, 7},
        {"forwarded 7, then 10: safe mark 7", 0, 7, 10, 7},
        {"after one forwarding nothing is safe", 0, 0, 10, 0},
        {"10 twice: all is let go", 0, 10, 10, 10},
        {"the safe mark does not fall", 6, 10, 4, 6},
        {"the safe mark does not fall by an earlier aru", 6, 3, 10, 6},
    };

    for (size_t i = 0; i < sizeof trials / sizeof trials[0]; i++) {
        struct station s = reached(10);
        struct token t;
        struct arrival a;

        s.delivered = 6;
        s.aru = trials[i].last;
        safe_to(&s, trials[i].before);
        a = token_arrives(&s, token_for_7(4, 10, trials[i].aru, trials[i].aru == 10 ? 0 : 9), &t);
        forwards(&a, t);
        delivers(&a, 7, 10);
        safe_to(&a.after, trials[i].safe);
        try_arrival(trials[i].name, &a);
    }
}

/* safe messages 1 to 3, agreed 4, safe 5: how far a safe mark of 3 lets delivery go */
static void safe_delivery(void)
{
    struct station s = sample(PLAIN);
    struct token t;
    struct arrival a;

    for (uint32_t n = 1; n <= 5; n++)
        hold(&s, n, 3, n != 4, some_content(n, n));
    s.level = 5;
    a = token_arrives(&s, token_for_7(4, 5, 5, 0), &t);
    forwards(&a, t);
    try_arrival("safe ones after one forwarding", &a);
    s = a.after;
    t = token_for_7(7, 5, 3, 9);
    a = token_arrives(&s, t, &t);
    forwards(&a, t);
    delivers(&a, 1, 4);
    safe_to(&a.after, 3);
    try_arrival("safe ones after the second", &a);
    s = sample(PLAIN);
    for (uint32_t n = 1; n <= HELD_PLACES; n++)
        hold(&s, n, 9, 1, some_content(CONTENT_ROOM, n));
    s.level = s.aru = s.earlier = HELD_PLACES;
    a = token_arrives(&s, token_for_7(4, HELD_PLACES, HELD_PLACES, 0), &t);
    forwards(&a, t);
    delivers(&a, 1, HELD_PLACES);
    safe_to(&a.after, HELD_PLACES);
    try_arrival("32 safe ones of 64 bytes at once", &a);
}

/* level 7 of 10, aru 7 forwarded before: the stall count before and after, by the blocker that is left */
static void stalls(void)
{
    static const struct {
        const char *name;
        uint32_t last, aru;
        uint16_t blocker;
        uint8_t before, after;
        uint16_t deaf;
    } trials[] = {
        {"the first stall", 7, 7, 7, 0, 1, 0},
        {"the 10th: no notice yet", 7, 7, 7, 9, 10, 0},
        {"the 11th: deaf", 7, 7, 7, 10, 11, 7},
        {"the 12th: deaf again", 7, 7, 7, 11, 12, 7},
        {"at most 255", 7, 7, 7, 255, 255, 7},
        {"another keeps aru back: no notice here", 7, 7, 9, 10, 11, 0},
        {"another aru than before", 6, 7, 7, 200, 0, 0},
        {"a lower aru than before", 7, 6, 9, 200, 0, 0},
    };

    for (size_t i = 0; i < sizeof trials / sizeof trials[0]; i++) {
        struct station s = reached(7);
        struct token t;
        struct arrival a;

        s.delivered = 7;
        s.aru = trials[i].last;
        s.stall = trials[i].before;
        a = token_arrives(&s, token_for_7(4, 10, trials[i].aru, trials[i].blocker), &t);
        a.after.stall = trials[i].after;
        a.want.answer.deaf = trials[i].deaf;
        forwards(&a, requesting_also(t, 8, 10));
        safe_to(&a.after, trials[i].last < trials[i].aru ? trials[i].last : trials[i].aru);
        try_arrival(trials[i].name, &a);
    }
}

/* nobody keeps aru back: no stall, though aru is the same as before */
static void no_stall(void)
{
    struct station s = reached(7);
    struct token t;
    struct arrival a;

    s.delivered = s.aru = 7;
    s.stall = 10;
    a = token_arrives(&s, token_for_7(4, 7, 7, 0), &t);
    a.after.stall = 0;
    forwards(&a, t);
    safe_to(&a.after, 7);
    try_arrival("nobody keeps aru back", &a);
}

/* the ring's first token at the representative; and from the last member on to the first */
static void circulation(void)
{
    static const uint16_t members[] = {3, 9, 7};
    struct station s = fresh_station(3, 4, 3, members);
    struct token t;
    struct arrival a = token_arrives(&s, first_token(4, 3), &t);

    forwards(&a, t);
    try_arrival("the first token", &a);
    s.own = 7;
    a = token_arrives(&s, token_for_7(3, 0, 0, 0), &t);
    t.addressee = 3;
    forwards(&a, t);
    try_arrival("after the last member comes the first", &a);
    a = token_arrives(&s, token_for_7(LIMIT - 1, 0, 0, 0), &t);
    t.addressee = 3;
    forwards(&a, t);
    try_arrival("the last token number but one", &a);
}

/* the token that was forwarded is written again, byte for byte, and takes the place of an older one */
static void resending(void)
{
    struct station s = sample(RICH);
    struct token t;
    struct arrival a = token_arrives(&s, token_for_7(22, 80, 40, 9), &t);
    uint8_t record[RECORD_END], frame[TOKEN_ROOM];

    a.after.broadcast = 0;
    a.after.stall = 0;
    t.backlog = 4;
    t = requesting_also(requesting_also(t, 46, 46), 48, 49);
    forwards(&a, requesting_also(t, 51, 63));
    delivers(&a, 43, 43);
    try_arrival("all else in use", &a);
    station_bytes(&a.after, record);
    try_resend("the token forwarded is resent", bytes_of(record, RECORD_END), pattern(FRAMES_ROOM),
               resent(token_bytes(&a.after.token, frame)), frame);
}

void test_visits(void)
{
    tally_group("a token is accepted");
    blockers();
    safe_marks();
    safe_delivery();
    stalls();
    no_stall();
    circulation();
    resending();
}
