/* A message arrives: kept, had or ahead; the level, what is delivered at once, and the leave to resend. */
#include "arrivals.h"
#include "calls.h"
#include "expected.h"
#include "samples.h"
#include "tally.h"
#include "tests.h"

enum { KEPT = 3, HAD = 4, AHEAD = 5 };

static struct held message(uint32_t number, uint16_t sender, uint16_t service, unsigned length)
{
    struct held m = {number, sender, service, some_content(length, number)};

    return m;
}

/* the message arrives; nothing is delivered, and the record is as it was but for the message kept */
static struct station arrives(const char *name, const struct station *s, struct held m, unsigned outcome)
{
    struct arrival a = message_arrives(s, m, outcome);

    try_arrival(name, &a);
    return a.after;
}

/* it arrives; the level is then `level`, and these are delivered */
static struct station raises(const char *name, const struct station *s, struct held m, unsigned outcome,
                             uint32_t level, uint32_t first, uint32_t last)
{
    struct arrival a = message_arrives(s, m, outcome);

    a.after.level = level;
    delivers(&a, first, last);
    try_arrival(name, &a);
    return a.after;
}

/* the specification's trials: 32 kept, 33 ahead, 32 again had; all before 32 missing */
static void window(void)
{
    struct station s = sample(PLAIN), having_32, safe_10 = sample(PLAIN), last = sample(LAST);

    having_32 = arrives("message 32", &s, message(32, 3, 0, 5), KEPT);
    arrives("message 33", &s, message(33, 3, 0, 5), AHEAD);
    arrives("message 33, 32 held", &having_32, message(33, 3, 0, 5), AHEAD);
    arrives("message 2,000,000,000", &s, message(LIMIT, 3, 0, 5), AHEAD);
    arrives("32 again", &having_32, message(32, 3, 0, 5), HAD);
    arrives("32 again, with another sender, service and content", &having_32, message(32, 9, 1, 64), HAD);
    safe_10.level = safe_10.safe = safe_10.delivered = 10;
    arrives("at the safe mark", &safe_10, message(10, 3, 0, 5), HAD);
    arrives("below the safe mark", &safe_10, message(1, 3, 1, 0), HAD);
    arrives("at safe mark + 32", &safe_10, message(42, 3, 0, 5), KEPT);
    arrives("above safe mark + 32", &safe_10, message(43, 3, 0, 5), AHEAD);
    arrives("2,000,000,000 at the safe mark", &last, message(LIMIT, 3, 0, 5), HAD);
    last.level = last.safe = last.delivered = LIMIT - 2;
    arrives("2,000,000,000 above the level", &last, message(LIMIT, 3, 0, 5), KEPT);
    raises("up to 2,000,000,000", &last, message(LIMIT - 1, 3, 0, 5), KEPT, LIMIT - 1, LIMIT - 1, LIMIT - 1);
}

static void contents(void)
{
    struct station s = sample(PLAIN);

    for (unsigned length = 0; length <= CONTENT_ROOM; length++)
        raises("contents of 0 to 64 bytes", &s, message(1, 9, 0, length), KEPT, 1, 1, 1);
}

/* agreed ones are delivered at once, in order; a safe one is not, nor what comes behind it */
static void delivery(void)
{
    struct station s = sample(PLAIN), gap, waits;
    struct arrival a;

    gap = arrives("agreed, the one before it missing", &s, message(2, 9, 0, 3), KEPT);
    raises("the missing one", &gap, message(1, 3, 0, 4), KEPT, 2, 1, 2);
    a = message_arrives(&s, message(1, 3, 1, 4), KEPT);
    a.after.level = 1;
    try_arrival("a safe one", &a);
    waits = a.after;
    a = message_arrives(&waits, message(2, 9, 0, 3), KEPT);
    a.after.level = 2;
    try_arrival("agreed, behind a safe one", &a);
    a = message_arrives(&gap, message(1, 3, 1, 4), KEPT);
    a.after.level = 2;
    try_arrival("safe, before an agreed one", &a);
    s = reached(7);
    s.delivered = 7;
    raises("one more", &s, message(8, 9, 0, 64), KEPT, 8, 8, 8);
    s = sample(PLAIN);
    for (uint32_t n = 2; n <= HELD_PLACES; n++)
        hold(&s, n, 9, 0, some_content(CONTENT_ROOM, n));
    raises("32 of 64 bytes at once", &s, message(1, 3, 0, CONTENT_ROOM), KEPT, 32, 1, 32);
}

/* the rich record delivers 43 at any arrival: it is agreed, and the safe 42 before it is delivered */
static void at_any_arrival(void)
{
    struct station s = sample(RICH);

    raises("kept, the gap filled: the level rises past it", &s, message(46, 12, 1, 7), KEPT, 47, 43, 43);
    raises("kept above the gap", &s, message(48, 3, 0, 64), KEPT, 45, 43, 43);
    raises("had", &s, message(50, 12, 1, CONTENT_ROOM), HAD, 45, 43, 43);
    raises("had, at the safe mark", &s, message(40, 3, 0, 1), HAD, 45, 43, 43);
    raises("ahead", &s, message(73, 3, 0, 1), AHEAD, 45, 43, 43);
    raises("an own frame that comes back", &s, message(45, 7, 1, 10), HAD, 45, 43, 43);
    raises("an own frame of before the safe mark", &s, message(7, 7, 0, 10), HAD, 45, 43, 43);
}

/* each of the three ends the leave to resend, and then 19 is the answer */
static void leave_ends(void)
{
    static const struct {
        const char *name;
        uint32_t number;
        unsigned outcome;
    } ways[] = {{"kept ends the leave", 9, KEPT}, {"had ends it", 12, HAD}, {"ahead ends it", 33, AHEAD}};
    struct station s = sample(PLAIN), after;
    uint8_t record[RECORD_END], frame[TOKEN_ROOM];

    s.leave = true;
    s.token = first_token(4, 3);
    hold(&s, 12, 3, 0, some_content(6, 12));
    for (size_t i = 0; i < sizeof ways / sizeof ways[0]; i++) {
        station_bytes(&s, record);
        try_resend(ways[i].name, bytes_of(record, RECORD_END), pattern(FRAMES_ROOM),
                   resent(token_bytes(&s.token, frame)), frame);
        after = arrives(ways[i].name, &s, message(ways[i].number, 3, 0, 6), ways[i].outcome);
        station_bytes(&after, record);
        try_resend(ways[i].name, bytes_of(record, RECORD_END), pattern(FRAMES_ROOM), refused(19), NULL);
    }
}

/* more room than is needed: the rest of it is not touched */
static void larger_buffers(void)
{
    static const size_t more[] = {1, 1000, 65536};
    struct station s = sample(PLAIN);
    struct arrival a = message_arrives(&s, message(1, 3, 0, 20), KEPT);
    uint8_t record[RECORD_END];

    a.after.level = 1;
    delivers(&a, 1, 1);
    station_bytes(&s, record);
    station_bytes(&a.after, a.want.record);
    for (size_t i = 0; i < sizeof more / sizeof more[0]; i++)
        try_arrive("larger buffers", bytes_of(record, RECORD_END), bytes_of(a.frame, a.size),
                   pattern(FRAMES_ROOM + more[i]), pattern(DELIVERIES_ROOM + more[i]), &a.want);
}

void test_messages(void)
{
    tally_group("a message arrives");
    window();
    contents();
    delivery();
    at_any_arrival();
    leave_ends();
    larger_buffers();
}
