/* Arrival refused: questions 1, 2, 10 to 18 and their order: wrong in two ways, the lower number answers. */
#include <string.h>

#include "calls.h"
#include "expected.h"
#include "records.h"
#include "tally.h"
#include "tests.h"
#include "words.h"

/* what the edits are made on: frames that the rich record takes */
enum base { MESSAGE, TOKEN_20 };

/* message 46 with a content of 5 bytes, 27 bytes in all; token 20, requests 46 and 41, 40 bytes in all */
static const struct held message = {46, 3, 0, {5, "crown"}};
static const struct token token = {4, 3, 7, 20, 72, 43, 9, 12, 30, 2, {46, 41}};

#define LENGTH_FIELD(n) {T_LENGTH, 2, n}

struct frame_case {
    const char *name;
    unsigned number; /* the refusal's, or 0 */
    enum base base;
    int more; /* bytes lent beyond the frame's */
    struct edit edits[MOST_EDITS];
};

static const struct frame_case cases[] = {
    {"the message as it is", 0, MESSAGE, 0, {{0}}},
    {"the token as it is", 0, TOKEN_20, 0, {{0}}},
    {"a message is not asked for its addressee", 0, MESSAGE, 0, {{M_SENDER, 2, 9}}},

    {"a byte more", 10, MESSAGE, 1, {{0}}},
    {"a byte less", 10, MESSAGE, -1, {{0}}},
    {"length one more", 10, MESSAGE, 0, {LENGTH_FIELD(26)}},
    {"length one less", 10, MESSAGE, 0, {LENGTH_FIELD(24)}},
    {"length counting itself", 10, MESSAGE, 0, {LENGTH_FIELD(27)}},
    {"length exact in its lower byte", 10, MESSAGE, 0, {LENGTH_FIELD(25 + 256)}},
    {"9 bytes, length exact", 10, MESSAGE, 9 - 27, {LENGTH_FIELD(7)}},
    {"2 bytes, length exact", 10, MESSAGE, 2 - 27, {LENGTH_FIELD(0)}},
    {"1 byte", 10, MESSAGE, 1 - 27, {{0}}},
    {"0 bytes", 10, MESSAGE, -27, {{0}}},
    {"a token's byte more", 10, TOKEN_20, 1, {{0}}},
    {"a token's request less", 10, TOKEN_20, -4, {{0}}},
    {"longer by its upper bytes", 10, TOKEN_20, 65536, {{0}}},

    {"kind 0", 11, MESSAGE, 0, {{T_KIND, 2, 0}}},
    {"kind 3", 11, TOKEN_20, 0, {{T_KIND, 2, 3}}},
    {"kind 1 in its lower byte", 11, MESSAGE, 0, {{T_KIND, 2, 0x0101}}},
    {"kind 65535", 11, TOKEN_20, 0, {{T_KIND, 2, 65535}}},

    {"the header alone", 12, MESSAGE, 10 - 27, {LENGTH_FIELD(8)}},
    {"a message of 21 bytes", 12, MESSAGE, 21 - 27, {LENGTH_FIELD(19)}},
    {"a message of 87 bytes", 12, MESSAGE, 87 - 27, {LENGTH_FIELD(85)}},
    {"a message of 65,537 bytes", 12, MESSAGE, 65537 - 27, {LENGTH_FIELD(65535)}},
    {"ring 0", 12, MESSAGE, 0, {{T_RING, 4, 0}}},
    {"ring 2,000,000,001", 12, TOKEN_20, 0, {{T_RING, 4, OVER}}},
    {"representative 0", 12, MESSAGE, 0, {{T_REPRESENTATIVE, 2, 0}}},
    {"sender 0", 12, MESSAGE, 0, {{M_SENDER, 2, 0}}},
    {"message number 0", 12, MESSAGE, 0, {{M_NUMBER, 4, 0}}},
    {"message number 2,000,000,001", 12, MESSAGE, 0, {{M_NUMBER, 4, OVER}}},
    {"message number all ones", 12, MESSAGE, 0, {{M_NUMBER, 4, ALL_ONES}}},
    {"configuration 1", 12, MESSAGE, 0, {{M_CONFIGURATION, 4, 1}}},
    {"configuration by its last byte", 12, MESSAGE, 0, {{M_CONFIGURATION + 3, 1, 128}}},
    {"service 2", 12, MESSAGE, 0, {{M_SERVICE, 2, 2}}},
    {"service 256", 12, MESSAGE, 0, {{M_SERVICE, 2, 256}}},
    {"a message as a token", 12, MESSAGE, 0, {{T_KIND, 2, 2}}},
    {"a token as a message", 12, TOKEN_20, 0, {{T_KIND, 2, 1}}},
    {"a token of 31 bytes", 12, TOKEN_20, 31 - 40, {LENGTH_FIELD(29), {T_COUNT, 1, 0}}},
    {"one request in the room of two", 12, TOKEN_20, 0, {{T_COUNT, 2, 1}}},
    {"three requests in the room of two", 12, TOKEN_20, 0, {{T_COUNT, 2, 3}}},
    {"17 requests", 12, TOKEN_20, 100 - 40, {LENGTH_FIELD(98), {T_COUNT, 2, 17}}},
    {"addressee 0", 12, TOKEN_20, 0, {{T_ADDRESSEE, 2, 0}}},
    {"token number 0", 12, TOKEN_20, 0, {{T_NUMBER, 4, 0}}},
    {"token number 2,000,000,001", 12, TOKEN_20, 0, {{T_NUMBER, 4, OVER}}},
    {"highest 2,000,000,001", 12, TOKEN_20, 0, {{T_HIGHEST, 4, OVER}}},
    {"aru above the highest", 12, TOKEN_20, 0, {{T_ARU, 4, 73}}},
    {"aru at the highest, a blocker", 12, TOKEN_20, 0, {{T_ARU, 4, 72}}},
    {"aru below the highest, nobody", 12, TOKEN_20, 0, {{T_BLOCKER, 2, 0}}},
    {"round count 129", 12, TOKEN_20, 0, {{T_ROUND, 2, 129}}},
    {"backlog 128", 0, TOKEN_20, 0, {{T_BACKLOG, 2, 128}}},
    {"backlog 129", 12, TOKEN_20, 0, {{T_BACKLOG, 2, 129}}},
    {"backlog 256", 12, TOKEN_20, 0, {{T_BACKLOG, 2, 256}}},
    {"backlog 65535", 12, TOKEN_20, 0, {{T_BACKLOG, 2, 65535}}},
    {"request 0", 12, TOKEN_20, 0, {{T_REQUESTS, 4, 0}}},
    {"a request above the highest", 12, TOKEN_20, 0, {{T_REQUESTS + 4, 4, 73}}},
    {"a request twice", 12, TOKEN_20, 0, {{T_REQUESTS + 4, 4, 46}}},

    {"another ring's message", 13, MESSAGE, 0, {{T_RING, 4, 5}}},
    {"another ring's token", 13, TOKEN_20, 0, {{T_RING, 4, 4 + 65536}}},
    {"another member as representative", 13, MESSAGE, 0, {{T_REPRESENTATIVE, 2, 7}}},
    {"a representative that is no member", 13, TOKEN_20, 0, {{T_REPRESENTATIVE, 2, 2}}},

    {"a sender that is no member", 14, MESSAGE, 0, {{M_SENDER, 2, 8}}},
    {"a sender that is one in its lower byte", 14, MESSAGE, 0, {{M_SENDER, 2, 0x0103}}},
    {"an addressee that is no member", 14, TOKEN_20, 0, {{T_ADDRESSEE, 2, 8}}},
    {"a blocker that is no member", 14, TOKEN_20, 0, {{T_BLOCKER, 2, 8}}},

    {"for another member", 15, TOKEN_20, 0, {{T_ADDRESSEE, 2, 9}}},
    {"for the representative", 15, TOKEN_20, 0, {{T_ADDRESSEE, 2, 3}}},

    {"the number last forwarded", 16, TOKEN_20, 0, {{T_NUMBER, 4, 19}}},
    {"token number 1", 16, TOKEN_20, 0, {{T_NUMBER, 4, 1}}},

    {"token number 2,000,000,000", 17, TOKEN_20, 0, {{T_NUMBER, 4, LIMIT}}},
    {"token number 1,999,999,999", 0, TOKEN_20, 0, {{T_NUMBER, 4, LIMIT - 1}}},

    {"highest below a number held", 18, TOKEN_20, 0, {{T_HIGHEST, 4, 71}}},
    {"highest at the level, more held", 18, TOKEN_20, 0, {{T_HIGHEST, 4, 46}}},

    {"10 before 11", 10, MESSAGE, 1, {{T_KIND, 2, 3}}},
    {"10 before 12", 10, MESSAGE, 1, {{M_SENDER, 2, 0}}},
    {"10 before 13", 10, MESSAGE, 1, {{T_RING, 4, 5}}},
    {"10 before 14 to 18", 10, TOKEN_20, 1, {{T_ADDRESSEE, 2, 8}, {T_NUMBER, 4, 19}, {T_HIGHEST, 4, 71}}},
    {"11 before 12", 11, MESSAGE, 0, {{T_KIND, 2, 3}, {M_SENDER, 2, 0}}},
    {"11 before 13", 11, MESSAGE, 0, {{T_KIND, 2, 3}, {T_RING, 4, 5}}},
    {"11 before 12, the header alone", 11, MESSAGE, 10 - 27, {LENGTH_FIELD(8), {T_KIND, 2, 3}}},
    {"12 before 13", 12, MESSAGE, 0, {{M_SERVICE, 2, 2}, {T_RING, 4, 5}}},
    {"12 before 14", 12, MESSAGE, 0, {{M_SERVICE, 2, 2}, {M_SENDER, 2, 8}}},
    {"12 before 15, 16, 18", 12, TOKEN_20, 0,
     {{T_ROUND, 2, 129}, {T_ADDRESSEE, 2, 9}, {T_NUMBER, 4, 19}, {T_HIGHEST, 4, 71}}},
    {"12 before 13 by the backlog", 12, TOKEN_20, 0, {{T_BACKLOG, 2, 129}, {T_RING, 4, 5}}},
    {"13 before 14", 13, MESSAGE, 0, {{T_RING, 4, 5}, {M_SENDER, 2, 8}}},
    {"13 before 15 to 18", 13, TOKEN_20, 0,
     {{T_REPRESENTATIVE, 2, 7}, {T_ADDRESSEE, 2, 9}, {T_NUMBER, 4, LIMIT}, {T_HIGHEST, 4, 71}}},
    {"14 before 15", 14, TOKEN_20, 0, {{T_ADDRESSEE, 2, 9}, {T_BLOCKER, 2, 8}}},
    {"14 before 16", 14, TOKEN_20, 0, {{T_BLOCKER, 2, 8}, {T_NUMBER, 4, 19}}},
    {"14 before 17", 14, TOKEN_20, 0, {{T_BLOCKER, 2, 8}, {T_NUMBER, 4, LIMIT}}},
    {"14 before 18", 14, TOKEN_20, 0, {{T_BLOCKER, 2, 8}, {T_HIGHEST, 4, 71}}},
    {"15 before 16", 15, TOKEN_20, 0, {{T_ADDRESSEE, 2, 9}, {T_NUMBER, 4, 19}}},
    {"15 before 17", 15, TOKEN_20, 0, {{T_ADDRESSEE, 2, 9}, {T_NUMBER, 4, LIMIT}}},
    {"15 before 18", 15, TOKEN_20, 0, {{T_ADDRESSEE, 2, 9}, {T_HIGHEST, 4, 71}}},
    {"16 before 18", 16, TOKEN_20, 0, {{T_NUMBER, 4, 19}, {T_HIGHEST, 4, 71}}},
    {"17 before 18", 17, TOKEN_20, 0, {{T_NUMBER, 4, LIMIT}, {T_HIGHEST, 4, 71}}},
};

/* the call, beside what the test's own questions answer; with 0, the reply is that of its own steps */
static void arrives(const char *name, struct bytes record, struct bytes frame, struct bytes frames,
                    struct bytes deliveries, unsigned number)
{
    struct reply want;

    expect_arrival(record, frame, frames.size, deliveries.size, &want);
    try_arrive(name, record, frame, frames, deliveries, &want);
    check(want.answer.refusal == number, "the test's own questions answer %u, not %u", want.answer.refusal,
          number);
}

static void with_full_buffers(const char *name, const struct station *s, struct bytes frame, unsigned number)
{
    uint8_t record[RECORD_END];

    station_bytes(s, record);
    arrives(name, bytes_of(record, RECORD_END), frame, pattern(FRAMES_ROOM), pattern(DELIVERIES_ROOM),
            number);
}

static void try_case(const struct frame_case *c)
{
    static uint8_t frame[65536 + TOKEN_ROOM];
    struct station s = sample(RICH);
    size_t size;

    memset(frame, 0, sizeof frame);
    size = c->base == MESSAGE ? message_bytes(&s, &message, frame) : token_bytes(&token, frame);
    make_edits(c->edits, frame);
    with_full_buffers(c->name, &s, bytes_of(frame, (size_t)((int)size + c->more)), c->number);
}

/* what the rich record cannot show alone */
static void other_records(void)
{
    struct station s = sample(LEVEL_7);
    struct token t = token;
    uint8_t frame[TOKEN_ROOM];

    t.highest = 6;
    t.aru = 5;
    t.count = 0;
    with_full_buffers("highest below the level", &s, bytes_of(frame, token_bytes(&t, frame)), 18);
    t.highest = 7;
    with_full_buffers("highest at the level", &s, bytes_of(frame, token_bytes(&t, frame)), 0);
    s.token_number = LIMIT;
    t.number = LIMIT;
    with_full_buffers("16 before 17", &s, bytes_of(frame, token_bytes(&t, frame)), 16);
    s.token_number = LIMIT - 1;
    with_full_buffers("17 after 1,999,999,999", &s, bytes_of(frame, token_bytes(&t, frame)), 17);
    s = sample(PLAIN);
    with_full_buffers("no frame lent", &s, null_bytes(), 10);
    with_full_buffers("an empty frame", &s, no_bytes(), 10);
}

/* the token that was accepted comes again: 16, and nothing is altered */
static void repeated(void)
{
    struct station s = sample(RICH);
    uint8_t record[RECORD_END], frame[TOKEN_ROOM];
    struct bytes arriving = bytes_of(frame, token_bytes(&token, frame));
    struct reply first;

    station_bytes(&s, record);
    expect_arrival(bytes_of(record, RECORD_END), arriving, FRAMES_ROOM, DELIVERIES_ROOM, &first);
    arrives("a token repeated", bytes_of(first.record, RECORD_END), arriving, pattern(FRAMES_ROOM),
            pattern(DELIVERIES_ROOM), 16);
}

/* 1 of each buffer, for a message as for a token; and 1 and 2 before all others */
static void buffers(void)
{
    static const size_t rooms[][2] = {{FRAMES_ROOM - 1, DELIVERIES_ROOM}, {FRAMES_ROOM, DELIVERIES_ROOM - 1},
                                      {0, DELIVERIES_ROOM},               {FRAMES_ROOM, 0},
                                      {TOKEN_ROOM, DELIVERIES_ROOM},      {FRAMES_ROOM, MESSAGE_ROOM}};
    struct station s = sample(RICH), broken = sample(RICH);
    uint8_t whole[RECORD_END], not_whole[RECORD_END], frame[2][TOKEN_ROOM];
    struct bytes arriving[] = {bytes_of(frame[0], message_bytes(&s, &message, frame[0])),
                               bytes_of(frame[1], token_bytes(&token, frame[1])), null_bytes()};
    struct bytes full[] = {pattern(FRAMES_ROOM), pattern(DELIVERIES_ROOM)};

    broken.own = 8;
    station_bytes(&s, whole);
    station_bytes(&broken, not_whole);
    for (size_t a = 0; a < sizeof arriving / sizeof arriving[0]; a++) {
        for (size_t i = 0; i < sizeof rooms / sizeof rooms[0]; i++) {
            struct bytes frames = pattern(rooms[i][0]), deliveries = pattern(rooms[i][1]);

            arrives("too small buffers", bytes_of(whole, RECORD_END), arriving[a], frames, deliveries, 1);
            arrives("1 before 2", bytes_of(not_whole, RECORD_END), arriving[a], frames, deliveries, 1);
        }
        arrives("2 before 10", bytes_of(not_whole, RECORD_END), arriving[a], full[0], full[1], 2);
        arrives("a record of another length", bytes_of(whole, RECORD_END - 1), arriving[a], full[0], full[1],
                2);
        arrives("no buffer for frames", bytes_of(whole, RECORD_END), arriving[a], null_bytes(), full[1], 1);
        arrives("no buffer for deliveries", bytes_of(whole, RECORD_END), arriving[a], full[0], null_bytes(),
                1);
        arrives("no record lent", null_bytes(), arriving[a], full[0], full[1], 2);
    }
    arrives("nothing lent", null_bytes(), null_bytes(), null_bytes(), null_bytes(), 1);
}

void test_arrival_refusals(void)
{
    tally_group("arrival refused");
    for (size_t i = 0; i < sizeof cases / sizeof cases[0]; i++)
        try_case(&cases[i]);
    other_records();
    repeated();
    buffers();
}
