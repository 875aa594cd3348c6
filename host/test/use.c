/* The calls as a host makes them: plain arrays, several stations in turn, the same call again. */
#include <string.h>

#include "expected.h"
#include "samples.h"
#include "station.h"
#include "tally.h"
#include "tests.h"
#include "totem.h"

static bool same(totem_answer a, totem_answer b)
{
    return memcmp(&a, &b, sizeof a) == 0;
}

/* a ring of three, founded at each station; each posts in turn, and none knows of the others */
static void three_stations(void)
{
    static const uint16_t ids[3] = {3, 7, 9};
    static const uint8_t list[6] = {3, 0, 7, 0, 9, 0};
    uint8_t records[3][TOTEM_STATION_LEN], tokens[3][TOTEM_TOKEN_LEN], expected[RECORD_END];
    uint8_t frames[TOTEM_FRAMES_LEN];
    struct station s[3];

    tally_case("three stations in turn");
    for (unsigned i = 0; i < 3; i++) {
        s[i] = fresh_station(ids[i], 4, 3, ids);
        check(same(totem_found(records[i], sizeof records[i], list, sizeof list, ids[i], 4, tokens[i],
                               sizeof tokens[i]),
                   founded()),
              "founding at %u", ids[i]);
    }
    check(memcmp(tokens[0], tokens[1], TOTEM_TOKEN_LEN) == 0
              && memcmp(tokens[0], tokens[2], TOTEM_TOKEN_LEN) == 0,
          "one first token");
    for (unsigned round = 0; round < TOTEM_MOST_POSTS + 2; round++)
        for (unsigned i = 0; i < 3; i++) {
            uint8_t content[3] = {(uint8_t)round, (uint8_t)i, 0xFE};
            bool room = s[i].post_count < TOTEM_MOST_POSTS;

            check(same(totem_post(records[i], TOTEM_STATION_LEN, i % 2, content, i),
                       room ? posted() : refused(9)),
                  "post %u at %u", round, ids[i]);
            if (room)
                add_post(&s[i], i % 2, content, i);
            station_bytes(&s[i], expected);
            check(memcmp(records[i], expected, RECORD_END) == 0, "record after post %u at %u", round, ids[i]);
            check(same(totem_resend(records[i], TOTEM_STATION_LEN, frames, sizeof frames), refused(19)),
                  "resending at %u", ids[i]);
        }
    check(same(totem_found(records[1], sizeof records[1], list, sizeof list, 7, 5, tokens[1],
                           sizeof tokens[1]),
               founded()),
          "founding again over a record in use");
    s[1] = fresh_station(7, 5, 3, ids);
    station_bytes(&s[1], expected);
    check(memcmp(records[1], expected, RECORD_END) == 0, "the record founded again");
}

/* the same call on the same bytes, with other calls between */
static void again(void)
{
    struct station s = sample(RICH), other = sample(FULL);
    uint8_t record[RECORD_END], first[RECORD_END], now[RECORD_END], crowd[RECORD_END];
    uint8_t frames[2][TOTEM_FRAMES_LEN] = {{0}};

    tally_case("the same call again");
    station_bytes(&s, record);
    station_bytes(&other, crowd);
    memcpy(first, record, RECORD_END);
    check(same(totem_post(first, RECORD_END, 0, (const uint8_t *)"up", 2), posted()), "first post");
    check(same(totem_resend(record, RECORD_END, frames[0], TOTEM_FRAMES_LEN), resent(44)), "first resending");
    for (unsigned i = 0; i < 100; i++) {
        memcpy(now, record, RECORD_END);
        check(same(totem_post(now, RECORD_END, 0, (const uint8_t *)"up", 2), posted())
                  && memcmp(now, first, RECORD_END) == 0,
              "post %u", i);
        check(same(totem_post(crowd, RECORD_END, 0, (const uint8_t *)"up", 2), refused(9)), "full queue");
        check(same(totem_resend(record, RECORD_END, frames[1], TOTEM_FRAMES_LEN), resent(44))
                  && memcmp(frames[0], frames[1], TOTEM_FRAMES_LEN) == 0,
              "resending %u", i);
    }
}

void test_use(void)
{
    tally_group("as a host calls it");
    three_stations();
    again();
}
