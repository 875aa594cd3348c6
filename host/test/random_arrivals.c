/*
 * Random frames at random records. The test's own questions and steps (expected_arrival.c) say what each
 * arrival must answer, leave and write; every placing's guards stand around it.
 */
#include <stdio.h>
#include <string.h>

#include "calls.h"
#include "chance.h"
#include "random_frame.h"
#include "random_station.h"
#include "tally.h"
#include "tests.h"
#include "words.h"

static unsigned long outcomes[8], refusals[20];
static unsigned long deaf, delivering, new_messages, limited;

/* would more posts have gone out if nothing waited elsewhere? */
static bool share_limits(const uint8_t *record, struct bytes frame, const struct reply *r)
{
    uint8_t alone[TOKEN_ROOM];
    struct reply other;

    if (r->answer.outcome != 6)
        return false;
    memcpy(alone, frame.at, frame.size);
    put(alone + T_BACKLOG, 2, 0);
    expect_arrival(bytes_of(record, RECORD_END), bytes_of(alone, frame.size), FRAMES_ROOM, DELIVERIES_ROOM,
                   &other);
    return other.record[POST_COUNT] < r->record[POST_COUNT];
}

static void count_answer(const struct station *s, const struct reply *r)
{
    outcomes[r->answer.outcome]++;
    refusals[r->answer.refusal]++;
    deaf += r->answer.deaf != 0;
    delivering += r->answer.deliveries != 0;
    new_messages += r->answer.refusal == 0 && r->record[POST_COUNT] < s->post_count;
}

static void try_frame(const char *name, const struct station *s, const uint8_t *record, struct bytes frame)
{
    size_t frames_len = FRAMES_ROOM + chance(3), deliveries_len = DELIVERIES_ROOM + chance(3);
    struct reply want;

    if (chance(200) == 0)
        frames_len = chance(FRAMES_ROOM);
    expect_arrival(bytes_of(record, RECORD_END), frame, frames_len, deliveries_len, &want);
    try_arrive(name, bytes_of(record, RECORD_END), frame, pattern(frames_len), pattern(deliveries_len),
               &want);
    count_answer(s, &want);
    limited += share_limits(record, frame, &want);
}

/* good frames, damaged ones, any bytes, and now and then a record that a change has broken */
static void frames_at_stations(unsigned count)
{
    uint8_t record[RECORD_END], frame[FRAME_MOST];

    for (unsigned i = 0; i < count; i++) {
        struct station s = random_station();
        size_t size = random_frame(&s, frame);

        station_bytes(&s, record);
        try_frame("a frame of the ring", &s, record, bytes_of(frame, size));
        for (unsigned n = 1 + chance(2); n > 0; n--)
            size = damage(frame, size);
        try_frame("a damaged frame", &s, record, bytes_of(frame, size));
        size = random_frame_bytes(frame);
        try_frame("random bytes as a frame", &s, record, bytes_of(frame, size));
        if (i % 16 == 0) {
            size = random_frame(&s, frame);
            change_a_field(record);
            try_frame("a record with a field changed", &s, record, bytes_of(frame, size));
        }
    }
}

/* frames far longer than any that travels, their length field exact where it can be */
static void long_frames(void)
{
    static const size_t sizes[] = {201,   256,   1000,       65535,      65536,
                                   65537, 65538, 65536 + 32, 65536 + 44, LENT_MOST};
    static uint8_t frame[LENT_MOST];
    uint8_t record[RECORD_END];

    for (size_t i = 0; i < sizeof sizes / sizeof sizes[0]; i++) {
        struct station s = random_station();

        station_bytes(&s, record);
        memset(frame, 0, sizeof frame);
        random_frame(&s, frame);
        frame[T_LENGTH] = (uint8_t)(sizes[i] - 2);
        frame[T_LENGTH + 1] = (uint8_t)((sizes[i] - 2) / 256);
        try_frame("long frames", &s, record, bytes_of(frame, sizes[i]));
    }
}

/* every answer must have come up, or the group says little */
static void report(void)
{
    tally_case("what came up");
    for (unsigned outcome = 3; outcome <= 6; outcome++)
        check(outcomes[outcome] > 0, "no arrival had outcome %u", outcome);
    for (unsigned number = 1; number <= 18; number = number == 2 ? 10 : number + 1)
        check(refusals[number] > 0, "no arrival was refused with %u", number);
    check(deaf > 0 && delivering > 0 && new_messages > 0 && limited > 0,
          "%lu deaf, %lu delivering, %lu with new messages, %lu limited by the backlog", deaf, delivering,
          new_messages, limited);
    printf("host: random arrivals: %lu kept, %lu had, %lu ahead, %lu accepted (%lu deaf, %lu with new "
           "messages, %lu limited by the backlog), %lu refused\n",
           outcomes[3], outcomes[4], outcomes[5], outcomes[6], deaf, new_messages, limited, outcomes[0]);
}

void test_random_arrivals(bool brief)
{
    tally_group("random arrivals");
    chance_start(CHANCE_SEED);
    frames_at_stations(brief ? 100 : 40000);
    long_frames();
    if (!brief)
        report();
}
