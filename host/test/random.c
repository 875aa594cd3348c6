/*
 * Random records and arguments. The test's own questions (expected.c) and clauses of whole (whole.c) decide
 * what each call must answer.
 */
#include <stdio.h>
#include <string.h>

#include "calls.h"
#include "chance.h"
#include "expected.h"
#include "look.h"
#include "random_station.h"
#include "records.h"
#include "samples.h"
#include "tally.h"
#include "tests.h"
#include "whole.h"
#include "words.h"

static unsigned long seen_whole, seen_broken;

static void try_and_count(const char *name, const uint8_t *record, uint16_t service, struct bytes content,
                          size_t room)
{
    if (try_record(name, bytes_of(record, RECORD_END), service, content, room))
        seen_whole++;
    else
        seen_broken++;
}

/* both kinds must have come up, or the group says little */
static void report(const char *name, bool whole_too)
{
    tally_case(name);
    check(seen_broken > 0 && (seen_whole > 0 || !whole_too), "%lu whole, %lu not", seen_whole, seen_broken);
    printf("host: %s: %lu whole, %lu not whole\n", name, seen_whole, seen_broken);
    seen_whole = seen_broken = 0;
}

/* the record with a byte changed; where that changes the count, also with the panel's byte following */
static void try_changed(const char *name, uint8_t *record, unsigned at)
{
    uint16_t service = chance(2);
    struct bytes content = pattern(chance(CONTENT_ROOM + 1));
    uint8_t panel = record[PANEL];

    try_and_count(name, record, service, content, FRAMES_ROOM);
    if (at == PANEL || panel == undelivered(record))
        return;
    record[PANEL] = undelivered(record);
    try_and_count(name, record, service, content, FRAMES_ROOM);
    record[PANEL] = panel;
}

/* every byte of the rich record: each bit turned, and 0, 255 and a random value in its place */
static void single_bytes(bool brief)
{
    static const char name[] = "one byte of the rich record changed";
    struct station s = sample(RICH);
    uint8_t record[RECORD_END];

    station_bytes(&s, record);
    for (unsigned at = 0; at < RECORD_END; at += brief ? 23 : 1)
        for (unsigned way = 0; way < 11; way++) {
            uint8_t was = record[at];

            if (way < 8)
                record[at] ^= (uint8_t)(1u << way);
            else
                record[at] = way == 8 ? 0 : way == 9 ? 255 : (uint8_t)chance(256);
            if (record[at] != was)
                try_changed(name, record, at);
            record[at] = was;
        }
    report(name, true);
}

static void random_bytes(unsigned count)
{
    uint8_t record[RECORD_END];

    for (unsigned i = 0; i < count; i++) {
        memset(record, 0, RECORD_END);
        if (i % 2 == 0)
            chance_bytes(record, RECORD_END);
        else
            for (unsigned n = chance(40); n > 0; n--) {
                unsigned at = chance(RECORD_END);

                record[at] = (uint8_t)chance(256);
            }
        try_and_count("random bytes", record, 1, pattern(5), FRAMES_ROOM);
    }
    report("random bytes", false);
}

/* whole records: posting gives what the encoder writes with one post more */
static void whole_stations(unsigned count)
{
    static const char name[] = "random whole records";
    uint8_t record[RECORD_END], after[RECORD_END];

    for (unsigned i = 0; i < count; i++) {
        struct station s = random_station();
        uint16_t service = chance(2);
        struct bytes content = pattern(chance(CONTENT_ROOM + 1));

        station_bytes(&s, record);
        tally_case(name);
        check(broken_clauses(record, RECORD_END) == WHOLE, "the test's own clauses say %u",
              broken_clauses(record, RECORD_END));
        try_and_count(name, record, service, content, FRAMES_ROOM);
        if (s.post_count < POST_PLACES) {
            add_post(&s, service, content.at, content.size);
            station_bytes(&s, after);
            try_post(name, bytes_of(record, RECORD_END), service, content, posted(), after);
        }
    }
    printf("host: %s: %lu\n", name, seen_whole);
    seen_whole = seen_broken = 0;
}

/* one or two fields set to a value near an edge, and arguments of all kinds */
static void changed_stations(unsigned count)
{
    static const char name[] = "random records with a field changed";
    uint8_t record[RECORD_END];

    for (unsigned i = 0; i < count; i++) {
        struct station s = random_station();
        uint16_t service = chance(8) == 0 ? 2 : chance(2);
        size_t length = chance(CONTENT_ROOM + 3), room = FRAMES_ROOM - 2 + chance(8);

        station_bytes(&s, record);
        for (unsigned n = 1 + chance(2); n > 0; n--)
            change_a_field(record);
        try_and_count(name, record, service, pattern(length), room);
    }
    report(name, true);
}

static void random_foundings(unsigned count)
{
    static const char name[] = "random foundings";
    static const uint32_t rings[] = {0, 1, 4, LIMIT, OVER};
    unsigned long taken = 0;

    for (unsigned i = 0; i < count; i++) {
        uint8_t list[2 * 10], record[RECORD_END], frame[TOKEN_ROOM];
        uint16_t ids[10] = {0};
        unsigned ids_given = chance(10), odd = chance(12) == 0, number;
        uint16_t own = (uint16_t)chance_from(1, 20);
        uint32_t ring = rings[chance(10) < 8 ? chance_from(1, 3) : chance(5)];
        size_t station_len = RECORD_END - 1 + chance(20), token_len = TOKEN_LEAST - 1 + chance(20);

        for (unsigned j = 0; j < 10; j++) {
            ids[j] = (uint16_t)(j == 0 ? chance_from(1, 3) : chance_from(j % 7 == 6 ? 0 : 2, 90));
            put(list + 2 * j, 2, ids[j]);
        }
        if (ids_given > 0 && chance(4) != 0)
            own = ids[chance(ids_given)];
        number = founding_refusal(station_len, list, 2 * ids_given + odd, own, ring, token_len);
        if (number == 0) {
            founding_bytes(own, ring, ids_given, ids, record, frame);
            taken++;
        }
        try_found(name, pattern(station_len), bytes_of(list, 2 * ids_given + odd), own, ring,
                  pattern(token_len), number == 0 ? founded() : refused(number), record, frame);
    }
    tally_case(name);
    check(taken > 0 && taken < count, "%lu of %u taken", taken, count);
    printf("host: %s: %lu of %u taken\n", name, taken, count);
}

void test_random(bool brief)
{
    tally_group("random");
    printf("host: seed %u\n", CHANCE_SEED);
    chance_start(CHANCE_SEED);
    single_bytes(brief);
    random_bytes(brief ? 40 : 1000);
    whole_stations(brief ? 40 : 2000);
    changed_stations(brief ? 40 : 10000);
    random_foundings(brief ? 100 : 4000);
}
