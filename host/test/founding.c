/* Founding: the fresh record, the first token, questions 1, 3, 4, 5, 6 and their order. */
#include "calls.h"
#include "expected.h"
#include "station.h"
#include "tally.h"
#include "tests.h"
#include "words.h"

enum { MOST_IDS = 10 };

struct founding {
    const char *name;
    unsigned number; /* the refusal's, or 0 */
    unsigned count;
    uint16_t ids[MOST_IDS];
    uint16_t own;
    uint32_t ring;
    int station_more, token_more; /* bytes lent beyond the fewest that are enough */
};

static const struct founding foundings[] = {
    {"3 and 7", 0, 2, {3, 7}, 3, 4, 0, 0},
    {"the other of two", 0, 2, {3, 7}, 7, 4, 0, 0},
    {"8 members", 0, 8, {2, 65535, 3, 300, 256, 77, 9, 4}, 256, 77, 0, 0},
    {"the rest in any order", 0, 3, {3, 9, 7}, 7, 4, 0, 0},
    {"ids 1 and 65535", 0, 2, {1, 65535}, 65535, 4, 0, 0},
    {"ids that differ in the upper byte", 0, 3, {0x0101, 0x0201, 0x0102}, 0x0201, 4, 0, 0},
    {"ring 1", 0, 2, {3, 7}, 3, 1, 0, 0},
    {"ring 2,000,000,000", 0, 2, {3, 7}, 3, LIMIT, 0, 0},
    {"record's buffer one longer", 0, 2, {3, 7}, 3, 4, 1, 0},
    {"record's buffer longer by its upper bytes", 0, 2, {3, 7}, 3, 4, 65536 + 7 - RECORD_END, 0},
    {"token's buffer one longer", 0, 2, {3, 7}, 3, 4, 0, 1},
    {"token's buffer longer by its upper bytes", 0, 2, {3, 7}, 3, 4, 0, 65536 + 7 - TOKEN_LEAST},

    {"record's buffer one short", 1, 2, {3, 7}, 3, 4, -1, 0},
    {"record's buffer of 1", 1, 2, {3, 7}, 3, 4, 1 - RECORD_END, 0},
    {"record's buffer of 0", 1, 2, {3, 7}, 3, 4, -RECORD_END, 0},
    {"token's buffer one short", 1, 2, {3, 7}, 3, 4, 0, -1},
    {"token's buffer of 0", 1, 2, {3, 7}, 3, 4, 0, -TOKEN_LEAST},
    {"both buffers short", 1, 2, {3, 7}, 3, 4, -1, -1},

    {"no member", 3, 0, {0}, 3, 4, 0, 0},
    {"3 alone", 3, 1, {3}, 3, 4, 0, 0},
    {"9 members", 3, 9, {1, 2, 3, 4, 5, 6, 7, 8, 9}, 3, 4, 0, 0},

    {"7 and 3", 4, 2, {7, 3}, 3, 4, 0, 0},
    {"id 0 first", 4, 2, {0, 7}, 7, 4, 0, 0},
    {"id 0 last", 4, 3, {3, 7, 0}, 3, 4, 0, 0},
    {"the lowest twice", 4, 3, {3, 7, 3}, 3, 4, 0, 0},
    {"an id twice at the end", 4, 4, {3, 7, 9, 9}, 3, 4, 0, 0},
    {"an id twice, apart", 4, 8, {3, 7, 9, 11, 13, 15, 17, 7}, 3, 4, 0, 0},
    {"two the same", 4, 2, {3, 3}, 3, 4, 0, 0},
    {"the lowest last of 8", 4, 8, {3, 4, 5, 6, 7, 8, 9, 2}, 3, 4, 0, 0},
    {"lowest not first by the upper byte", 4, 2, {0x0201, 0x0102}, 0x0201, 4, 0, 0},

    {"own id not among them", 5, 2, {3, 7}, 8, 4, 0, 0},
    {"own id 0", 5, 2, {3, 7}, 0, 4, 0, 0},
    {"own id among them in its lower byte", 5, 2, {3, 7}, 0x0107, 4, 0, 0},

    {"ring 0", 6, 2, {3, 7}, 3, 0, 0, 0},
    {"ring 2,000,000,001", 6, 2, {3, 7}, 3, OVER, 0, 0},
    {"ring 4,294,967,295", 6, 2, {3, 7}, 3, ALL_ONES, 0, 0},

    {"1 before 3", 1, 1, {3}, 3, 4, 0, -1},
    {"1 before 4", 1, 2, {7, 3}, 3, 4, -1, 0},
    {"1 before 5", 1, 2, {3, 7}, 8, 4, 0, -1},
    {"1 before 6", 1, 2, {3, 7}, 3, 0, -1, 0},
    {"3 before 4", 3, 1, {0}, 0, 4, 0, 0},
    {"3 before 4, 9 members", 3, 9, {9, 8, 7, 6, 5, 4, 3, 2, 1}, 3, 4, 0, 0},
    {"3 before 5", 3, 1, {3}, 7, 4, 0, 0},
    {"3 before 6", 3, 1, {3}, 3, 0, 0, 0},
    {"4 before 5", 4, 2, {7, 3}, 8, 4, 0, 0},
    {"4 before 6", 4, 2, {7, 3}, 3, 0, 0, 0},
    {"5 before 6", 5, 2, {3, 7}, 8, 0, 0, 0},
    {"all wrong", 1, 1, {0}, 8, 0, -RECORD_END, -TOKEN_LEAST},
};

static void try_case(const struct founding *f)
{
    uint8_t list[2 * MOST_IDS], record[RECORD_END], token[TOKEN_ROOM];
    size_t station_len = (size_t)(RECORD_END + f->station_more);
    size_t token_len = (size_t)(TOKEN_LEAST + f->token_more);
    totem_answer want = f->number == 0 ? founded() : refused(f->number);

    for (unsigned i = 0; i < f->count; i++)
        put(list + 2 * i, 2, f->ids[i]);
    if (f->number == 0)
        founding_bytes(f->own, f->ring, f->count, f->ids, record, token);
    try_found(f->name, pattern(station_len), bytes_of(list, 2 * f->count), f->own, f->ring,
              pattern(token_len), want, record, token);
    tally_case(f->name);
    check(founding_refusal(station_len, list, 2 * f->count, f->own, f->ring, token_len) == f->number,
          "the test's own questions answer otherwise");
}

/* the first token of ring 4 with ids 3 and 7, as the specification gives it */
static void first_token_of_ring_4(void)
{
    static const uint8_t token[TOTEM_TOKEN_LEN] = {0x1E, 0, 2, 0, 4, 0, 0, 0, 3, 0, 3, 0, 1};
    static const uint8_t list[4] = {3, 0, 7, 0};
    static const uint16_t ids[2] = {3, 7};
    struct station s = fresh_station(7, 4, 2, ids);
    uint8_t record[RECORD_END];

    station_bytes(&s, record);
    try_found("the specification's first token", pattern(RECORD_END), bytes_of(list, 4), 7, 4,
              pattern(TOKEN_LEAST), founded(), record, token);
}

static void found_refused(const char *name, struct bytes station, struct bytes members, struct bytes token,
                          unsigned number)
{
    try_found(name, station, members, 3, 4, token, refused(number), NULL, NULL);
}

/* lists whose number of bytes is odd, or whose number of ids is 2 to 8 only in a byte or in two */
static void lists_of_other_lengths(void)
{
    static const size_t lengths[] = {1, 3, 5, 7, 15, 17, 18, 32, 257, 2 * 256 + 4, 2 * 256 + 16, 65536,
                                     65536 + 4, 65536 + 5, 2 * 65536 + 4, 2 * 65536 + 16};
    static uint8_t list[2 * 65536 + 16];
    struct bytes station = pattern(RECORD_END), token = pattern(TOKEN_LEAST);

    for (size_t i = 0; i < sizeof list / 2; i++)
        put(list + 2 * i, 2, (uint32_t)(i + 3) % 65536);
    for (size_t i = 0; i < sizeof lengths / sizeof lengths[0]; i++)
        found_refused("a list of another length", station, bytes_of(list, lengths[i]), token, 3);
    found_refused("an odd list after short buffers", pattern(RECORD_END - 1), bytes_of(list, 5), token, 1);
    found_refused("an odd list of wrong ids", station, bytes_of(list + 1, 5), token, 3);
}

static void nulls(void)
{
    static const uint8_t list[4] = {3, 0, 7, 0};
    struct bytes station = pattern(RECORD_END), members = bytes_of(list, 4), token = pattern(TOKEN_LEAST);

    found_refused("no record lent", null_bytes(), members, token, 1);
    found_refused("no members lent", station, null_bytes(), token, 3);
    found_refused("no token lent", station, members, null_bytes(), 1);
    found_refused("nothing lent", null_bytes(), null_bytes(), null_bytes(), 1);
    found_refused("an empty list", station, no_bytes(), token, 3);
}

void test_founding(void)
{
    tally_group("founding");
    first_token_of_ring_4();
    for (size_t i = 0; i < sizeof foundings / sizeof foundings[0]; i++)
        try_case(&foundings[i]);
    lists_of_other_lengths();
    nulls();
}
