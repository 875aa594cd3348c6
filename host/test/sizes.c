/* The header's numbers as numerals, the struct, and the table of docs/RECORD.md against the encoder. */
#include <stddef.h>
#include <string.h>

#include "samples.h"
#include "tally.h"
#include "tests.h"
#include "totem.h"
#include "words.h"

static void numbers(void)
{
    tally_case("the header's numbers");
    check(TOTEM_STATION_LEN == 3429 && RECORD_END == 3429, "the record's length");
    check(TOTEM_PANEL_AT == 2 && PANEL == 2, "the panel's byte");
    check(TOTEM_FRAMES_LEN == 1472 && FRAMES_ROOM == 1472, "the buffer for frames: 16 messages and a token");
    check(TOTEM_DELIVERIES_LEN == 2752 && DELIVERIES_ROOM == 2752,
          "the buffer for deliveries: 32 messages");
    check(TOKEN_LEAST == 32 && TOKEN_ROOM == 96, "the sizes of a token");
    check(MESSAGE_LEAST == 22 && MESSAGE_ROOM == 86, "the sizes of a message");
    check(TOTEM_TOKEN_LEN == 32 && TOTEM_MOST_CONTENT == 64 && TOTEM_MOST_NUMBER == 2000000000, "sizes");
    check(TOTEM_LEAST_MEMBERS == 2 && TOTEM_MOST_MEMBERS == 8 && TOTEM_MOST_POSTS == 16, "counts");
    check(TOTEM_AGREED == 0 && TOTEM_SAFE == 1, "services");
    check(TOTEM_FOUNDED == 1 && TOTEM_POSTED == 2 && TOTEM_KEPT == 3 && TOTEM_HAD == 4 && TOTEM_AHEAD == 5
              && TOTEM_ACCEPTED == 6 && TOTEM_RESENT == 7,
          "outcomes");
    check(TOTEM_NO_ROOM == 1 && TOTEM_NOT_WHOLE == 2 && TOTEM_MEMBER_COUNT == 3 && TOTEM_BAD_IDS == 4
              && TOTEM_NOT_AMONG == 5 && TOTEM_BAD_RING == 6 && TOTEM_LONG_CONTENT == 7
              && TOTEM_OTHER_SERVICE == 8 && TOTEM_POSTS_FULL == 9 && TOTEM_NO_LEAVE == 19,
          "refusals");
    check(TOTEM_WRONG_LENGTH == 10 && TOTEM_OTHER_KIND == 11 && TOTEM_MALFORMED == 12
              && TOTEM_OTHER_RING == 13 && TOTEM_NOT_MEMBER == 14 && TOTEM_OTHER_ADDRESSEE == 15
              && TOTEM_OLD_TOKEN == 16 && TOTEM_LAST_TOKEN == 17 && TOTEM_BELOW_HELD == 18,
          "refusals of a frame");
    check(sizeof(totem_answer) == 10 && offsetof(totem_answer, refusal) == 0
              && offsetof(totem_answer, outcome) == 2 && offsetof(totem_answer, frames) == 4
              && offsetof(totem_answer, deliveries) == 6 && offsetof(totem_answer, deaf) == 8,
          "the answer's fields");
}

/* each field of the rich sample, read at its offset */
static void offsets(void)
{
    struct station s = sample(RICH);
    uint8_t r[RECORD_END], token[TOKEN_ROOM];
    size_t size = token_bytes(&s.token, token);

    tally_case("the table's offsets");
    station_bytes(&s, r);
    check(get(r + OWN, 2) == s.own && get(r + RING, 4) == s.ring, "own id, ring");
    check(r[PANEL] == 6, "43, 44, 45, 47, 50 and 72 on the panel");
    check(r[MEMBER_COUNT] == 4 && get(r + MEMBER(0), 2) == 3 && get(r + MEMBER(3), 2) == 12, "members");
    check(get(r + LEVEL, 4) == 45 && get(r + SAFE, 4) == 40 && get(r + DELIVERED, 4) == 42, "marks");
    for (unsigned i = 0; i < s.held_count; i++) {
        const struct held *h = &s.held[i];

        check(get(r + SENDER(h->number), 2) == h->sender && get(r + SERVICE(h->number), 2) == h->service
                  && r[LENGTH(h->number)] == h->content.length
                  && memcmp(r + CONTENT(h->number), h->content.bytes, CONTENT_ROOM) == 0,
              "held message %u", (unsigned)h->number);
    }
    check(get(r + ARU, 4) == 43 && get(r + EARLIER, 4) == 40 && get(r + TOKEN_NUMBER, 4) == 19, "visits");
    check(r[BROADCAST] == 5 && r[STALL] == 3 && r[OWN_PART] == 2, "counts");
    check(r[TOKEN_SIZE] == 44 && size == 44 && memcmp(r + TOKEN, token, size) == 0, "token");
    check(r[POST_COUNT] == 4, "posts");
    for (unsigned i = 0; i < s.post_count; i++)
        check(get(r + POST_SERVICE(i), 2) == s.posts[i].service
                  && r[POST_LENGTH(i)] == s.posts[i].content.length
                  && memcmp(r + POST_CONTENT(i), s.posts[i].content.bytes, CONTENT_ROOM) == 0,
              "post %u", i);
}

void test_layout(void)
{
    tally_group("numbers and layout");
    numbers();
    offsets();
}
