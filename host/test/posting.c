/* Posting: the record after it, questions 2, 7, 8, 9 and their order. */
#include "calls.h"
#include "expected.h"
#include "samples.h"
#include "station.h"
#include "tally.h"
#include "tests.h"

static uint8_t before[RECORD_END], after[RECORD_END];

/* a post that is taken: the record after it is the encoder's */
static void post_taken(const char *name, struct station *s, uint16_t service, struct bytes content)
{
    station_bytes(s, before);
    add_post(s, service, content.at, content.size);
    station_bytes(s, after);
    try_post(name, bytes_of(before, RECORD_END), service, content, posted(), after);
}

static void post_refused(const char *name, const struct station *s, uint16_t service, struct bytes content,
                         unsigned number)
{
    station_bytes(s, before);
    try_post(name, bytes_of(before, RECORD_END), service, content, refused(number), NULL);
}

static void contents(void)
{
    static const size_t too_long[] = {CONTENT_ROOM + 1, CONTENT_ROOM + 2, 100, 128, 255, 256, 257,
                                      256 + CONTENT_ROOM, 65535, 65536, 65536 + 5, LENT_MOST};
    struct station s;

    for (size_t length = 0; length <= CONTENT_ROOM; length++) {
        s = sample(PLAIN);
        post_taken("contents of 0 to 64 bytes", &s, length % 2, pattern(length));
    }
    s = sample(PLAIN);
    post_taken("content NULL of 0 bytes", &s, 1, null_bytes());
    for (size_t i = 0; i < sizeof too_long / sizeof too_long[0]; i++)
        post_refused("contents over 64 bytes", &s, 1, pattern(too_long[i]), 7);
}

static void services(void)
{
    static const uint16_t others[] = {2, 3, 255, 256, 257, 0x8000, 65535};
    struct station s = sample(PLAIN);

    post_taken("service 0", &s, 0, pattern(3));
    post_taken("service 1", &s, 1, pattern(3));
    for (size_t i = 0; i < sizeof others / sizeof others[0]; i++)
        post_refused("another service", &s, others[i], pattern(3), 8);
}

/* 16 posts, of different services and contents, one after another; then no more */
static void queue(void)
{
    struct station s = sample(PLAIN);

    for (unsigned i = 0; i < POST_PLACES; i++)
        post_taken("16 posts", &s, i / 3 % 2, pattern((7 * i) % (CONTENT_ROOM + 1)));
    post_refused("the 17th post", &s, 0, pattern(3), 9);
    post_refused("the 17th post, empty", &s, 1, null_bytes(), 9);
    s = sample(PLAIN);
    for (unsigned i = 0; i < POST_PLACES; i++)
        post_taken("16 posts of 64 bytes", &s, 1, pattern(CONTENT_ROOM));
    post_refused("the 17th post of 64 bytes", &s, 1, pattern(CONTENT_ROOM), 9);
    s = sample(PLAIN);
    for (unsigned i = 0; i < POST_PLACES; i++)
        post_taken("16 empty posts", &s, 0, no_bytes());
    post_refused("the 17th empty post", &s, 0, no_bytes(), 9);
    s = sample(RICH);
    for (unsigned i = s.post_count; i < POST_PLACES; i++)
        post_taken("posts behind others, all else in use", &s, 1, pattern(i));
    post_refused("the 17th post, all else in use", &s, 1, pattern(5), 9);
}

static void order(void)
{
    struct station s = sample(FULL), broken = sample(FULL);

    broken.own = 8;
    post_refused("2 before 7, 8, 9", &broken, 2, pattern(CONTENT_ROOM + 1), 2);
    post_refused("2 before 9", &broken, 1, pattern(5), 2);
    post_refused("7 before 8, 9", &s, 2, pattern(CONTENT_ROOM + 1), 7);
    post_refused("7 before 9", &s, 1, pattern(CONTENT_ROOM + 1), 7);
    post_refused("8 before 9", &s, 2, pattern(CONTENT_ROOM), 8);
    post_refused("9 alone", &s, 1, pattern(CONTENT_ROOM), 9);
    s = sample(PLAIN);
    broken = sample(PLAIN);
    broken.own = 8;
    post_refused("2 before 7", &broken, 1, pattern(CONTENT_ROOM + 1), 2);
    post_refused("2 before 8", &broken, 2, pattern(5), 2);
    post_refused("7 before 8", &s, 2, pattern(CONTENT_ROOM + 1), 7);
    try_post("nothing lent", null_bytes(), 1, null_bytes(), refused(2), NULL);
}

void test_posting(void)
{
    tally_group("posting");
    contents();
    services();
    queue();
    order();
}
