/* Resending: the remembered token's bytes, questions 1, 2, 19 and their order. */
#include "calls.h"
#include "expected.h"
#include "samples.h"
#include "station.h"
#include "tally.h"
#include "tests.h"

static uint8_t record[RECORD_END], frame[TOKEN_ROOM];

static void resend_taken(const char *name, const struct station *s, size_t room)
{
    size_t size = token_bytes(&s->token, frame);

    station_bytes(s, record);
    try_resend(name, bytes_of(record, RECORD_END), pattern(room), resent(size), frame);
}

static void resend_refused(const char *name, const struct station *s, struct bytes frames, unsigned number)
{
    station_bytes(s, record);
    try_resend(name, bytes_of(record, RECORD_END), frames, refused(number), NULL);
}

static void tokens(void)
{
    struct station s = sample(RICH);

    resend_taken("the remembered token", &s, FRAMES_ROOM);
    resend_taken("again, the record being as it was", &s, FRAMES_ROOM);
    for (unsigned count = 0; count <= REQUEST_PLACES; count++) {
        s = requesting(count);
        resend_taken("tokens of 0 to 16 requests", &s, FRAMES_ROOM);
    }
    s = sample(PLAIN);
    s.leave = true;
    s.token = first_token(4, 3);
    resend_taken("all else fresh", &s, FRAMES_ROOM);
}

static void buffers(void)
{
    static const size_t small[] = {0, 1, TOKEN_LEAST - 1, TOKEN_LEAST, 44, TOKEN_ROOM, FRAMES_ROOM - 1};
    static const size_t large[] = {FRAMES_ROOM, FRAMES_ROOM + 1, 2 * FRAMES_ROOM, 65536 + 100};
    struct station s = sample(RICH);

    for (size_t i = 0; i < sizeof large / sizeof large[0]; i++)
        resend_taken("large enough buffers", &s, large[i]);
    for (size_t i = 0; i < sizeof small / sizeof small[0]; i++)
        resend_refused("too small buffers", &s, pattern(small[i]), 1);
    resend_refused("no buffer lent", &s, null_bytes(), 1);
}

static void order(void)
{
    struct station s = sample(PLAIN), broken = sample(PLAIN);

    broken.own = 8;
    resend_refused("19, fresh", &s, pattern(FRAMES_ROOM), 19);
    resend_refused("1 before 2, 19", &broken, pattern(FRAMES_ROOM - 1), 1);
    resend_refused("1 before 19", &s, pattern(FRAMES_ROOM - 1), 1);
    resend_refused("2 before 19", &broken, pattern(FRAMES_ROOM), 2);
    s = sample(RICH);
    s.leave = false;
    resend_refused("19, all else in use", &s, pattern(FRAMES_ROOM), 19);
    s = sample(FULL);
    resend_refused("19, full", &s, pattern(FRAMES_ROOM), 19);
    try_resend("nothing lent", null_bytes(), null_bytes(), refused(1), NULL);
}

void test_resending(void)
{
    tally_group("resending");
    tokens();
    buffers();
    order();
}
