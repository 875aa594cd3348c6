/*
 * The panel's byte as a panel reads it: at TOTEM_PANEL_AT of the record, after each kind of call, beside a
 * count of the test's own from the record's bytes.
 */
#include <string.h>

#include "arrivals.h"
#include "layout.h"
#include "look.h"
#include "tally.h"
#include "tests.h"
#include "totem.h"

enum { AGREED = 0, SAFE_ONE = 1 };

static uint8_t record[TOTEM_STATION_LEN];

/* what the panel reads now, and what is counted in the record */
static void panel_reads(unsigned want)
{
    check(record[TOTEM_PANEL_AT] == want, "the panel reads %u, expected %u", record[TOTEM_PANEL_AT], want);
    check(undelivered(record) == want, "%u are held and undelivered, expected %u", undelivered(record), want);
}

static void answers(totem_answer a, unsigned refusal, unsigned outcome)
{
    check(a.refusal == refusal && a.outcome == outcome, "refusal %u, outcome %u", a.refusal, a.outcome);
}

/* ring 4 of 3, 7 and 9, founded at 7 over whatever stands there */
static void found(void)
{
    static const uint8_t list[] = {3, 0, 7, 0, 9, 0};
    uint8_t token[TOTEM_TOKEN_LEN];

    memset(record, 0xA5, sizeof record);
    answers(totem_found(record, sizeof record, list, sizeof list, 7, 4, token, sizeof token), 0,
            TOTEM_FOUNDED);
}

static totem_answer arrive(const uint8_t *frame, size_t size)
{
    static uint8_t frames[TOTEM_FRAMES_LEN], deliveries[TOTEM_DELIVERIES_LEN];

    return totem_arrive(record, sizeof record, frame, size, frames, sizeof frames, deliveries,
                        sizeof deliveries);
}

static void hear(uint32_t number, uint16_t service, unsigned outcome, unsigned want)
{
    struct station s = posting(0, 0);
    struct held m = {number, 9, service, some_content(number % CONTENT_ROOM, number)};
    uint8_t frame[MESSAGE_ROOM];

    answers(arrive(frame, message_bytes(&s, &m, frame)), 0, outcome);
    panel_reads(want);
}

static void visit(struct token t, unsigned want)
{
    uint8_t frame[TOKEN_ROOM];

    answers(arrive(frame, token_bytes(&t, frame)), 0, TOTEM_ACCEPTED);
    panel_reads(want);
}

static void post(uint16_t service, unsigned want)
{
    answers(totem_post(record, sizeof record, service, (const uint8_t *)"crown", 5), 0, TOTEM_POSTED);
    panel_reads(want);
}

static void resend(unsigned refusal, unsigned outcome, unsigned want)
{
    uint8_t frames[TOTEM_FRAMES_LEN];

    answers(totem_resend(record, sizeof record, frames, sizeof frames), refusal, outcome);
    panel_reads(want);
}

/* ---- each kind of call */

static void founding(void)
{
    tally_case("founding");
    found();
    panel_reads(0);
    hear(2, AGREED, TOTEM_KEPT, 1);
    found();
    panel_reads(0);
}

static void messages(void)
{
    tally_case("agreed ones in order");
    found();
    for (uint32_t n = 1; n <= 3; n++)
        hear(n, AGREED, TOTEM_KEPT, 0);
    hear(2, AGREED, TOTEM_HAD, 0);
    tally_case("behind a gap");
    hear(5, AGREED, TOTEM_KEPT, 1);
    hear(7, SAFE_ONE, TOTEM_KEPT, 2);
    hear(32, AGREED, TOTEM_KEPT, 3);
    hear(33, AGREED, TOTEM_AHEAD, 3);
    hear(7, AGREED, TOTEM_HAD, 3);
    tally_case("the gap is filled");
    hear(4, AGREED, TOTEM_KEPT, 2);
    hear(6, AGREED, TOTEM_KEPT, 2);
    tally_case("behind a safe one that waits");
    hear(8, AGREED, TOTEM_KEPT, 3);
}

/* safe ones wait until two tokens have gone on with an aru that covers them; then they are let go, too */
static void safe_ones(void)
{
    tally_case("32 safe ones");
    found();
    for (uint32_t n = 1; n <= HELD_PLACES; n++)
        hear(n, SAFE_ONE, TOTEM_KEPT, n);
    visit(token_for_7(1, HELD_PLACES, HELD_PLACES, 0), HELD_PLACES);
    resend(0, TOTEM_RESENT, HELD_PLACES);
    tally_case("a visit lets go of five");
    visit(token_for_7(4, HELD_PLACES, 5, 9), HELD_PLACES - 5);
    tally_case("visits let go of the rest");
    visit(token_for_7(7, HELD_PLACES, HELD_PLACES, 0), HELD_PLACES - 5);
    visit(token_for_7(10, HELD_PLACES, HELD_PLACES, 0), 0);
}

/* a visit's new messages count, too; letting go of what is delivered changes nothing */
static void posts(void)
{
    tally_case("posts wait");
    found();
    for (unsigned i = 0; i < 10; i++)
        post(i == 2, 0);
    resend(TOTEM_NO_LEAVE, 0, 0);
    tally_case("eight go out, the third of them safe");
    visit(token_for_7(1, 0, 0, 0), 6);
    post(AGREED, 6);
    tally_case("they are safe, and three more go out behind a gap");
    visit(token_for_7(4, 9, 8, 3), 3);
    tally_case("the gap is filled");
    hear(9, AGREED, TOTEM_KEPT, 0);
}

static void refusals(void)
{
    uint8_t frame[TOKEN_ROOM];
    struct token t = token_for_7(1, 4, 0, 9);

    tally_case("refusals");
    found();
    hear(2, AGREED, TOTEM_KEPT, 1);
    hear(4, AGREED, TOTEM_KEPT, 2);
    t.addressee = 9;
    answers(arrive(frame, token_bytes(&t, frame)), TOTEM_OTHER_ADDRESSEE, 0);
    panel_reads(2);
    answers(arrive(NULL, 0), TOTEM_WRONG_LENGTH, 0);
    panel_reads(2);
    answers(totem_post(record, sizeof record, 2, NULL, 0), TOTEM_OTHER_SERVICE, 0);
    panel_reads(2);
    resend(TOTEM_NO_LEAVE, 0, 2);
}

/* a host that writes there: every value but the count, every call that takes a record */
static void other_values(void)
{
    uint8_t frame[TOKEN_ROOM], frames[TOTEM_FRAMES_LEN];
    struct token t = token_for_7(1, 4, 0, 9);
    size_t size = token_bytes(&t, frame);

    tally_case("another value is refused with 2");
    found();
    hear(2, AGREED, TOTEM_KEPT, 1);
    hear(4, AGREED, TOTEM_KEPT, 2);
    for (unsigned value = 0; value < 256; value++) {
        if (value == 2)
            continue;
        record[TOTEM_PANEL_AT] = (uint8_t)value;
        answers(totem_post(record, sizeof record, AGREED, NULL, 0), TOTEM_NOT_WHOLE, 0);
        answers(arrive(frame, size), TOTEM_NOT_WHOLE, 0);
        answers(totem_resend(record, sizeof record, frames, sizeof frames), TOTEM_NOT_WHOLE, 0);
        check(record[TOTEM_PANEL_AT] == value, "a refusal altered it");
    }
    record[TOTEM_PANEL_AT] = 2;
    visit(t, 2);
}

void test_panel(void)
{
    tally_group("the panel's byte");
    founding();
    messages();
    safe_ones();
    posts();
    refusals();
    other_values();
}
