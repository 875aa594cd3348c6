#include "calls.h"

#include <stdio.h>
#include <string.h>

#include "tally.h"

/* the first fault of a try, of each kind; empty where there is none */
static char answer_fault[160], bytes_fault[160], guards_fault[160];

static void begin(const char *name)
{
    tally_case(name);
    answer_fault[0] = bytes_fault[0] = guards_fault[0] = '\0';
}

static void finish(void)
{
    check(answer_fault[0] == '\0', "%s", answer_fault);
    check(bytes_fault[0] == '\0', "%s", bytes_fault);
    check(guards_fault[0] == '\0', "%s", guards_fault);
}

static void answered(totem_answer got, totem_answer want)
{
    if (got.refusal == want.refusal && got.outcome == want.outcome && got.frames == want.frames
        && got.deliveries == want.deliveries && got.deaf == want.deaf)
        return;
    snprintf(answer_fault, sizeof answer_fault,
             "answer (refusal outcome frames deliveries deaf) %u %u %u %u %u, expected %u %u %u %u %u",
             got.refusal, got.outcome, got.frames, got.deliveries, got.deaf, want.refusal, want.outcome,
             want.frames, want.deliveries, want.deaf);
}

static void left(enum slot slot, const char *what, const uint8_t *written, size_t count)
{
    size_t at = 0;

    if (!bytes_as_expected(slot, written, count, &at))
        snprintf(bytes_fault, sizeof bytes_fault, "%s: byte %zu is not as expected (%s)", what, at,
                 at < count ? "written by the call" : "not to be altered");
    if (!guards_stand(slot))
        snprintf(guards_fault, sizeof guards_fault, "%s: bytes around it were altered", what);
}

void try_found(const char *name, struct bytes station, struct bytes members, uint16_t own, uint32_t ring,
               struct bytes token, totem_answer want, const uint8_t *record, const uint8_t *frames)
{
    bool good = want.refusal == 0;

    begin(name);
    for (int placing = 0; placing < PLACINGS; placing++) {
        uint8_t *s = lend(SLOT_STATION, placing, station, true);
        uint8_t *m = lend(SLOT_INPUT, placing, members, false);
        uint8_t *t = lend(SLOT_OUTPUT, placing, token, true);

        answered(totem_found(s, station.size, m, members.size, own, ring, t, token.size), want);
        left(SLOT_STATION, "record", record, good ? TOTEM_STATION_LEN : 0);
        left(SLOT_INPUT, "list of members", NULL, 0);
        left(SLOT_OUTPUT, "token's buffer", frames, want.frames);
    }
    finish();
}

void try_post(const char *name, struct bytes station, uint16_t service, struct bytes content,
              totem_answer want, const uint8_t *record)
{
    bool good = want.refusal == 0;

    begin(name);
    for (int placing = 0; placing < PLACINGS; placing++) {
        uint8_t *s = lend(SLOT_STATION, placing, station, false);
        uint8_t *c = lend(SLOT_INPUT, placing, content, false);

        answered(totem_post(s, station.size, service, c, content.size), want);
        left(SLOT_STATION, "record", record, good ? TOTEM_STATION_LEN : 0);
        left(SLOT_INPUT, "content", NULL, 0);
    }
    finish();
}

void try_arrive(const char *name, struct bytes station, struct bytes frame, struct bytes frames,
                struct bytes deliveries, const struct reply *want)
{
    bool good = want->answer.refusal == 0;

    begin(name);
    for (int placing = 0; placing < PLACINGS; placing++) {
        uint8_t *s = lend(SLOT_STATION, placing, station, false);
        uint8_t *a = lend(SLOT_INPUT, placing, frame, false);
        uint8_t *f = lend(SLOT_OUTPUT, placing, frames, true);
        uint8_t *d = lend(SLOT_DELIVERIES, placing, deliveries, true);

        answered(totem_arrive(s, station.size, a, frame.size, f, frames.size, d, deliveries.size),
                 want->answer);
        left(SLOT_STATION, "record", want->record, good ? TOTEM_STATION_LEN : 0);
        left(SLOT_INPUT, "frame", NULL, 0);
        left(SLOT_OUTPUT, "buffer for frames", want->frames, want->answer.frames);
        left(SLOT_DELIVERIES, "buffer for deliveries", want->deliveries, want->answer.deliveries);
    }
    finish();
}

void try_resend(const char *name, struct bytes station, struct bytes frames, totem_answer want,
                const uint8_t *written)
{
    begin(name);
    for (int placing = 0; placing < PLACINGS; placing++) {
        uint8_t *s = lend(SLOT_STATION, placing, station, false);
        uint8_t *f = lend(SLOT_OUTPUT, placing, frames, true);

        answered(totem_resend(s, station.size, f, frames.size), want);
        left(SLOT_STATION, "record", NULL, 0);
        left(SLOT_OUTPUT, "buffer for frames", written, want.frames);
    }
    finish();
}
