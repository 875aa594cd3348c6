/*
 * One kind of call, made many times on the same station: 'cost KIND COUNT'. host/cost/run counts its
 * instructions under callgrind, for two counts, and so finds those of a single call.
 */
#include <stdio.h>
#include <stdlib.h>
#include <string.h>

#include "totem.h"

enum { RING = 4, OWN = 7, MESSAGE_LEN = 86 };

static const uint8_t members[] = {3, 0, 7, 0, 9, 0};

static uint8_t station[TOTEM_STATION_LEN];
static uint8_t frames[TOTEM_FRAMES_LEN];
static uint8_t deliveries[TOTEM_DELIVERIES_LEN];
static uint8_t content[TOTEM_MOST_CONTENT];

static void put16(uint8_t *at, unsigned value)
{
    at[0] = value & 255;
    at[1] = value >> 8 & 255;
}

static void put32(uint8_t *at, unsigned value)
{
    put16(at, value);
    put16(at + 2, value >> 16);
}

static void put_header(uint8_t *frame, unsigned size, unsigned kind)
{
    memset(frame, 0, size);
    put16(frame, size - 2);
    put16(frame + 2, kind);
    put32(frame + 4, RING);
    put16(frame + 8, 3);
}

/* An agreed message of 64 bytes from member 3. */
static void put_message(uint8_t *frame, unsigned number)
{
    put_header(frame, MESSAGE_LEN, 1);
    put16(frame + 10, 3);
    put32(frame + 12, number);
    memset(frame + 22, 'm', TOTEM_MOST_CONTENT);
}

/* A token for this station that asks for messages 1 to `asked`; nobody blocks. */
static unsigned put_token(uint8_t *frame, unsigned highest, unsigned asked)
{
    unsigned size = TOTEM_TOKEN_LEN + 4 * asked;

    put_header(frame, size, 2);
    put16(frame + 10, OWN);
    put32(frame + 12, 1);
    put32(frame + 16, highest);
    put32(frame + 20, highest);
    put16(frame + 30, asked);
    for (unsigned i = 0; i < asked; i++)
        put32(frame + TOTEM_TOKEN_LEN + 4 * i, i + 1);
    return size;
}

static void expect(totem_answer answer, unsigned outcome, unsigned written)
{
    if (answer.outcome != outcome || answer.frames != written) {
        printf("refusal %u, outcome %u, %u bytes for the cable; %u and %u expected\n", answer.refusal,
               answer.outcome, answer.frames, outcome, written);
        exit(1);
    }
}

static totem_answer arrive(const uint8_t *frame, unsigned size)
{
    return totem_arrive(station, sizeof station, frame, size, frames, sizeof frames, deliveries,
                        sizeof deliveries);
}

static void post(unsigned count)
{
    for (unsigned i = 0; i < count; i++)
        expect(totem_post(station, sizeof station, TOTEM_AGREED, content, sizeof content), TOTEM_POSTED, 0);
}

static void hear(unsigned count)
{
    uint8_t frame[MESSAGE_LEN];

    for (unsigned i = 0; i < count; i++) {
        put_message(frame, i + 1);
        expect(arrive(frame, sizeof frame), TOTEM_KEPT, 0);
    }
}

/* What is measured, and what the station is brought to before. */
enum kind { POST, MESSAGE, IDLE, NEW, REPEATS, RESEND };

static const struct {
    const char *name;
    unsigned heard, posts, asked, outcome, written;
} kinds[] = {
    [POST] = {"post", 0, 0, 0, TOTEM_POSTED, 0},
    [MESSAGE] = {"message", 0, 0, 0, TOTEM_KEPT, 0},
    [IDLE] = {"idle", 0, 0, 0, TOTEM_ACCEPTED, TOTEM_TOKEN_LEN},
    [NEW] = {"new", 0, 16, 0, TOTEM_ACCEPTED, 8 * MESSAGE_LEN + TOTEM_TOKEN_LEN},
    [REPEATS] = {"repeats", 16, 0, 16, TOTEM_ACCEPTED, 16 * MESSAGE_LEN + TOTEM_TOKEN_LEN},
    [RESEND] = {"resend", 0, 0, 0, TOTEM_RESENT, TOTEM_TOKEN_LEN},
};

static totem_answer call(enum kind kind, const uint8_t *frame, unsigned size)
{
    if (kind == POST)
        return totem_post(station, sizeof station, TOTEM_AGREED, content, sizeof content);
    if (kind == RESEND)
        return totem_resend(station, sizeof station, frames, sizeof frames);
    return arrive(frame, size);
}

int main(int count, char **arguments)
{
    uint8_t before[TOTEM_STATION_LEN], frame[TOTEM_FRAMES_LEN];
    unsigned kind = 0, size;

    if (count != 3) {
        printf("usage: %s KIND COUNT\n", arguments[0]);
        return 2;
    }
    while (kind < sizeof kinds / sizeof *kinds && strcmp(kinds[kind].name, arguments[1]) != 0)
        kind++;
    if (kind == sizeof kinds / sizeof *kinds) {
        printf("no kind of call: %s\n", arguments[1]);
        return 2;
    }
    expect(totem_found(station, sizeof station, members, sizeof members, OWN, RING, frames, sizeof frames),
           TOTEM_FOUNDED, TOTEM_TOKEN_LEN);
    hear(kinds[kind].heard);
    post(kinds[kind].posts);
    size = put_token(frame, kinds[kind].heard, kinds[kind].asked);
    if (kind == RESEND)
        expect(arrive(frame, size), TOTEM_ACCEPTED, TOTEM_TOKEN_LEN);
    if (kind == MESSAGE) {
        put_message(frame, 1);
        size = MESSAGE_LEN;
    }
    memcpy(before, station, sizeof station);
    for (int i = atoi(arguments[2]); i > 0; i--) {
        memcpy(station, before, sizeof station);
        expect(call(kind, frame, size), kinds[kind].outcome, kinds[kind].written);
    }
    return 0;
}
