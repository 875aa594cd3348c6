/* The stack that each call takes, measured on a thread's stack that is painted before. */
#define _DEFAULT_SOURCE
#include <pthread.h>
#include <stdio.h>
#include <string.h>

#include "chance.h"
#include "random_frame.h"
#include "random_station.h"
#include "samples.h"
#include "tally.h"
#include "tests.h"
#include "totem.h"

enum { STACK_ROOM = 256 * 1024, PAINT = 0xA5 };

/* what include/totem.h says */
enum { MOST_FOR_ARRIVAL = 8 * 1024, MOST_FOR_OTHERS = 4 * 1024 };

static _Alignas(4096) uint8_t stack[STACK_ROOM];
static uint8_t record[TOTEM_STATION_LEN], frames[TOTEM_FRAMES_LEN], deliveries[TOTEM_DELIVERIES_LEN];
static uint8_t frame[FRAME_MOST];
static size_t frame_size;
static uint16_t outcome;
static const uint8_t *began; /* where the stack of the call begins, downwards */

static void *found(void *unused)
{
    static const uint8_t list[] = {3, 0, 7, 0};

    began = __builtin_frame_address(0);
    outcome = totem_found(record, sizeof record, list, sizeof list, 7, 4, frames, sizeof frames).outcome;
    return unused;
}

static void *post(void *unused)
{
    began = __builtin_frame_address(0);
    outcome = totem_post(record, sizeof record, TOTEM_SAFE, frames, TOTEM_MOST_CONTENT).outcome;
    return unused;
}

static void *arrive(void *unused)
{
    began = __builtin_frame_address(0);
    outcome = totem_arrive(record, sizeof record, frame, frame_size, frames, sizeof frames, deliveries,
                           sizeof deliveries)
                  .outcome;
    return unused;
}

static void *resend(void *unused)
{
    began = __builtin_frame_address(0);
    outcome = totem_resend(record, sizeof record, frames, sizeof frames).outcome;
    return unused;
}

/* how much of the painted stack the call takes, or 0 where no thread can be made */
static long taken(void *(*call)(void *))
{
    const uint8_t *lowest = stack;
    pthread_attr_t attributes;
    pthread_t thread;
    bool ran = false;

    memset(stack, PAINT, STACK_ROOM);
    pthread_attr_init(&attributes);
    if (pthread_attr_setstack(&attributes, stack, STACK_ROOM) == 0
        && pthread_create(&thread, &attributes, call, NULL) == 0)
        ran = pthread_join(thread, NULL) == 0;
    pthread_attr_destroy(&attributes);
    if (!ran)
        return 0;
    while (*lowest == PAINT)
        lowest++;
    return (long)(began - lowest);
}

/* at the rich record with the longest token */
static void measure(const char *name, void *(*call)(void *), uint16_t want, long most)
{
    struct station s = sample(LONG);
    long bytes;

    tally_case(name);
    station_bytes(&s, record);
    outcome = 0;
    bytes = taken(call);
    check(outcome == want, "outcome %u, expected %u", outcome, want);
    check(0 < bytes && bytes <= most, "%ld bytes of stack", bytes);
    printf("host: %s takes %ld bytes of stack\n", name, bytes);
}

static void arriving_message(uint32_t number)
{
    struct station s = sample(LONG);
    struct held m = {number, 3, 0, some_content(CONTENT_ROOM, number)};

    frame_size = message_bytes(&s, &m, frame);
}

/* it asks for all that is held and for more */
static void arriving_token(void)
{
    const struct token t = {4, 3, 7, 20, 72, 45, 9, 10, 50, 16,
                            {41, 42, 43, 44, 45, 47, 50, 1, 2, 3, 46, 48, 49, 51, 52, 53}};

    frame_size = token_bytes(&t, frame);
}

/* the most that any of these takes */
static void measure_random(unsigned count)
{
    long most = 0;

    tally_case("random arrivals");
    chance_start(CHANCE_SEED);
    for (unsigned i = 0; i < count; i++) {
        struct station s = random_station();
        long bytes;

        station_bytes(&s, record);
        frame_size = random_frame(&s, frame);
        bytes = taken(arrive);
        check(0 < bytes && bytes <= MOST_FOR_ARRIVAL, "%ld bytes of stack", bytes);
        most = bytes > most ? bytes : most;
    }
    printf("host: random arrivals take %ld bytes of stack at the most\n", most);
}

void test_stack(void)
{
    tally_group("stack");
    measure("founding", found, TOTEM_FOUNDED, MOST_FOR_OTHERS);
    measure("posting", post, TOTEM_POSTED, MOST_FOR_OTHERS);
    measure("resending", resend, TOTEM_RESENT, MOST_FOR_OTHERS);
    arriving_message(46);
    measure("a message kept", arrive, TOTEM_KEPT, MOST_FOR_ARRIVAL);
    arriving_message(41);
    measure("a message had", arrive, TOTEM_HAD, MOST_FOR_ARRIVAL);
    arriving_message(73);
    measure("a message ahead", arrive, TOTEM_AHEAD, MOST_FOR_ARRIVAL);
    arriving_token();
    measure("a token accepted", arrive, TOTEM_ACCEPTED, MOST_FOR_ARRIVAL);
    measure_random(1000);
}
