/* A ring of two stations, 3 and 7, in one program: each posts a reading, and the token goes round. */
#include <stdio.h>
#include <string.h>

#include "totem.h"

enum { STATIONS = 2, RING = 4, KIND = 2, SENDER = 10, NUMBER = 12, SERVICE = 20, CONTENT = 22 };

static const uint16_t ids[STATIONS] = {3, 7};
static const uint8_t members[2 * STATIONS] = {3, 0, 7, 0}; /* two bytes an id, the lowest id first */

static uint8_t stations[STATIONS][TOTEM_STATION_LEN];
static uint8_t token[TOTEM_FRAMES_LEN]; /* the newest token, a whole frame */

static unsigned word(const uint8_t *at)
{
    return at[0] + 256u * at[1];
}

static unsigned long number(const uint8_t *at)
{
    return word(at) + 65536ul * word(at + 2);
}

/* a frame's first two bytes say how many come after them */
static size_t size_of(const uint8_t *frame)
{
    return word(frame) + 2;
}

/* a real host hands these to its operators */
static void show_deliveries(int at, const uint8_t *deliveries, size_t count)
{
    for (const uint8_t *f = deliveries; f < deliveries + count; f += size_of(f))
        printf("station %d: %lu from %u %s \"%.*s\"\n", ids[at], number(f + NUMBER), word(f + SENDER),
               word(f + SERVICE) == TOTEM_SAFE ? "safe" : "agreed", (int)(size_of(f) - CONTENT),
               (const char *)f + CONTENT);
}

static void show_refusal(int at, totem_answer a)
{
    if (a.refusal != 0)
        printf("station %d: refused, question %d\n", ids[at], a.refusal);
}

static void arrive(int at, const uint8_t *frame, size_t size);

/* a real host puts these on the cable: messages for all others, and last the token for its addressee */
static void send_frames(int from, const uint8_t *frames, size_t count)
{
    for (const uint8_t *f = frames; f < frames + count; f += size_of(f))
        if (word(f + KIND) == 2)
            memcpy(token, f, size_of(f));
        else
            arrive(1 - from, f, size_of(f));
}

/* a frame from the cable, as many bytes as have come, reaches a station */
static void arrive(int at, const uint8_t *frame, size_t size)
{
    uint8_t frames[TOTEM_FRAMES_LEN], deliveries[TOTEM_DELIVERIES_LEN];
    totem_answer a = totem_arrive(stations[at], TOTEM_STATION_LEN, frame, size, frames, sizeof frames,
                                  deliveries, sizeof deliveries);

    show_refusal(at, a);
    show_deliveries(at, deliveries, a.deliveries);
    send_frames(at, frames, a.frames);
}

static void post(int at, uint16_t service, const char *reading)
{
    show_refusal(at, totem_post(stations[at], TOTEM_STATION_LEN, service, (const uint8_t *)reading,
                                strlen(reading)));
}

int main(void)
{
    for (int i = 0; i < STATIONS; i++)
        show_refusal(i, totem_found(stations[i], TOTEM_STATION_LEN, members, sizeof members, ids[i], RING,
                                    token, sizeof token));

    post(1, TOTEM_SAFE, "up");
    post(0, TOTEM_AGREED, "ok");
    post(0, 2, "there is no service 2: 8");

    for (int visit = 0; visit < 5; visit++)
        arrive(visit % STATIONS, token, size_of(token));
    arrive(0, token, size_of(token)); /* it is station 7's turn: 15 */
    return 0;
}
