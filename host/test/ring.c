/*
 * A ring of three stations in one process, as a host runs it. The cable loses, repeats and delays frames by
 * chance. At every call: delivery lists are alike or one begins the other, a safe message delivered anywhere
 * was received everywhere before, the record is whole and its panel's byte right. Once nothing is lost any
 * more, the lists become equal.
 */
#include <stdio.h>
#include <string.h>

#include "chance.h"
#include "layout.h"
#include "look.h"
#include "tally.h"
#include "tests.h"
#include "totem.h"
#include "words.h"

enum { STATIONS = 3, MOST_READINGS = 5000, SELDOM = 8, MOST_ROUNDS = 20 };

struct frame {
    size_t size;
    uint8_t bytes[TOKEN_ROOM];
};

static const uint8_t ids[2 * STATIONS] = {3, 0, 7, 0, 9, 0};

/* a station, its delivery list, and which readings were received there */
static struct {
    uint8_t record[TOTEM_STATION_LEN];
    uint8_t list[MOST_READINGS * MESSAGE_ROOM];
    size_t list_size;
    bool received[MOST_READINGS + 1];
} stations[STATIONS];

/* each message's first frame by its number, and how many there are */
static struct frame readings[MOST_READINGS + 1];
static unsigned written;

static struct frame newest, earlier; /* the last two tokens on the cable */
static unsigned losing; /* one message in so many is lost; 0 where none is */
static unsigned long repeated, resent, lost;

/* the frame that begins there; none is longer than a token */
static struct frame frame_at(const uint8_t *at)
{
    struct frame f = {lesser(get(at, 2) + 2, TOKEN_ROOM), {0}};

    memcpy(f.bytes, at, f.size);
    return f;
}

static bool same_frame(const struct frame *a, const struct frame *b)
{
    return a->size == b->size && memcmp(a->bytes, b->bytes, a->size) == 0;
}

static bool received_everywhere(uint32_t number)
{
    for (unsigned i = 0; i < STATIONS; i++)
        if (!stations[i].received[number])
            return false;
    return true;
}

/* ---- what is checked at every call */

static void record_is_whole(unsigned at)
{
    uint8_t too_long[TOTEM_MOST_CONTENT + 1] = {0};

    check(totem_post(stations[at].record, TOTEM_STATION_LEN, TOTEM_AGREED, too_long, sizeof too_long).refusal
              == TOTEM_LONG_CONTENT,
          "the record of station %u is not whole", at);
    check(stations[at].record[TOTEM_PANEL_AT] == undelivered(stations[at].record),
          "the panel of station %u reads %u", at, stations[at].record[TOTEM_PANEL_AT]);
}

/* the new part of a list agrees with all others as far as they go; so do all lists, then */
static void lists_agree(unsigned at, size_t from)
{
    size_t to = stations[at].list_size;

    for (unsigned i = (at + 1) % STATIONS; i != at; i = (i + 1) % STATIONS) {
        size_t common = stations[i].list_size < to ? stations[i].list_size : to;

        check(common <= from || memcmp(stations[at].list + from, stations[i].list + from, common - from) == 0,
              "the lists of stations %u and %u part", at, i);
    }
}

static void take_deliveries(unsigned at, const uint8_t *deliveries, size_t size)
{
    size_t from = stations[at].list_size;

    for (size_t i = 0; i < size; i += get(deliveries + i, 2) + 2u) {
        const uint8_t *f = deliveries + i;

        check(get(f + M_SERVICE, 2) == TOTEM_AGREED || received_everywhere(get(f + M_NUMBER, 4)),
              "safe message %u is delivered too soon", (unsigned)get(f + M_NUMBER, 4));
    }
    memcpy(stations[at].list + from, deliveries, size);
    stations[at].list_size += size;
    lists_agree(at, from);
}

/* ---- frames on the cable */

static void broadcast(unsigned from, const struct frame *f);

/* what a visit wrote: messages, each new one a reading received where it was written, and last the token */
static void take_frames(unsigned at, const uint8_t *frames, size_t size)
{
    for (size_t i = 0; i < size; i += get(frames + i, 2) + 2u) {
        struct frame f = frame_at(frames + i);
        uint32_t number = get(f.bytes + M_NUMBER, 4);

        if (get(f.bytes + T_KIND, 2) == 2) {
            check(i + f.size == size, "the token is not the last frame");
            earlier = newest;
            newest = f;
        } else if (number <= written) {
            check(same_frame(&f, &readings[number]), "message %u is repeated otherwise", (unsigned)number);
            repeated++;
            broadcast(at, &f);
        } else {
            check(number == written + 1 && number <= MOST_READINGS, "message %u is new", (unsigned)number);
            readings[++written] = f;
            stations[at].received[number] = true;
            broadcast(at, &f);
        }
    }
}

/* a frame arrives; deliveries are judged by what was received before this call */
static totem_answer arrive(unsigned at, const struct frame *f)
{
    uint8_t frames[TOTEM_FRAMES_LEN], deliveries[TOTEM_DELIVERIES_LEN];
    totem_answer a = totem_arrive(stations[at].record, TOTEM_STATION_LEN, f->bytes, f->size, frames,
                                  sizeof frames, deliveries, sizeof deliveries);

    take_deliveries(at, deliveries, a.deliveries);
    if (a.outcome == TOTEM_KEPT)
        stations[at].received[get(f->bytes + M_NUMBER, 4)] = true;
    record_is_whole(at);
    take_frames(at, frames, a.frames);
    return a;
}

static void hear(unsigned at, const struct frame *f)
{
    totem_answer a = arrive(at, f);

    check(a.refusal == 0 && a.outcome != TOTEM_ACCEPTED && a.frames == 0, "message: refusal %u, outcome %u",
          a.refusal, a.outcome);
}

static void broadcast(unsigned from, const struct frame *f)
{
    for (unsigned i = 0; i < STATIONS; i++) {
        if (i == from && (!losing || chance(SELDOM) != 0))
            continue; /* now and then a frame comes back to its sender */
        if (losing && chance(losing) == 0) {
            lost++;
            continue;
        }
        hear(i, f);
    }
}

/* an old message or token comes once more, anywhere */
static void old_frame(void)
{
    unsigned at = chance(STATIONS);
    totem_answer a;

    if (written > 0 && chance(2) == 0) {
        hear(at, &readings[chance_from(written > 40 ? written - 40 : 1, written)]);
    } else if (earlier.size > 0) {
        a = arrive(at, &earlier);
        check(a.refusal == TOTEM_OTHER_ADDRESSEE || a.refusal == TOTEM_OLD_TOKEN, "an old token: refusal %u",
              a.refusal);
    }
}

/* ---- the ring */

static void found_ring(void)
{
    memset(stations, 0, sizeof stations);
    written = 0;
    newest.size = TOTEM_TOKEN_LEN;
    earlier.size = 0;
    for (unsigned i = 0; i < STATIONS; i++)
        check(totem_found(stations[i].record, TOTEM_STATION_LEN, ids, sizeof ids, ids[2 * i], 4, newest.bytes,
                          TOTEM_TOKEN_LEN)
                      .outcome
                  == TOTEM_FOUNDED,
              "founding at station %u", i);
}

static void post_some(unsigned at, unsigned most)
{
    for (unsigned n = chance(most + 1); n > 0; n--) {
        uint8_t content[TOTEM_MOST_CONTENT];
        size_t length = chance(sizeof content + 1);
        uint16_t service = (uint16_t)chance(2);
        totem_answer a;

        chance_bytes(content, length);
        a = totem_post(stations[at].record, TOTEM_STATION_LEN, service, content, length);
        check(a.outcome == TOTEM_POSTED || a.refusal == TOTEM_POSTS_FULL, "posting: refusal %u", a.refusal);
        record_is_whole(at);
    }
}

static unsigned addressee(void)
{
    unsigned at = 0;

    while (at < STATIONS - 1 && ids[2 * at] != get(newest.bytes + T_ADDRESSEE, 2))
        at++;
    return at;
}

/* the newest token was lost: whoever forwarded it resends it, while it may */
static void lose_token(unsigned last)
{
    uint8_t frames[TOTEM_FRAMES_LEN];
    totem_answer a = totem_resend(stations[last].record, TOTEM_STATION_LEN, frames, sizeof frames);

    lost++;
    if (a.outcome == TOTEM_RESENT) {
        struct frame f = frame_at(frames);

        check(same_frame(&f, &newest), "another token is resent");
        resent++;
    } else {
        check(a.refusal == TOTEM_NO_LEAVE, "resending: refusal %u", a.refusal);
    }
}

/* the newest token reaches its addressee, which must take it */
static void pass_token(void)
{
    unsigned at = addressee();
    totem_answer a;

    if (losing && chance(SELDOM) == 0)
        lose_token((at + STATIONS - 1) % STATIONS);
    a = arrive(at, &newest);
    check(a.outcome == TOTEM_ACCEPTED, "the newest token: refusal %u", a.refusal);
}

static bool all_received(void)
{
    for (unsigned i = 0; i < STATIONS; i++)
        if (get(stations[i].record + LEVEL, 4) != written || stations[i].record[POST_COUNT] != 0)
            return false;
    return true;
}

static void end_equal(void)
{
    size_t all = 0;

    for (unsigned i = 0; i < STATIONS * MOST_ROUNDS && !all_received(); i++)
        pass_token();
    check(all_received(), "posts or messages are missing after %d rounds without losses", MOST_ROUNDS);
    for (unsigned i = 0; i < 3 * STATIONS; i++)
        pass_token();
    for (unsigned n = 1; n <= written; n++)
        all += readings[n].size;
    for (unsigned i = 0; i < STATIONS; i++)
        check(stations[i].list_size == all && memcmp(stations[i].list, stations[0].list, all) == 0,
              "station %u has delivered %zu bytes of %zu", i, stations[i].list_size, all);
}

static void run(unsigned visits, unsigned most_posts, unsigned loss, unsigned seed)
{
    chance_start(seed);
    found_ring();
    losing = loss;
    for (unsigned i = 0; i < visits; i++) {
        post_some(chance(STATIONS), most_posts);
        if (chance(SELDOM) == 0)
            old_frame();
        pass_token();
    }
    losing = 0;
    end_equal();
}

void test_ring(bool brief)
{
    static const unsigned losses[] = {4, 50, 12};
    unsigned long total = 0;

    tally_group("a ring of three");
    tally_case("losses, repeats, delays");
    for (unsigned seed = 1; seed <= (brief ? 1 : 24); seed++) {
        run(brief ? 60 : 500, seed % 2 ? TOTEM_MOST_POSTS : 5, losses[seed % 3], seed);
        total += written;
    }
    check(total > 0 && repeated > 0 && resent > 0 && lost > 0, "the cable did too little");
    printf("host: a ring of three: %lu messages, %lu repeats, %lu frames lost, %lu tokens resent\n", total,
           repeated, lost, resent);
}
