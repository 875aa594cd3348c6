#include "node.h"

#include <inttypes.h>
#include <unistd.h>

#include "arrival.h"
#include "complain.h"
#include "signals.h"

#define MOST_WAIT (100 * (instant)MILLISECOND) /* a signal that comes just before a wait is seen after it */
#define PATIENCE (10 * (instant)SECOND)        /* with a ring of which nothing is heard */

static instant lesser(instant a, instant b)
{
    return a < b ? a : b;
}

static instant later(instant a, instant b)
{
    return a > b ? a : b;
}

void node_start(struct node *n, const struct options *o)
{
    n->options = o;
    n->place = members_place(&o->members, o->own);
    n->now = n->input_ended = instant_now();
    n->quiet_visits = 0;
    n->deaf = n->silent = false;
    n->tally = (struct tally){0};
    station_found(&n->station, o);
    cable_open(&n->cable, &o->members, n->place, lesser(o->resend, MOST_WAIT));
    posts_start(&n->posts, STDIN_FILENO);
    deliveries_start(&n->deliveries, STDOUT_FILENO, n->place);
    resend_start(&n->resend, o->resend, n->now);
    chance_start(&n->chance, o->seed);
}

/* a line that the station does not take is passed over */
static void post_line(struct node *n, const struct post *post)
{
    totem_answer a;

    if (!post->understood) {
        complain("input line %lu is no post: write '0 text' (agreed) or '1 text' (safe)", post->line);
        return;
    }
    a = station_post(&n->station, post);
    if (a.refusal == 0) {
        n->tally.posted++;
    } else {
        tally_refusal(&n->tally, a.refusal);
        complain("input line %lu is refused, question %u: %s", post->line, a.refusal,
                 refusal_words(a.refusal));
    }
}

/* posts the lines that are there while fewer than 16 posts wait; says whether there is room for more */
static bool post_lines(struct node *n)
{
    struct post post;

    while (station_waiting(&n->station) < TOTEM_MOST_POSTS) {
        if (!posts_next(&n->posts, &post))
            return true;
        post_line(n, &post);
    }
    return false;
}

static void read_posts(struct node *n)
{
    posts_read(&n->posts);
    if (n->posts.ended)
        n->input_ended = instant_now();
    post_lines(n); /* before a token is taken */
}

static void send_again(struct node *n)
{
    size_t size;
    const uint8_t *token = resend_token(&n->resend, &n->station, &n->tally, n->now, &size);

    if (token != NULL)
        n->tally.unsent += cable_send(&n->cable, token, size);
}

/* posts of this station that have been taken and not been delivered here */
static uint64_t undelivered(const struct node *n)
{
    return n->tally.posted - n->tally.own_delivered;
}

/* says once when nothing has been heard for too long */
static bool ring_is_silent(struct node *n)
{
    bool silent = n->now - later(n->resend.heard, n->input_ended) >= PATIENCE;

    if (silent && !n->silent)
        complain("nothing is heard of the ring: is every member up? %" PRIu64
                 " posts of station %u are not delivered",
                 undelivered(n), n->options->own);
    n->silent = silent;
    return silent;
}

/* The input has ended, all that was posted here is delivered, and the ring is quiet; or there is no ring. */
static bool finished(struct node *n, int *status)
{
    bool runs = n->tally.accepted > (n->place == 0); /* the representative hands itself the first token */
    bool silent = ring_is_silent(n);

    if (!posts_done(&n->posts))
        return false;
    if (runs && undelivered(n) == 0)
        return n->now - later(n->tally.last, n->input_ended) >= n->options->linger;
    if (silent)
        *status = EXIT_FAILED;
    return silent;
}

/*
 * Waits for datagrams, and for input where there is room for posts. In a busy ring without need of input the
 * wait and the taking are one system call.
 */
static unsigned wait_for_datagrams(struct node *n, bool room)
{
    bool ask = room && !n->posts.ended, idle = ring_is_idle(n);
    instant spin = idle ? 0 : n->options->spin;
    instant most = later(0, lesser(n->resend.due - n->now, MOST_WAIT));

    if (!ask && !idle)
        return cable_wait_and_take(&n->cable, spin);
    if (cable_wait(&n->cable, ask ? n->posts.input : -1, spin, most))
        read_posts(n);
    return cable_take(&n->cable);
}

static void take_datagrams(struct node *n, unsigned count)
{
    n->now = instant_now();
    for (unsigned i = 0; i < count; i++) {
        size_t size;
        const uint8_t *datagram = cable_datagram(&n->cable, i, &size);

        take_datagram(n, datagram, size);
    }
}

int node_run(struct node *n)
{
    int status = 0;

    if (n->place == 0)
        arrive(n, n->station.first_token, TOTEM_TOKEN_LEN);
    while (!stop_asked()) {
        bool room = post_lines(n);

        if (station_waiting(&n->station) > 0)
            resend_let_go(&n->resend, n->now);
        if (n->now >= n->resend.due)
            send_again(n);
        if (finished(n, &status))
            break;
        deliveries_flush(&n->deliveries);
        if (report_asked()) {
            tally_show(&n->tally, n->options->own);
            station_show(&n->station, n->options->own);
        }
        take_datagrams(n, wait_for_datagrams(n, room));
    }
    deliveries_flush(&n->deliveries);
    return status;
}
