#include "cable.h"

#include <errno.h>
#include <poll.h>
#include <sched.h>
#include <string.h>
#include <sys/time.h>

#include "complain.h"
#include "frame.h"

static void make_room(struct cable *c)
{
    memset(c->heads, 0, sizeof c->heads);
    for (unsigned i = 0; i < BATCH; i++) {
        c->parts[i].iov_base = c->rooms[i];
        c->parts[i].iov_len = DATAGRAM_ROOM;
        c->heads[i].msg_hdr.msg_iov = &c->parts[i];
        c->heads[i].msg_hdr.msg_iovlen = 1;
    }
}

void cable_open(struct cable *c, const struct members *members, unsigned place, instant most)
{
    const struct sockaddr_in *own = &members->addresses[place];
    struct timeval wait = {most / SECOND, most % SECOND / 1000};
    char text[ADDRESS_TEXT];

    c->place = place;
    c->members = members;
    c->complained = false;
    make_room(c);
    c->socket = socket(AF_INET, SOCK_DGRAM | SOCK_CLOEXEC, 0);
    if (c->socket < 0 || setsockopt(c->socket, SOL_SOCKET, SO_RCVTIMEO, &wait, sizeof wait) != 0)
        fail(EXIT_FAILED, "no UDP socket: %s", strerror(errno));
    if (bind(c->socket, (const struct sockaddr *)own, sizeof *own) == 0)
        return;
    address_text(own, text);
    if (errno == EADDRINUSE)
        fail(EXIT_FAILED, "%s is in use: give station %u another port, or stop what has it", text,
             members->ids[place]);
    fail(EXIT_FAILED, "station %u can't listen at %s: %s", members->ids[place], text, strerror(errno));
}

/* whether the time to look without sleep goes on; whoever else wants the processor has it in between */
static bool look_again(instant from, instant spin)
{
    if (instant_now() - from >= spin)
        return false;
    sched_yield();
    return true;
}

bool cable_wait(const struct cable *c, int input, instant spin, instant most)
{
    static const struct timespec no_time = {0, 0};
    struct pollfd ready[2] = {{c->socket, POLLIN, 0}, {input, POLLIN, 0}};
    struct timespec time = {most / SECOND, most % SECOND};
    int count = 0;

    if (spin > 0) {
        instant from = instant_now();

        do
            count = ppoll(ready, 2, &no_time, NULL);
        while (count == 0 && look_again(from, spin));
    }
    if (count == 0)
        count = ppoll(ready, 2, &time, NULL);
    return count > 0 && ready[1].revents != 0;
}

static unsigned receive(struct cable *c, int flag)
{
    int count = recvmmsg(c->socket, c->heads, BATCH, flag, NULL);

    if (count >= 0)
        return (unsigned)count;
    if (errno != EAGAIN && errno != EINTR && errno != ECONNREFUSED)
        fail(EXIT_FAILED, "the cable can't be read: %s", strerror(errno));
    return 0;
}

unsigned cable_take(struct cable *c)
{
    return receive(c, MSG_DONTWAIT);
}

unsigned cable_wait_and_take(struct cable *c, instant spin)
{
    unsigned count = 0;

    if (spin > 0) {
        instant from = instant_now();

        do
            count = receive(c, MSG_DONTWAIT);
        while (count == 0 && look_again(from, spin));
    }
    return count > 0 ? count : receive(c, MSG_WAITFORONE);
}

static void not_sent(struct cable *c, const struct mmsghdr *to)
{
    char text[ADDRESS_TEXT];

    if (c->complained)
        return;
    c->complained = true;
    complain("a datagram to %s was not sent: %s; further ones are only counted",
             address_text(to->msg_hdr.msg_name, text), strerror(errno));
}

static unsigned send_all(struct cable *c, struct mmsghdr *out, unsigned count)
{
    unsigned lost = 0;

    for (unsigned sent = 0; sent < count;) {
        int taken = sendmmsg(c->socket, out + sent, count - sent, 0);

        if (taken > 0) {
            sent += (unsigned)taken;
        } else if (errno != EINTR) {
            not_sent(c, &out[sent]);
            lost++;
            sent++;
        }
    }
    return lost;
}

static void address_to(struct mmsghdr *out, struct cable *c, unsigned place, struct iovec *part)
{
    memset(out, 0, sizeof *out);
    out->msg_hdr.msg_name = (void *)&c->members->addresses[place];
    out->msg_hdr.msg_namelen = sizeof c->members->addresses[place];
    out->msg_hdr.msg_iov = part;
    out->msg_hdr.msg_iovlen = 1;
}

/* the addressee's datagram goes first: the ring waits for the token */
unsigned cable_send(struct cable *c, const uint8_t *frames, size_t size)
{
    size_t messages = last_frame(frames, size);
    unsigned addressee = members_place(c->members, word(frames + messages + ADDRESSEE_AT));
    struct iovec whole = {(void *)frames, size}, part = {(void *)frames, messages};
    struct mmsghdr out[MOST_LISTED];
    unsigned count = 0;

    address_to(&out[count++], c, addressee, &whole);
    for (unsigned i = 0; messages > 0 && i < c->members->count; i++)
        if (i != c->place && i != addressee)
            address_to(&out[count++], c, i, &part);
    return send_all(c, out, count);
}
