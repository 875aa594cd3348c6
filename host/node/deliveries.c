#include "deliveries.h"

#include <errno.h>
#include <limits.h>
#include <poll.h>
#include <string.h>
#include <unistd.h>

#include "complain.h"
#include "frame.h"
#include "signals.h"

enum { MOST_LINE = 256, STOP_WAIT = 1000 };

void deliveries_start(struct deliveries *d, int output, unsigned place)
{
    d->output = output;
    d->place = place;
    d->size = 0;
}

/* a number and the space after it */
static void put_number(struct deliveries *d, uint32_t value)
{
    char digits[12];
    int i = sizeof digits;

    digits[--i] = ' ';
    do {
        digits[--i] = (char)('0' + value % 10);
        value /= 10;
    } while (value > 0);
    memcpy(d->room + d->size, digits + i, sizeof digits - (size_t)i);
    d->size += sizeof digits - (size_t)i;
}

void deliveries_put(struct deliveries *d, const uint8_t *frame, size_t size)
{
    if (d->size + MOST_LINE > OUTPUT_ROOM)
        deliveries_flush(d);
    put_number(d, d->place);
    put_number(d, number(frame + NUMBER_AT));
    put_number(d, word(frame + SENDER_AT));
    put_number(d, word(frame + SERVICE_AT));
    memcpy(d->room + d->size, frame + CONTENT_AT, size - CONTENT_AT);
    d->size += size - CONTENT_AT;
    d->room[d->size++] = '\n';
}

static void write_failed(const char *why)
{
    fail(EXIT_FAILED, "standard output can't be written: %s", why);
}

/* how many bytes to write at once: after a stop is asked for, no more than a ready pipe takes at once */
static size_t portion(const struct deliveries *d, size_t rest)
{
    struct pollfd ready = {d->output, POLLOUT, 0};

    if (!stop_asked())
        return rest;
    if (poll(&ready, 1, STOP_WAIT) == 0)
        write_failed("nobody reads it");
    return rest < PIPE_BUF ? rest : PIPE_BUF;
}

void deliveries_flush(struct deliveries *d)
{
    size_t done = 0;

    while (done < d->size) {
        ssize_t count = write(d->output, d->room + done, portion(d, d->size - done));

        if (count < 0 && errno != EINTR)
            write_failed(strerror(errno));
        if (count > 0)
            done += (size_t)count;
    }
    d->size = 0;
}
