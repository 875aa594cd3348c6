#include "posts.h"

#include <errno.h>
#include <string.h>
#include <unistd.h>

#include "complain.h"

void posts_start(struct posts *p, int input)
{
    p->input = input;
    p->ended = p->skipping = false;
    p->line = 0;
    p->from = p->to = 0;
}

/* Digits, then a space or the end. A number that is too large is no service either: it stays the largest. */
static struct post parsed(const uint8_t *at, size_t size, unsigned long line)
{
    struct post post = {line, false, 0, NULL, 0};
    uint32_t service = 0;
    size_t i = 0;

    for (; i < size && at[i] >= '0' && at[i] <= '9'; i++) {
        service = 10 * service + (uint32_t)(at[i] - '0');
        if (service > UINT16_MAX)
            service = UINT16_MAX;
    }
    if (i == 0 || (i < size && at[i] != ' '))
        return post;
    if (i < size)
        i++;
    post.understood = true;
    post.service = (uint16_t)service;
    post.content = at + i;
    post.size = size - i;
    return post;
}

/*
 * Takes the next line out of the buffer, without its newline. What fills the whole buffer is a line too, and
 * so is what stands before the end of the input without a newline.
 */
static bool take_line(struct posts *p, const uint8_t **line, size_t *size)
{
    const uint8_t *newline = memchr(p->room + p->from, '\n', p->to - p->from);
    bool cut = newline == NULL && p->to - p->from == INPUT_ROOM;

    *line = p->room + p->from;
    if (newline != NULL)
        *size = (size_t)(newline - *line);
    else if (cut || (p->ended && p->from < p->to))
        *size = p->to - p->from;
    else
        return false;
    p->from += *size + (newline != NULL);
    return true;
}

bool posts_next(struct posts *p, struct post *post)
{
    const uint8_t *line;
    size_t size;

    while (take_line(p, &line, &size)) {
        bool first = !p->skipping;

        p->skipping = size == INPUT_ROOM; /* the rest of a line that was cut is no line of its own */
        if (!first)
            continue;
        p->line++;
        if (size == 0)
            continue;
        *post = parsed(line, size, p->line);
        return true;
    }
    return false;
}

void posts_read(struct posts *p)
{
    ssize_t count;

    memmove(p->room, p->room + p->from, p->to - p->from);
    p->to -= p->from;
    p->from = 0;
    count = read(p->input, p->room + p->to, INPUT_ROOM - p->to);
    if (count > 0) {
        p->to += (size_t)count;
    } else if (count == 0) {
        p->ended = true;
    } else if (errno != EINTR && errno != EAGAIN) {
        complain("standard input can't be read: %s", strerror(errno));
        p->ended = true;
    }
}

bool posts_done(const struct posts *p)
{
    return p->ended && p->from == p->to;
}
