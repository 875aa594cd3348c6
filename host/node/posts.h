/*
 * Posts from standard input, a line each: the service, one space, the content. Lines wait in the buffer, and
 * behind it in the pipe, until the station has room for them.
 */
#ifndef NODE_POSTS_H
#define NODE_POSTS_H

#include <stdbool.h>
#include <stddef.h>
#include <stdint.h>

enum { INPUT_ROOM = 65536 };

struct posts {
    int input;
    bool ended;    /* nothing more comes from the input */
    bool skipping; /* the buffer starts within a line that was too long for it */
    unsigned long line;
    size_t from, to; /* what is read and not yet taken stands between them */
    uint8_t room[INPUT_ROOM];
};

/* one line, as it stands in the buffer */
struct post {
    unsigned long line;
    bool understood;
    uint16_t service;
    const uint8_t *content;
    size_t size;
};

void posts_start(struct posts *p, int input);

/* The next line that is there as a whole; empty lines are passed over. It stands until the next read. */
bool posts_next(struct posts *p, struct post *post);

/* Reads what is there, once; to be called when the input is ready and posts_next has no line. */
void posts_read(struct posts *p);

/* nothing is left in the buffer, and nothing comes */
bool posts_done(const struct posts *p);

#endif
