/* Records tried by all calls that take one, and records made from a sample by changing some of its bytes. */
#ifndef HOST_RECORDS_H
#define HOST_RECORDS_H

#include <stdbool.h>
#include <stddef.h>
#include <stdint.h>

#include "lent.h"
#include "samples.h"

/*
 * Posting that content, the arrival of a token that fits the record, and resending, the last two with `room`
 * bytes for frames. The test's own questions and steps (expected.c, expected_arrival.c) say what each call
 * must answer and leave; is the record whole by them?
 */
bool try_record(const char *name, struct bytes record, uint16_t service, struct bytes content, size_t room);

/* a word of up to 4 bytes; with a larger width, so many bytes of that value. Width 0 ends a list */
struct edit {
    unsigned at, width;
    uint32_t value;
};

/* edits: the message with that number is not held; the token has that many bytes */
#define NOT_HELD(n) {SENDER(n), 2, 0}, {SERVICE(n), 2, 0}, {LENGTH(n), 1, 0}, {CONTENT(n), CONTENT_ROOM, 0}
#define SIZE(n) {TOKEN_SIZE, 1, n}, {T(T_LENGTH), 2, (n)-2}

enum { MOST_EDITS = 6 };

void make_edits(const struct edit edits[MOST_EDITS], uint8_t *bytes);

/* without an edit of the panel's byte, that is the count again after the edits */
struct record_case {
    const char *name;
    enum sample from;
    unsigned broken; /* the clauses of whole that do not hold */
    struct edit edits[MOST_EDITS];
};

void try_records(const struct record_case *cases, size_t count);

#endif
