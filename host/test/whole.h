/* When a record is whole, decided from its bytes: the specification's paragraph, clause by clause. */
#ifndef HOST_WHOLE_H
#define HOST_WHOLE_H

#include <stddef.h>
#include <stdint.h>

enum clause {
    WHOLE = 0,
    C_SIZE = 1,      /* the record's length */
    C_RANGE = 2,     /* fields in range */
    C_SENDERS = 4,   /* held senders members */
    C_TOKEN = 8,     /* a token that may be resent is of kind 2 and passes 10 to 14 */
    C_FOUNDING = 16, /* founding questions 3 to 6 */
    C_MARKS = 32,    /* safe mark <= delivered mark <= level */
    C_ARUS = 64,     /* both aru <= level */
    C_HELD = 128,    /* numbers from safe mark + 1 to level are held */
    C_NEXT = 256,    /* level + 1 isn't */
    C_UNUSED = 512,  /* a part not in use is zero */
    C_PANEL = 1024   /* the panel's byte is the count of what is held and undelivered */
};

/* the clauses that do not hold, added up; WHOLE where all do */
unsigned broken_clauses(const uint8_t *record, size_t size);

#endif
