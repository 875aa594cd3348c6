/* An arrival and what is expected of it, put together by hand, piece by piece. */
#ifndef HOST_ARRIVALS_H
#define HOST_ARRIVALS_H

#include "expected_arrival.h"
#include "station.h"

struct arrival {
    struct station before, after; /* alike to begin with, but for what every arrival of the kind changes */
    uint8_t frame[TOKEN_ROOM];
    size_t size;
    struct reply want;
};

/* members 3, 7, 9; own 7; ring 4; level n, 1 to n held and agreed; else fresh */
struct station reached(uint32_t level);

/* the same, with all of them delivered and so many posts waiting */
struct station posting(uint32_t level, unsigned posts);

/* a message's frame arrives: no leave afterwards */
struct arrival message_arrives(const struct station *s, struct held message, unsigned outcome);

/* a token of these values for station 7 of ring 4; the rest 0 */
struct token token_for_7(uint32_t number, uint32_t highest, uint32_t aru, uint16_t blocker);

/* the same token with these requests behind those it has */
struct token requesting_also(struct token t, uint32_t first, uint32_t last);

/*
 * A token arrives and is accepted. `leaves` starts as the token that arrives, with the next number, for
 * station 9; forwards() writes it behind what was broadcast, and the record remembers it, and what waits.
 */
struct arrival token_arrives(const struct station *s, struct token t, struct token *leaves);
void forwards(struct arrival *a, struct token leaves);

/* the frame of that message is written for the cable; those of these messages are delivered */
void broadcasts(struct arrival *a, uint32_t number);
void delivers(struct arrival *a, uint32_t first, uint32_t last);

/* the oldest posts become the messages of these numbers */
void posts_become(struct station *s, uint32_t first, uint32_t last);

/*
 * So many new messages behind `leaves->highest`, broadcast and held; the level and aru rise with it, and the
 * backlog is that of this station alone.
 */
void sends_new(struct arrival *a, struct token *leaves, uint32_t count);

/* the safe mark, and nothing held up to it */
void safe_to(struct station *s, uint32_t safe);

/* the call in every placing; the test's own steps (expected_arrival.c) must say the same */
void try_arrival(const char *name, struct arrival *a);

#endif
