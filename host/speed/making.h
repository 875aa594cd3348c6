/* A trial in the making: the station's record as values, and what comes of it. */
#ifndef SPEED_MAKING_H
#define SPEED_MAKING_H

#include "station.h"
#include "trials.h"

struct making {
    struct station s;
    struct trial t;
};

/* station 7 of 3, 7 and 9: messages 1 to `held` held and delivered, `posts` posts waiting */
struct station filled(unsigned held, unsigned posts);

/* a message's frame */
size_t frame_size(void);

/* what both must answer */
void wants(struct making *m, unsigned outcome, size_t written, size_t delivered);
void wants_refusal(struct making *m, unsigned number);

/* what arrives */
void hand_message(struct making *m, uint32_t number, uint16_t service);
void hand_token(struct making *m, struct token t);

/* a token behind the one forwarded last; the station has all that the ring has, and so have the others */
struct token next_token(const struct making *m, uint16_t round);

/* the token was here, and may be resent */
void visited(struct making *m);

#endif
