/*
 * When the token is sent again (token retransmission timeout).
 *
 * Nothing new for a while: totem_resend writes the token, if this station may resend it. A message that was
 * delayed or repeated can end that leave though the token is lost; then no station may resend it, and the
 * ring would stand still for ever. So the host keeps a copy of the last token that it was given for the
 * cable, and sends that when the quiet goes on. A cable may repeat any frame at any time, so it does no harm.
 */
#ifndef NODE_RESEND_H
#define NODE_RESEND_H

#include <stdbool.h>
#include <stddef.h>
#include <stdint.h>

#include "instant.h"
#include "station.h"
#include "tally.h"

enum { MOST_TOKEN = 96, LONG_QUIET = 5 /* timeouts */ };

struct resend {
    instant timeout;
    instant heard; /* when a token or a new message was last taken; a repeated one is no sign of life */
    instant due;   /* when to send the token again, if nothing is heard before */
    bool held;     /* the copy has not been on the cable yet: an idle ring's token */
    size_t size;   /* of the copy, or 0 */
    uint8_t copy[MOST_TOKEN];
};

void resend_start(struct resend *r, instant timeout, instant now);

/* the station took a token or a new message */
void resend_heard(struct resend *r, instant now);

/* the station wrote this token */
void resend_keep(struct resend *r, const uint8_t *token, size_t size);

/* the token that was just written is not sent before then */
void resend_hold(struct resend *r, instant until);

/* a token that is held need not wait any longer */
void resend_let_go(struct resend *r, instant now);

/* To be called when it is due: the token to send, and its size, or NULL. */
const uint8_t *resend_token(struct resend *r, struct station *s, struct tally *t, instant now, size_t *size);

#endif
