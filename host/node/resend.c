#include "resend.h"

#include <string.h>

void resend_start(struct resend *r, instant timeout, instant now)
{
    r->timeout = timeout;
    r->held = false;
    r->size = 0;
    resend_heard(r, now);
}

void resend_heard(struct resend *r, instant now)
{
    r->heard = now;
    if (!r->held)
        r->due = now + r->timeout;
}

void resend_keep(struct resend *r, const uint8_t *token, size_t size)
{
    memcpy(r->copy, token, size);
    r->size = size;
    r->held = false;
}

void resend_hold(struct resend *r, instant until)
{
    r->held = true;
    r->due = until;
}

void resend_let_go(struct resend *r, instant now)
{
    if (r->held)
        r->due = now;
}

const uint8_t *resend_token(struct resend *r, struct station *s, struct tally *t, instant now, size_t *size)
{
    bool first = r->held;
    totem_answer a;

    r->held = false;
    r->due = now + r->timeout;
    *size = r->size;
    if (first)
        return r->copy;
    a = station_resend(s);
    if (a.refusal == 0) {
        t->resent++;
        *size = a.frames;
        return s->frames;
    }
    tally_refusal(t, a.refusal);
    if (r->size == 0 || now - r->heard < LONG_QUIET * r->timeout)
        return NULL;
    t->copies++;
    return r->copy;
}
