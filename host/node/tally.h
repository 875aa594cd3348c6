/* What a station counts, and how it is shown. */
#ifndef NODE_TALLY_H
#define NODE_TALLY_H

#include <stdint.h>

#include "instant.h"

enum { LAST_REFUSAL = 19 };

struct tally {
    uint64_t arrived, lost;         /* frames from the cable; those of them lost on purpose */
    uint64_t accepted, resent;      /* tokens; resent with totem_resend */
    uint64_t copies;                /* tokens sent again from the host's copy */
    uint64_t posted, own_delivered; /* own readings */
    uint64_t delivered;
    instant first, last;            /* when the first and the last was delivered */
    uint64_t unsent;                /* datagrams that the system did not take */
    uint64_t refusals[LAST_REFUSAL + 1]; /* by number; at 0 those with another number */
};

/* what the question that was answered 'no' found */
const char *refusal_words(unsigned number);

void tally_refusal(struct tally *t, unsigned number);

/* all counts, on standard error */
void tally_show(const struct tally *t, uint16_t own);

/* how many were delivered in how much time, on standard error */
void tally_show_rate(const struct tally *t, uint16_t own);

#endif
