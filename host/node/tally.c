#include "tally.h"

#include <inttypes.h>

#include "complain.h"

const char *refusal_words(unsigned number)
{
    static const char *const words[LAST_REFUSAL + 1] = {
        "a number that this host does not know",
        "a lent buffer is too small",
        "the record is not whole",
        "there are not 2 to 8 members",
        "an id is 0 or stands twice, or the lowest is not first",
        "the own id is not among the members",
        "the ring number is not 1 to 2000000000",
        "the content is over 64 bytes",
        "the service is not 0 or 1",
        "16 posts wait",
        "the frame has under 10 bytes, or its length field is not exact",
        "its kind is not 1 or 2",
        "it does not follow the layout",
        "it is another ring's",
        "an id in it is not a member's",
        "the token is for another station",
        "a token repeated",
        "the token's number is the last one",
        "the token's highest number is below one that this station has",
        "the token may not be resent",
    };

    return number <= LAST_REFUSAL ? words[number] : words[0];
}

void tally_refusal(struct tally *t, unsigned number)
{
    t->refusals[number <= LAST_REFUSAL ? number : 0]++;
}

void tally_show(const struct tally *t, uint16_t own)
{
    complain("station %u: %" PRIu64 " frames arrived, %" PRIu64 " lost on purpose; tokens: %" PRIu64
             " accepted, %" PRIu64 " resent, %" PRIu64 " sent again from the copy; readings: %" PRIu64
             " posted, %" PRIu64 " delivered; datagrams not sent: %" PRIu64,
             own, t->arrived, t->lost, t->accepted, t->resent, t->copies, t->posted, t->delivered, t->unsent);
    for (unsigned i = 0; i <= LAST_REFUSAL; i++)
        if (t->refusals[i] > 0)
            complain("station %u: refusal %u, %" PRIu64 " times: %s", own, i, t->refusals[i],
                     refusal_words(i));
}

void tally_show_rate(const struct tally *t, uint16_t own)
{
    double seconds = (double)(t->last - t->first) / SECOND;

    complain("station %u: %" PRIu64 " delivered in %.3f seconds, %.0f a second", own, t->delivered, seconds,
             seconds > 0 ? (double)t->delivered / seconds : 0.0);
}
