#include "station.h"

#include "complain.h"
#include "tally.h"

enum { WAITING_AT = 2356 }; /* in the record: docs/RECORD.md */

void station_found(struct station *s, const struct options *o)
{
    uint8_t ids[2 * MOST_LISTED];
    totem_answer a;

    for (unsigned i = 0; i < o->members.count; i++) {
        ids[2 * i] = (uint8_t)o->members.ids[i];
        ids[2 * i + 1] = (uint8_t)(o->members.ids[i] >> 8);
    }
    a = totem_found(s->record, sizeof s->record, ids, 2 * o->members.count, o->own, o->ring, s->first_token,
                    sizeof s->first_token);
    if (a.refusal != 0)
        fail(EXIT_USAGE, "the ring can't be founded, question %u: %s", a.refusal, refusal_words(a.refusal));
}

unsigned station_waiting(const struct station *s)
{
    return s->record[WAITING_AT];
}

void station_show(const struct station *s, uint16_t own)
{
    complain("station %u: posts that wait: %u; messages held and not delivered: %u", own, station_waiting(s),
             s->record[TOTEM_PANEL_AT]);
}

totem_answer station_post(struct station *s, const struct post *post)
{
    return totem_post(s->record, sizeof s->record, post->service, post->content, post->size);
}

totem_answer station_arrive(struct station *s, const uint8_t *frame, size_t size)
{
    return totem_arrive(s->record, sizeof s->record, frame, size, s->frames, sizeof s->frames, s->deliveries,
                        sizeof s->deliveries);
}

totem_answer station_resend(struct station *s)
{
    return totem_resend(s->record, sizeof s->record, s->frames, sizeof s->frames);
}
