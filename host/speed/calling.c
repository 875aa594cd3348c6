#include "calling.h"

#include <stdio.h>
#include <stdlib.h>
#include <string.h>

void restore(struct lent *lent, const struct trial *trial)
{
    memcpy(lent->record, trial->record, sizeof lent->record);
}

totem_answer make_call(const struct stations *stations, const struct trial *trial, struct lent *lent)
{
    static const uint8_t members[] = {3, 0, 7, 0, 9, 0};

    switch (trial->call) {
    case FOUND:
        return stations->found(lent->record, sizeof lent->record, members, sizeof members, 7, 4, lent->frames,
                               sizeof lent->frames);
    case POST:
        return stations->post(lent->record, sizeof lent->record, TOTEM_AGREED, trial->frame, trial->size);
    case RESEND:
        return stations->resend(lent->record, sizeof lent->record, lent->frames, sizeof lent->frames);
    case ARRIVE:
        break;
    }
    return stations->arrive(lent->record, sizeof lent->record, trial->frame, trial->size, lent->frames,
                            sizeof lent->frames, lent->deliveries, sizeof lent->deliveries);
}

static int same_answer(totem_answer a, totem_answer b)
{
    return a.refusal == b.refusal && a.outcome == b.outcome && a.frames == b.frames
           && a.deliveries == b.deliveries && a.deaf == b.deaf;
}

static void show(const char *which, totem_answer a)
{
    fprintf(stderr, "%s: refusal %u, outcome %u, %u bytes for the cable, %u delivered, deaf %u\n", which,
            a.refusal, a.outcome, a.frames, a.deliveries, a.deaf);
}

void check_trial(const char *name, const char *fill, const struct trial *trial)
{
    static const struct stations *const both[] = {&library, &oracle};
    struct lent lent[2];

    for (unsigned i = 0; i < 2; i++) {
        memset(&lent[i], 0xA5, sizeof lent[i]);
        restore(&lent[i], trial);
        totem_answer a = make_call(both[i], trial, &lent[i]);

        if (!same_answer(a, trial->wanted)) {
            fprintf(stderr, "%s, %s: the %s does not answer what is wanted\n", name, fill, both[i]->name);
            show("answered", a);
            show("wanted", trial->wanted);
            exit(1);
        }
    }
    if (memcmp(&lent[0], &lent[1], sizeof lent[0]) != 0) {
        fprintf(stderr, "%s, %s: library and oracle leave different bytes\n", name, fill);
        exit(1);
    }
}
