/*
 * The four calls, each tried in every placing of its buffers. Every try checks the answer, every lent byte
 * (those written, those past the counts, the inputs, all of them on a refusal) and every guard byte.
 */
#ifndef HOST_CALLS_H
#define HOST_CALLS_H

#include "expected_arrival.h"
#include "lent.h"
#include "totem.h"

/* `record` and `frames`: the bytes expected at the start of the buffers; not looked at on a refusal */
void try_found(const char *name, struct bytes station, struct bytes members, uint16_t own, uint32_t ring,
               struct bytes token, totem_answer want, const uint8_t *record, const uint8_t *frames);

void try_post(const char *name, struct bytes station, uint16_t service, struct bytes content,
              totem_answer want, const uint8_t *record);

/* `frames` and `deliveries`: the buffers lent */
void try_arrive(const char *name, struct bytes station, struct bytes frame, struct bytes frames,
                struct bytes deliveries, const struct reply *want);

void try_resend(const char *name, struct bytes station, struct bytes frames, totem_answer want,
                const uint8_t *written);

#endif
