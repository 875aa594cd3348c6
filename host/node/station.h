/* One station: its record, and the buffers that its calls write to. Nothing else touches the record. */
#ifndef NODE_STATION_H
#define NODE_STATION_H

#include <stdbool.h>
#include <stddef.h>
#include <stdint.h>

#include "options.h"
#include "posts.h"
#include "totem.h"

struct station {
    uint8_t record[TOTEM_STATION_LEN];
    uint8_t frames[TOTEM_FRAMES_LEN];         /* what the last arrival or resending wrote for the cable */
    uint8_t deliveries[TOTEM_DELIVERIES_LEN]; /* what the last arrival delivered */
    uint8_t first_token[TOTEM_TOKEN_LEN];
};

/* Ends the program where founding refuses the members, the own id or the ring number. */
void station_found(struct station *s, const struct options *o);

/* how many posts wait for the token */
unsigned station_waiting(const struct station *s);

/* says on standard error how many posts wait, and how many messages are held and not delivered */
void station_show(const struct station *s, uint16_t own);

totem_answer station_post(struct station *s, const struct post *post);

totem_answer station_arrive(struct station *s, const uint8_t *frame, size_t size);

totem_answer station_resend(struct station *s);

#endif
