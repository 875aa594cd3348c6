/* The stations that are compared, each as the four calls of totem.h. */
#ifndef SPEED_STATIONS_H
#define SPEED_STATIONS_H

#include "totem.h"

struct stations {
    const char *name;
    totem_answer (*found)(uint8_t *station, size_t station_len, const uint8_t *members, size_t members_len,
                          uint16_t own, uint32_t ring, uint8_t *token, size_t token_len);
    totem_answer (*post)(uint8_t *station, size_t station_len, uint16_t service, const uint8_t *content,
                         size_t content_len);
    totem_answer (*arrive)(uint8_t *station, size_t station_len, const uint8_t *frame, size_t frame_len,
                           uint8_t *frames, size_t frames_len, uint8_t *deliveries, size_t deliveries_len);
    totem_answer (*resend)(const uint8_t *station, size_t station_len, uint8_t *frames, size_t frames_len);
};

/* libtotem.a; the independent station in Rust, host/oracle; calls that do nothing: what goes on besides */
extern const struct stations library, oracle, nothing;

#endif
