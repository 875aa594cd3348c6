#include "stations.h"

totem_answer oracle_found(uint8_t *station, size_t station_len, const uint8_t *members, size_t members_len,
                          uint16_t own, uint32_t ring, uint8_t *token, size_t token_len);
totem_answer oracle_post(uint8_t *station, size_t station_len, uint16_t service, const uint8_t *content,
                         size_t content_len);
totem_answer oracle_arrive(uint8_t *station, size_t station_len, const uint8_t *frame, size_t frame_len,
                           uint8_t *frames, size_t frames_len, uint8_t *deliveries, size_t deliveries_len);
totem_answer oracle_resend(const uint8_t *station, size_t station_len, uint8_t *frames, size_t frames_len);

static const totem_answer none;

static totem_answer no_found(uint8_t *station, size_t station_len, const uint8_t *members, size_t members_len,
                             uint16_t own, uint32_t ring, uint8_t *token, size_t token_len)
{
    (void)station, (void)station_len, (void)members, (void)members_len, (void)own, (void)ring, (void)token;
    (void)token_len;
    return none;
}

static totem_answer no_post(uint8_t *station, size_t station_len, uint16_t service, const uint8_t *content,
                            size_t content_len)
{
    (void)station, (void)station_len, (void)service, (void)content, (void)content_len;
    return none;
}

static totem_answer no_arrive(uint8_t *station, size_t station_len, const uint8_t *frame, size_t frame_len,
                              uint8_t *frames, size_t frames_len, uint8_t *deliveries, size_t deliveries_len)
{
    (void)station, (void)station_len, (void)frame, (void)frame_len, (void)frames, (void)frames_len;
    (void)deliveries, (void)deliveries_len;
    return none;
}

static totem_answer no_resend(const uint8_t *station, size_t station_len, uint8_t *frames, size_t frames_len)
{
    (void)station, (void)station_len, (void)frames, (void)frames_len;
    return none;
}

const struct stations library = {"library", totem_found, totem_post, totem_arrive, totem_resend};
const struct stations oracle = {"oracle", oracle_found, oracle_post, oracle_arrive, oracle_resend};
const struct stations nothing = {"nothing", no_found, no_post, no_arrive, no_resend};
