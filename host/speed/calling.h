/* A trial's call, made by any of the stations. */
#ifndef SPEED_CALLING_H
#define SPEED_CALLING_H

#include "stations.h"
#include "trials.h"

/* what a call may write to */
struct lent {
    uint8_t record[TOTEM_STATION_LEN];
    uint8_t frames[TOTEM_FRAMES_LEN];
    uint8_t deliveries[TOTEM_DELIVERIES_LEN];
};

/* the trial's record is put back, so that each call finds the same */
void restore(struct lent *lent, const struct trial *trial);

totem_answer make_call(const struct stations *stations, const struct trial *trial, struct lent *lent);

/* ends the program unless library and oracle both answer what is wanted and leave the same bytes */
void check_trial(const char *name, const char *fill, const struct trial *trial);

#endif
