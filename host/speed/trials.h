/* The kinds of calls that are measured, each on a record that is fresh, half full or full. */
#ifndef SPEED_TRIALS_H
#define SPEED_TRIALS_H

#include "totem.h"

enum fill { FRESH, HALF, FULL, FILLS };
enum call { FOUND, POST, ARRIVE, RESEND };

/* one call: what it is made on, what it is handed, and what it must answer */
struct trial {
    enum call call;
    uint8_t record[TOTEM_STATION_LEN];
    uint8_t frame[TOTEM_FRAMES_LEN];
    size_t size;
    totem_answer wanted;
};

extern const char *const fill_names[FILLS];

/* of every content, in bytes: 64 unless it is set */
extern unsigned content_size;

size_t trial_kinds(void);
const char *trial_name(size_t kind);
struct trial trial_of(size_t kind, enum fill fill);

#endif
