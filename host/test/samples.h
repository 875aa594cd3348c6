/* Whole records that the tests start from. */
#ifndef HOST_SAMPLES_H
#define HOST_SAMPLES_H

#include "station.h"

enum sample {
    PLAIN,   /* members 3, 7, 9; own 7; ring 4; else fresh */
    LEVEL_7, /* the same with level 7, messages 1 to 7 held */
    RICH,    /* marks, held messages with gaps, a token that may be resent, waiting posts */
    FULL,    /* 32 messages held, the level at safe mark + 32, 16 posts waiting */
    LAST,    /* all marks 2,000,000,000, nothing held */
    LONG     /* the rich one with the longest token: 16 requests */
};

struct station sample(enum sample which);

/* the rich one with a token of that many requests */
struct station requesting(unsigned count);

#endif
