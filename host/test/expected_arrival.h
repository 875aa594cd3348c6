/* What arrival is to answer and leave: its questions, and the specification's steps on the record's bytes. */
#ifndef HOST_EXPECTED_ARRIVAL_H
#define HOST_EXPECTED_ARRIVAL_H

#include "layout.h"
#include "lent.h"
#include "totem.h"

/* an answer, the record after the call, and the bytes written for the cable and delivered */
struct reply {
    totem_answer answer;
    uint8_t record[RECORD_END], frames[FRAMES_ROOM], deliveries[DELIVERIES_ROOM];
};

/* with a refusal, the bytes are not to be looked at */
void expect_arrival(struct bytes station, struct bytes frame, size_t frames_len, size_t deliveries_len,
                    struct reply *out);

#endif
