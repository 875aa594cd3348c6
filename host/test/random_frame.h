/* Random frames for a station: such as it takes or nearly takes, damaged ones, and any bytes. */
#ifndef HOST_RANDOM_FRAME_H
#define HOST_RANDOM_FRAME_H

#include "station.h"

/* most bytes of a frame, with what damage adds */
enum { FRAME_MOST = 200 };

/* a message or a token of the station's ring, near its marks; its size is the result */
size_t random_frame(const struct station *s, uint8_t out[FRAME_MOST]);

/* a field or some bytes changed, cut short or made longer; its size afterwards */
size_t damage(uint8_t frame[FRAME_MOST], size_t size);

/* any bytes, 0 to FRAME_MOST of them; often with an exact length and a kind that travels */
size_t random_frame_bytes(uint8_t out[FRAME_MOST]);

#endif
