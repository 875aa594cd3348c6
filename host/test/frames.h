/* The questions that a frame's bytes are asked: 10 to 12 of the bytes alone, 13 and 14 beside a record. */
#ifndef HOST_FRAMES_H
#define HOST_FRAMES_H

#include <stddef.h>
#include <stdint.h>

#include "station.h"

/* the first question from 10 to 12 that is answered 'no', or 0 */
unsigned layout_refusal(const uint8_t *frame, size_t size);

/* 13, 14 or 0, of a frame that passes 10 to 12 */
unsigned ring_refusal(const uint8_t *record, const uint8_t *frame);

/* the values of a token's frame that passes 10 to 12 */
struct token token_of(const uint8_t *frame);

#endif
