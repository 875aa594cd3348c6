/* What a host needs to find in a frame; include/totem.h says where it stands. Words are little-endian. */
#ifndef NODE_FRAME_H
#define NODE_FRAME_H

#include <stddef.h>
#include <stdint.h>

enum { LENGTH_SIZE = 2, ADDRESSEE_AT = 10, SENDER_AT = 10, NUMBER_AT = 12, SERVICE_AT = 20, CONTENT_AT = 22 };

static inline uint16_t word(const uint8_t *at)
{
    return (uint16_t)(at[0] | at[1] << 8);
}

static inline uint32_t number(const uint8_t *at)
{
    return word(at) | (uint32_t)word(at + 2) << 16;
}

/*
 * The size of the first of the frames that stand in these bytes, by its length field. From the cable the
 * field may say anything: where the bytes don't hold what it says, all of them are the frame, and the library
 * refuses it.
 */
static inline size_t first_frame(const uint8_t *bytes, size_t size)
{
    size_t said;

    if (size < LENGTH_SIZE)
        return size;
    said = LENGTH_SIZE + (size_t)word(bytes);
    return said < size ? said : size;
}

/* Where the last frame stands in an answer's frames; of an accepted token's answer that is the next token. */
static inline size_t last_frame(const uint8_t *frames, size_t size)
{
    size_t at = 0, next;

    while ((next = at + first_frame(frames + at, size - at)) < size)
        at = next;
    return at;
}

#endif
