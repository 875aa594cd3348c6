/* Little-endian words of 1, 2 and 4 bytes. */
#ifndef HOST_WORDS_H
#define HOST_WORDS_H

#include <stddef.h>
#include <stdint.h>

static inline uint32_t get(const uint8_t *at, size_t width)
{
    uint32_t value = 0;

    for (size_t i = width; i > 0; i--)
        value = value * 256 + at[i - 1];
    return value;
}

static inline void put(uint8_t *at, size_t width, uint32_t value)
{
    for (size_t i = 0; i < width; i++) {
        at[i] = (uint8_t)(value % 256);
        value /= 256;
    }
}

#endif
