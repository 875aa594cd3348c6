/*
 * Buffers as a call is lent them. Each stands in a room of its own between two pages that stop the program
 * when touched, with guard bytes around it, in three placings: its last byte before the upper page, its
 * first byte after the lower page, and at an odd address between guards.
 */
#ifndef HOST_LENT_H
#define HOST_LENT_H

#include <stdbool.h>
#include <stddef.h>
#include <stdint.h>

/* the bytes of a buffer before a call; `at` NULL lends NULL, with size 0 */
struct bytes {
    const uint8_t *at;
    size_t size;
};

enum slot { SLOT_STATION, SLOT_INPUT, SLOT_OUTPUT, SLOT_DELIVERIES, SLOTS };
enum { PLACINGS = 3 };

/* most bytes of a buffer */
enum { LENT_MOST = 160 * 1024 };

void lent_start(void);

/* NULL and 0; a pointer to no bytes; that many bytes of a pattern without zeros; the bytes of an array */
struct bytes null_bytes(void);
struct bytes no_bytes(void);
struct bytes pattern(size_t size);
struct bytes bytes_of(const void *at, size_t size);

/*
 * Lends a copy of the bytes. With `varied`, for a buffer whose bytes do not matter to the call, they differ
 * from placing to placing, so that a byte written there always shows.
 */
uint8_t *lend(enum slot slot, int placing, struct bytes before, bool varied);

/*
 * What the call left of a buffer: the first `count` bytes are those at `written`, all others as lent. False
 * where it is not so; `at` is then the first byte that is wrong.
 */
bool bytes_as_expected(enum slot slot, const uint8_t *written, size_t count, size_t *at);

/* are the bytes around the buffer as they were? */
bool guards_stand(enum slot slot);

#endif
