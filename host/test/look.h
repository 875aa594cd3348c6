/* Looking into a record's bytes: who is a member, what is held; and small arithmetic. */
#ifndef HOST_LOOK_H
#define HOST_LOOK_H

#include <stdbool.h>
#include <stddef.h>
#include <stdint.h>

bool is_member(const uint8_t *record, uint32_t id);

/* is the place of that number in use? */
bool place_used(const uint8_t *record, uint64_t number);

/* the same, and the number is above the safe mark and at most safe mark + 32 */
bool is_held(const uint8_t *record, uint64_t number);

/* how many numbers above the delivered mark are held */
uint8_t undelivered(const uint8_t *record);

/* are these bytes all zero? */
bool zero(const uint8_t *at, size_t size);

uint32_t lesser(uint32_t a, uint32_t b);

/* a - b, not below 0 */
uint32_t minus(uint32_t a, uint32_t b);

#endif
