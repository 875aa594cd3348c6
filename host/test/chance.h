/*
 * Random numbers that are the same in every run. No two of these calls stand in one expression without an
 * order, so that they are the same with every compiler too.
 */
#ifndef HOST_CHANCE_H
#define HOST_CHANCE_H

#include <stddef.h>
#include <stdint.h>

#define CHANCE_SEED 20260411u

void chance_start(uint64_t seed);

/* from 0 to n - 1 */
uint32_t chance(uint32_t n);

/* from low to high */
uint32_t chance_from(uint32_t low, uint32_t high);

void chance_bytes(uint8_t *out, size_t size);

#endif
