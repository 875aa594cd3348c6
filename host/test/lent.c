#define _DEFAULT_SOURCE
#include "lent.h"

#include <stdio.h>
#include <stdlib.h>
#include <string.h>
#include <sys/mman.h>
#include <unistd.h>

enum { GUARD = 64 };

static struct {
    uint8_t *room; /* between two pages that may not be touched */
    uint8_t *at;   /* the buffer lent now; NULL where NULL is lent */
    size_t size;
    size_t below, above; /* guard bytes on its two sides */
    uint8_t guard;
} slots[SLOTS];

/* each slot's bytes as they were lent */
static uint8_t kept[SLOTS][LENT_MOST];
static uint8_t patterned[LENT_MOST];

static size_t room_size; /* whole pages, for LENT_MOST bytes and two guards at least */

static void no_memory(void)
{
    printf("host: FAILED: no memory for the buffers\n");
    exit(1);
}

void lent_start(void)
{
    size_t page = (size_t)sysconf(_SC_PAGESIZE);

    room_size = (LENT_MOST + 2 * GUARD + page - 1) / page * page;
    for (int i = 0; i < SLOTS; i++) {
        uint8_t *all = mmap(NULL, room_size + 2 * page, PROT_READ | PROT_WRITE, MAP_PRIVATE | MAP_ANONYMOUS,
                            -1, 0);

        if (all == MAP_FAILED)
            no_memory();
        if (mprotect(all, page, PROT_NONE) != 0 || mprotect(all + page + room_size, page, PROT_NONE) != 0)
            no_memory();
        slots[i].room = all + page;
    }
    for (size_t i = 0; i < LENT_MOST; i++)
        patterned[i] = (uint8_t)(1 + i % 251);
}

struct bytes null_bytes(void)
{
    return bytes_of(NULL, 0);
}

struct bytes no_bytes(void)
{
    return bytes_of(patterned, 0);
}

struct bytes pattern(size_t size)
{
    return bytes_of(patterned, size);
}

struct bytes bytes_of(const void *at, size_t size)
{
    struct bytes b = {at, size};

    if (size > LENT_MOST || (at == NULL && size != 0))
        abort();
    return b;
}

uint8_t *lend(enum slot slot, int placing, struct bytes before, bool varied)
{
    static const uint8_t guards[PLACINGS] = {0xA5, 0x5A, 0xC3};
    uint8_t mask = varied ? (uint8_t)(0x55 * placing) : 0;

    slots[slot].size = before.size;
    slots[slot].guard = guards[placing];
    slots[slot].at = NULL;
    if (before.at == NULL)
        return NULL;
    if (placing == 0) {
        slots[slot].at = slots[slot].room + room_size - before.size;
        slots[slot].below = GUARD;
        slots[slot].above = 0;
    } else if (placing == 1) {
        slots[slot].at = slots[slot].room;
        slots[slot].below = 0;
        slots[slot].above = GUARD;
    } else {
        slots[slot].at = slots[slot].room + GUARD - 1;
        slots[slot].below = GUARD - 1;
        slots[slot].above = GUARD;
    }
    for (size_t i = 0; i < before.size; i++)
        kept[slot][i] = before.at[i] ^ mask;
    memcpy(slots[slot].at, kept[slot], before.size);
    memset(slots[slot].at - slots[slot].below, slots[slot].guard, slots[slot].below);
    memset(slots[slot].at + before.size, slots[slot].guard, slots[slot].above);
    return slots[slot].at;
}

bool bytes_as_expected(enum slot slot, const uint8_t *written, size_t count, size_t *at)
{
    const uint8_t *now = slots[slot].at;
    size_t size = slots[slot].size;

    if (now == NULL || (memcmp(now, count > 0 ? written : now, count) == 0
                        && memcmp(now + count, kept[slot] + count, size - count) == 0))
        return true;
    for (*at = 0; *at < size; ++*at)
        if (now[*at] != (*at < count ? written[*at] : kept[slot][*at]))
            break;
    return false;
}

bool guards_stand(enum slot slot)
{
    const uint8_t *now = slots[slot].at;

    if (now == NULL)
        return true;
    for (size_t i = 1; i <= slots[slot].below; i++)
        if (now[-(ptrdiff_t)i] != slots[slot].guard)
            return false;
    for (size_t i = 0; i < slots[slot].above; i++)
        if (now[slots[slot].size + i] != slots[slot].guard)
            return false;
    return true;
}
