#include "look.h"

#include "layout.h"
#include "words.h"

bool zero(const uint8_t *at, size_t size)
{
    for (size_t i = 0; i < size; i++)
        if (at[i] != 0)
            return false;
    return true;
}

uint32_t lesser(uint32_t a, uint32_t b)
{
    return a < b ? a : b;
}

uint32_t minus(uint32_t a, uint32_t b)
{
    return a < b ? 0 : a - b;
}

bool is_member(const uint8_t *r, uint32_t id)
{
    for (uint32_t i = 0; i < lesser(r[MEMBER_COUNT], MEMBER_PLACES); i++)
        if (get(r + MEMBER(i), 2) == id)
            return true;
    return false;
}

bool place_used(const uint8_t *r, uint64_t number)
{
    return get(r + SENDER(number), 2) != 0;
}

bool is_held(const uint8_t *r, uint64_t number)
{
    uint64_t safe = get(r + SAFE, 4);

    return safe < number && number <= safe + HELD_PLACES && place_used(r, number);
}

uint8_t undelivered(const uint8_t *r)
{
    uint64_t safe = get(r + SAFE, 4), delivered = get(r + DELIVERED, 4);
    uint8_t count = 0;

    for (uint64_t n = safe + 1; n <= safe + HELD_PLACES; n++)
        count += n > delivered && is_held(r, n);
    return count;
}
