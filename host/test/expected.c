#include "expected.h"

#include <stdbool.h>

#include "layout.h"
#include "whole.h"
#include "words.h"

totem_answer refused(unsigned number)
{
    totem_answer a = {(uint16_t)number, 0, 0, 0, 0};

    return a;
}

totem_answer founded(void)
{
    totem_answer a = {0, 1, TOKEN_LEAST, 0, 0};

    return a;
}

totem_answer posted(void)
{
    totem_answer a = {0, 2, 0, 0, 0};

    return a;
}

totem_answer resent(size_t bytes)
{
    totem_answer a = {0, 7, (uint16_t)bytes, 0, 0};

    return a;
}

unsigned founding_refusal(size_t station_len, const uint8_t *members, size_t members_len, uint16_t own,
                          uint32_t ring, size_t token_len)
{
    size_t count = members_len / 2;
    bool among = false;

    if (station_len < RECORD_END || token_len < TOKEN_LEAST)
        return 1;
    if (members_len % 2 != 0 || count < LEAST_MEMBERS || count > MEMBER_PLACES)
        return 3;
    for (size_t i = 0; i < count; i++) {
        uint32_t id = get(members + 2 * i, 2);

        if (id == 0 || id < get(members, 2))
            return 4;
        for (size_t j = i + 1; j < count; j++)
            if (get(members + 2 * j, 2) == id)
                return 4;
        among |= id == own;
    }
    if (!among)
        return 5;
    return ring < 1 || ring > LIMIT ? 6 : 0;
}

unsigned posting_refusal(const uint8_t *station, size_t station_len, uint16_t service, size_t content_len)
{
    if (broken_clauses(station, station_len) != WHOLE)
        return 2;
    if (content_len > CONTENT_ROOM)
        return 7;
    if (service > 1)
        return 8;
    return station[POST_COUNT] < POST_PLACES ? 0 : 9;
}

unsigned resending_refusal(const uint8_t *station, size_t station_len, size_t frames_len)
{
    if (frames_len < FRAMES_ROOM)
        return 1;
    if (broken_clauses(station, station_len) != WHOLE)
        return 2;
    return station[TOKEN_SIZE] == 0 ? 19 : 0;
}

void put_post(uint8_t *record, uint16_t service, const uint8_t *content, size_t content_len)
{
    unsigned place = record[POST_COUNT]++;

    put(record + POST_SERVICE(place), 2, service);
    put(record + POST_LENGTH(place), 1, (uint32_t)content_len);
    for (size_t i = 0; i < content_len; i++)
        record[POST_CONTENT(place) + i] = content[i];
}
