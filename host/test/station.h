/* A station's record as values, and the bytes that the specification gives to them. */
#ifndef HOST_STATION_H
#define HOST_STATION_H

#include <stdbool.h>
#include <stddef.h>
#include <stdint.h>

#include "layout.h"

struct content {
    uint8_t length;
    uint8_t bytes[CONTENT_ROOM];
};

struct held {
    uint32_t number;
    uint16_t sender, service;
    struct content content;
};

struct post {
    uint16_t service;
    struct content content;
};

struct token {
    uint32_t ring;
    uint16_t representative, addressee;
    uint32_t number, highest, aru;
    uint16_t blocker, round, backlog, count;
    uint32_t requests[REQUEST_PLACES];
};

struct station {
    uint16_t own;
    uint32_t ring;
    uint8_t member_count;
    uint16_t members[MEMBER_PLACES];
    uint32_t level, safe, delivered;
    uint8_t held_count; /* in any order */
    struct held held[HELD_PLACES];
    uint32_t aru, earlier, token_number;
    uint8_t broadcast, stall, own_part;
    bool leave;
    struct token token;
    uint8_t post_count;
    struct post posts[POST_PLACES];
};

/* a content of that length, its bytes told by `first` */
struct content some_content(unsigned length, unsigned first);

/* fresh: all marks and counts 0, nothing held or waiting, no leave */
struct station fresh_station(uint16_t own, uint32_t ring, unsigned count, const uint16_t *members);

void hold(struct station *s, uint32_t number, uint16_t sender, uint16_t service, struct content content);
void add_post(struct station *s, uint16_t service, const uint8_t *content, size_t length);

/* the ring's first token */
struct token first_token(uint32_t ring, uint16_t representative);

/* the frames of a token and of a message of the station's ring; their size is the result */
size_t token_bytes(const struct token *t, uint8_t out[TOKEN_ROOM]);
size_t message_bytes(const struct station *s, const struct held *m, uint8_t out[MESSAGE_ROOM]);

void station_bytes(const struct station *s, uint8_t out[RECORD_END]);

/* what founding writes */
void founding_bytes(uint16_t own, uint32_t ring, unsigned count, const uint16_t *members,
                    uint8_t record[RECORD_END], uint8_t token[TOKEN_ROOM]);

#endif
