/*
 * Where each field of the record stands, from the record's first byte: the table of docs/RECORD.md.
 * host/check compares the two; the offsets are the first list here.
 */
#ifndef HOST_LAYOUT_H
#define HOST_LAYOUT_H

enum {
    OWN = 0,
    PANEL = 2,
    RING = 3,
    MEMBER_COUNT = 7,
    MEMBERS = 8,
    LEVEL = 24,
    SAFE = 28,
    DELIVERED = 32,
    SENDERS = 36,
    SERVICES = 100,
    LENGTHS = 164,
    CONTENTS = 196,
    ARU = 2244,
    EARLIER = 2248,
    TOKEN_NUMBER = 2252,
    BROADCAST = 2256,
    STALL = 2257,
    OWN_PART = 2258,
    TOKEN_SIZE = 2259,
    TOKEN = 2260,
    POST_COUNT = 2356,
    POST_SERVICES = 2357,
    POST_LENGTHS = 2389,
    POST_CONTENTS = 2405,
    RECORD_END = 3429
};

/* counts */
enum { LEAST_MEMBERS = 2, MEMBER_PLACES = 8, HELD_PLACES = 32, POST_PLACES = 16, REQUEST_PLACES = 16 };
enum { MOST_BROADCAST = 16, MOST_ROUND = 128, MOST_BACKLOG = 128 };

/* the largest ring, message or token number, one more, and all bits of four bytes */
#define LIMIT 2000000000u
#define OVER (LIMIT + 1)
#define ALL_ONES 4294967295u

/* of the member, the held message with that number and the post in the queue */
#define MEMBER(place) (MEMBERS + 2 * (place))
#define SENDER(number) (SENDERS + 2 * ((number) % HELD_PLACES))
#define SERVICE(number) (SERVICES + 2 * ((number) % HELD_PLACES))
#define LENGTH(number) (LENGTHS + (number) % HELD_PLACES)
#define CONTENT(number) (CONTENTS + CONTENT_ROOM * ((number) % HELD_PLACES))
#define POST_SERVICE(place) (POST_SERVICES + 2 * (place))
#define POST_LENGTH(place) (POST_LENGTHS + (place))
#define POST_CONTENT(place) (POST_CONTENTS + CONTENT_ROOM * (place))

/* where each field of a token stands, from its frame's first byte; the first four are in every frame */
enum {
    T_LENGTH = 0,
    T_KIND = 2,
    T_RING = 4,
    T_REPRESENTATIVE = 8,
    T_ADDRESSEE = 10,
    T_NUMBER = 12,
    T_HIGHEST = 16,
    T_ARU = 20,
    T_BLOCKER = 24,
    T_ROUND = 26,
    T_BACKLOG = 28,
    T_COUNT = 30,
    T_REQUESTS = 32
};

/* the same of a message */
enum { M_SENDER = 10, M_NUMBER = 12, M_CONFIGURATION = 16, M_SERVICE = 20, M_CONTENT = 22 };

/* the token that may be resent, in a record */
#define T(field) (TOKEN + (field))
#define REQUEST(place) T(T_REQUESTS + 4 * (place))

/* sizes in bytes: of frames, the longest ones, and the least buffers for frames and for deliveries */
enum {
    CONTENT_ROOM = 64,
    HEADER_SIZE = 10,
    MESSAGE_LEAST = M_CONTENT,
    MESSAGE_ROOM = M_CONTENT + CONTENT_ROOM,
    TOKEN_LEAST = T_REQUESTS,
    TOKEN_ROOM = T_REQUESTS + 4 * REQUEST_PLACES,
    FRAMES_ROOM = MOST_BROADCAST * MESSAGE_ROOM + TOKEN_ROOM,
    DELIVERIES_ROOM = HELD_PLACES * MESSAGE_ROOM
};

#endif
