/*
 * One station of a furnace ring, in the Totem single-ring ordering protocol.
 *
 * The numbers and questions named here are those of the specification's 'Questions at the door'. The
 * record's bytes are in docs/RECORD.md.
 *
 * For every call:
 * - A pointer and the size_t after it are one lent buffer: that many bytes can be read there, and written
 *   where the pointer is not const. NULL is allowed with length 0. No buffer has an alignment need.
 * - Any bytes and any numbers are allowed; a call answers with a refusal where they don't fit. It touches
 *   nothing but the lent bytes.
 * - C converts a number to its parameter's type before the call sees it: 65536 as a service arrives as 0.
 * - A refusal alters no lent byte, and its counts are 0. Bytes past an output count are never altered.
 * - Buffers that overlap are outside what is proved: lend separate ones.
 * - Arrival needs up to 8 KB of stack, every other call up to 4 KB; what was measured (host/test/stack.c)
 *   is below 5 KB and 3 KB.
 * - The library keeps no state of its own and has no globals; all it knows is in the lent record. So
 *   different stations may be used from different threads. One station takes one call at a time.
 */
#ifndef TOTEM_H
#define TOTEM_H

#include <stddef.h>
#include <stdint.h>

#ifdef __cplusplus
extern "C" {
#endif

/* Lengths in bytes. */
#define TOTEM_STATION_LEN 3429     /* a station's record */
#define TOTEM_FRAMES_LEN 1472      /* the least buffer for frames */
#define TOTEM_DELIVERIES_LEN 2752  /* the least buffer for deliveries */
#define TOTEM_TOKEN_LEN 32         /* a ring's first token */
#define TOTEM_MOST_CONTENT 64      /* a post's content */

/*
 * What a panel reads of a record without a call: the byte at this place, from the record's first one, is the
 * number of messages that the station holds and has not delivered, 0 to 32. Messages behind one that is
 * missing count, and so do safe ones that wait, with what is behind them; a message that is delivered and
 * still held for the others does not. It is right whenever no call is under way at the station: founding
 * writes 0, and every call that leaves a record leaves the count there; a record with another value is not
 * whole. Like the rest of the record it is only read, between calls. The place is the same in every version.
 */
#define TOTEM_PANEL_AT 2

/* Counts and numbers. */
#define TOTEM_LEAST_MEMBERS 2          /* of a ring */
#define TOTEM_MOST_MEMBERS 8           /* of a ring */
#define TOTEM_MOST_POSTS 16            /* that wait at once */
#define TOTEM_MOST_NUMBER 2000000000u  /* the largest ring, message or token number; the least is 1 */

/* Services of a post. */
#define TOTEM_AGREED 0  /* delivered in the ring's order */
#define TOTEM_SAFE 1    /* the same, and only once every member is known to have it */

/* Outcomes. */
#define TOTEM_FOUNDED 1   /* by totem_found */
#define TOTEM_POSTED 2    /* by totem_post */
#define TOTEM_KEPT 3      /* by totem_arrive: a message that is new here; it is held */
#define TOTEM_HAD 4       /* by totem_arrive: a message that was received before; the first copy stays */
#define TOTEM_AHEAD 5     /* by totem_arrive: a message above safe mark + 32; it is not held */
#define TOTEM_ACCEPTED 6  /* by totem_arrive: a token; the next one is written */
#define TOTEM_RESENT 7    /* by totem_resend */

/* Refusals: the number of the first question that is answered 'no'. */
#define TOTEM_NO_ROOM 1           /* a lent output buffer is too small */
#define TOTEM_NOT_WHOLE 2         /* the record is not whole, or its length is not TOTEM_STATION_LEN */
#define TOTEM_MEMBER_COUNT 3      /* not 2 to 8 members */
#define TOTEM_BAD_IDS 4           /* an id is 0 or stands twice, or the lowest is not first */
#define TOTEM_NOT_AMONG 5         /* the own id is not among the members */
#define TOTEM_BAD_RING 6          /* the ring number is not 1 to 2,000,000,000 */
#define TOTEM_LONG_CONTENT 7      /* the content is over 64 bytes */
#define TOTEM_OTHER_SERVICE 8     /* the service is not 0 or 1 */
#define TOTEM_POSTS_FULL 9        /* 16 posts wait */
#define TOTEM_WRONG_LENGTH 10     /* the frame has under 10 bytes, or its length field is not exact */
#define TOTEM_OTHER_KIND 11       /* its kind is not 1 (message) or 2 (token) */
#define TOTEM_MALFORMED 12        /* something else in it does not follow the layout */
#define TOTEM_OTHER_RING 13       /* its ring number or representative is not this ring's */
#define TOTEM_NOT_MEMBER 14       /* an id in it is not a member's */
#define TOTEM_OTHER_ADDRESSEE 15  /* the token is for another station */
#define TOTEM_OLD_TOKEN 16        /* its number is not above the last forwarded: a token repeated */
#define TOTEM_LAST_TOKEN 17       /* its number is 2,000,000,000: no number is left for the next one */
#define TOTEM_BELOW_HELD 18       /* its highest message number is below one that this station has */
#define TOTEM_NO_LEAVE 19         /* the token may not be resent */

/*
 * What each call answers. The notice 'deaf' says that the station itself has kept aru back for more than 10
 * visits of the token; aru is the number up to which, as far as the token knows, every member has everything.
 */
typedef struct {
    uint16_t refusal;     /* 0, or the number of the question that is answered 'no' */
    uint16_t outcome;     /* 0 with a refusal, else what happened */
    uint16_t frames;      /* bytes written for the cable */
    uint16_t deliveries;  /* bytes delivered; only an arrival delivers */
    uint16_t deaf;        /* the id in the notice 'deaf', or 0; only an accepted token brings it */
} totem_answer;

/*
 * Founding: a fresh record, and the ring's first token.
 *
 * Asks 1, 3, 4, 5, 6.
 * 1: station has at least TOTEM_STATION_LEN bytes, token at least TOTEM_TOKEN_LEN. What stands in them
 *    does not matter.
 * 3: members is a list of 2 to 8 ids in circulation order, 2 bytes each, little-endian. An odd number of
 *    bytes is no such list.
 * 4: ids are non-zero and distinct, the lowest first, the rest in any order. The first is the ring's
 *    representative.
 * 5: own is among them.
 * 6: ring is 1 to 2,000,000,000.
 *
 * Answers TOTEM_FOUNDED and TOTEM_TOKEN_LEN in frames. The first TOTEM_STATION_LEN bytes of station are then
 * the fresh record, and the first TOTEM_TOKEN_LEN of token the ring's first token, addressed to the
 * representative. Founding at another member of the same ring writes the same token. A fresh record has no
 * leave to resend, so totem_resend answers 19 then: whoever hands the first token on keeps its bytes.
 *
 * Never touched: members, the bytes past the record and past the token, everything on a refusal.
 */
totem_answer totem_found(uint8_t *station, size_t station_len, const uint8_t *members, size_t members_len,
                         uint16_t own, uint32_t ring, uint8_t *token, size_t token_len);

/*
 * Posting: one post more waits for the token, behind the others.
 *
 * Asks 2, 7, 8, 9.
 * 2: station has exactly TOTEM_STATION_LEN bytes and is whole.
 * 7: content has at most TOTEM_MOST_CONTENT bytes; an empty content is allowed.
 * 8: service is TOTEM_AGREED or TOTEM_SAFE.
 * 9: fewer than TOTEM_MOST_POSTS posts wait.
 *
 * Answers TOTEM_POSTED, all counts 0. The post then waits in the record; a whole record stays whole.
 *
 * Never touched: content, all else in the record, everything on a refusal.
 */
totem_answer totem_post(uint8_t *station, size_t station_len, uint16_t service, const uint8_t *content,
                        size_t content_len);

/*
 * Arrival: a frame from the cable, a message or a token.
 *
 * Asks 1, 2, 10, 11, 12, 13, 14; of a token also 15, 16, 17, 18.
 * 1: frames has at least TOTEM_FRAMES_LEN bytes, deliveries at least TOTEM_DELIVERIES_LEN; for a message
 *    too. What stands in them does not matter.
 * 2: station has exactly TOTEM_STATION_LEN bytes and is whole.
 * 10: frame has at least 10 bytes, and its first two say how many come after them.
 * 11: its kind is 1, a message, or 2, a token.
 * 12: all else in it follows the layout of its kind.
 * 13: its ring number and its representative are this ring's.
 * 14: every id in it is a member's: a message's sender, a token's addressee and its blocker, where it has
 *     one.
 * 15: the token is addressed to this station.
 * 16: its number is above that of the token forwarded last.
 * 17: its number is below 2,000,000,000.
 * 18: its highest message number is at least the level (everything from 1 to it is received here) and every
 *     number held.
 *
 * Answers, to a message, and then frames is 0:
 * - TOTEM_KEPT: it is new here, and it is held until all members are known to have it;
 * - TOTEM_HAD: it was received before, or is an own one that comes back; the first copy stays;
 * - TOTEM_AHEAD: there is no place for it yet; the ring sends it again once the token has asked for it.
 * Each of the three ends the leave to resend: a message on the cable is taken as a sign that the token went
 * on.
 * Answers, to a token:
 * - TOTEM_ACCEPTED: the station has taken its turn, and the token may be resent from now on. deaf is 0, or
 *   the own id with the notice 'deaf'; the token goes on all the same.
 *
 * The first bytes of frames, as many as the answer's frames says, are frames for the cable, one after
 * another, each beginning with its own 2-byte length: messages repeated because the token asked for them,
 * new messages (the oldest posts, which wait no longer), and last the token, 32 to 96 bytes, for the next
 * member. The first bytes of deliveries, as many as the answer's deliveries says, are the messages delivered
 * by this call, in the ring's order, as the frames of kind 1 that were on the cable. Either kind of frame may
 * deliver, whatever the outcome is.
 *
 * How many new messages a visit sends: together with its repeats at most 8, and at most what the others have
 * left of 24 in the last round; none past safe mark + 32. Where posts wait, also at most their share: for
 * that the token carries the backlog (2 bytes at byte 28, 0 to 128), the sum of the posts that waited at each
 * station when it last forwarded the token. The share is 24 times the posts that wait here when the token
 * comes, divided by these and the others' backlog together, rounded down, and 1 where that is 0.
 *
 * What a host needs to find in a frame, little-endian: at byte 0 the length (2 bytes, counting those after
 * it), at byte 2 the kind (2); of a message, at 10 the sender (2), at 12 its number (4), at 20 the service
 * (2), from 22 to the end the content; of a token, at 10 the addressee (2).
 *
 * What a host does with the answer: it hands the deliveries on to its operators in the order in which they
 * stand; it puts every frame of frames on the cable in that order, the messages for all other members, the
 * token for its addressee. A frame that is refused with 10 to 18 is passed over; 15 and 16 are everyday
 * answers on a cable that all hear and that may repeat. When the cable has been quiet for a while after a
 * token was forwarded, the token may be lost: totem_resend writes it again, as often as the host likes, until
 * a message ends the leave or another token takes its place.
 *
 * A whole record stays whole.
 *
 * Never touched: frame, the bytes past both counts, everything on a refusal.
 */
totem_answer totem_arrive(uint8_t *station, size_t station_len, const uint8_t *frame, size_t frame_len,
                          uint8_t *frames, size_t frames_len, uint8_t *deliveries, size_t deliveries_len);

/*
 * Resending: the token that this station forwarded last is written out again, if it may be.
 *
 * Asks 1, 2, 19.
 * 1: frames has at least TOTEM_FRAMES_LEN bytes.
 * 2: station has exactly TOTEM_STATION_LEN bytes and is whole.
 * 19: the token may be resent.
 *
 * Answers TOTEM_RESENT and the token's size, 32 to 96, in frames; that many bytes at the start of frames are
 * the token.
 *
 * Never touched: the record, the bytes past the token, everything on a refusal.
 */
totem_answer totem_resend(const uint8_t *station, size_t station_len, uint8_t *frames, size_t frames_len);

#ifdef __cplusplus
}
#endif

#endif
