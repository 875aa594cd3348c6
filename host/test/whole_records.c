/* Records at the edges of whole: each is taken. */
#include "records.h"
#include "tally.h"
#include "tests.h"
#include "whole.h"

static const struct record_case cases[] = {
    {"as it is: plain", PLAIN, WHOLE, {{0}}},
    {"as it is: level 7, all else fresh", LEVEL_7, WHOLE, {{0}}},
    {"as it is: rich", RICH, WHOLE, {{0}}},
    {"as it is: full", FULL, WHOLE, {{0}}},
    {"as it is: last numbers", LAST, WHOLE, {{0}}},
    {"as it is: 16 requests", LONG, WHOLE, {{0}}},

    /* the station and its members */
    {"own id first", RICH, WHOLE, {{OWN, 2, 3}}},
    {"own id last", RICH, WHOLE, {{OWN, 2, 12}}},
    {"2 members", PLAIN, WHOLE, {{MEMBER_COUNT, 1, LEAST_MEMBERS}, {MEMBER(2), 2, 0}}},
    {"8 members", PLAIN, WHOLE,
     {{MEMBER_COUNT, 1, MEMBER_PLACES}, {MEMBER(3), 4, 0x00050004}, {MEMBER(5), 4, 0xFFFF0006},
      {MEMBER(7), 2, 300}}},
    {"members after the first in any order", PLAIN, WHOLE, {{MEMBER(1), 2, 9}, {MEMBER(2), 2, 7}}},
    {"representative 1", PLAIN, WHOLE, {{MEMBER(0), 2, 1}}},
    {"a member 65535", PLAIN, WHOLE, {{MEMBER(2), 2, 65535}}},
    {"ring 1", PLAIN, WHOLE, {{RING, 4, 1}}},
    {"ring 2,000,000,000", PLAIN, WHOLE, {{RING, 4, LIMIT}}},

    /* marks and what is held */
    {"delivered mark at the safe mark", RICH, WHOLE, {{DELIVERED, 4, 40}}},
    {"delivered mark at the level", RICH, WHOLE, {{DELIVERED, 4, 45}}},
    {"safe mark at the delivered mark, places in use above the level", RICH, WHOLE, {{SAFE, 4, 42}}},
    {"all marks at the level", RICH, WHOLE, {{SAFE, 4, 45}, {DELIVERED, 4, 45}}},
    {"a message held at level + 2", LEVEL_7, WHOLE, {{SENDER(9), 2, 3}}},
    {"a message held at safe mark + 32", PLAIN, WHOLE, {{SENDER(32), 2, 3}}},
    {"a message held at 31, of service 1 and 64 bytes", PLAIN, WHOLE,
     {{SENDER(31), 2, 9}, {SERVICE(31), 2, 1}, {LENGTH(31), 1, CONTENT_ROOM},
      {CONTENT(31), CONTENT_ROOM, 255}}},
    {"one free place alone, that of safe mark + 32", FULL, WHOLE,
     {{SAFE, 4, 101}, {LEVEL, 4, 132}, NOT_HELD(101)}},
    {"all held above the level", FULL, WHOLE,
     {{LEVEL, 4, 117}, NOT_HELD(118)}},
    {"2,000,000,000 held above the level", LAST, WHOLE,
     {{SAFE, 4, LIMIT - 2}, {DELIVERED, 4, LIMIT - 2}, {LEVEL, 4, LIMIT - 2}, {SENDER(LIMIT), 2, 3}}},
    {"2,000,000,000 held at the level", LAST, WHOLE,
     {{SAFE, 4, LIMIT - 1}, {DELIVERED, 4, LIMIT - 1}, {SENDER(LIMIT), 2, 3}}},
    {"panel 0, 32 held and delivered", FULL, WHOLE, {{DELIVERED, 4, 132}, {PANEL, 1, 0}}},
    {"panel 32, 32 held and none delivered", FULL, WHOLE, {{DELIVERED, 4, 100}, {PANEL, 1, HELD_PLACES}}},
    {"panel 31, one of 32 delivered", FULL, WHOLE, {{DELIVERED, 4, 101}, {PANEL, 1, 31}}},
    {"panel 1, behind a gap", PLAIN, WHOLE, {{SENDER(2), 2, 3}, {PANEL, 1, 1}}},
    {"panel 3, all of them behind a gap", RICH, WHOLE, {{DELIVERED, 4, 45}, {PANEL, 1, 3}}},
    {"panel 9, one more held", RICH, WHOLE, {{DELIVERED, 4, 40}, {SENDER(52), 2, 3}, {PANEL, 1, 9}}},
    {"a content of zeros", RICH, WHOLE, {{CONTENT(41), CONTENT_ROOM, 0}}},
    {"a length 0 without content", RICH, WHOLE, {{LENGTH(43), 1, 0}, {CONTENT(43), 1, 0}}},

    /* from one visit to the next */
    {"both aru at the level", RICH, WHOLE, {{ARU, 4, 45}, {EARLIER, 4, 45}}},
    {"the earlier aru above the last", RICH, WHOLE, {{ARU, 4, 0}, {EARLIER, 4, 45}}},
    {"both aru 2,000,000,000", LAST, WHOLE, {{ARU, 4, LIMIT}, {EARLIER, 4, LIMIT}}},
    {"both aru below the safe mark", RICH, WHOLE, {{ARU, 4, 1}, {EARLIER, 4, 0}}},
    {"token number 2,000,000,000", PLAIN, WHOLE, {{TOKEN_NUMBER, 4, LIMIT}}},
    {"16 broadcast", PLAIN, WHOLE, {{BROADCAST, 1, MOST_BROADCAST}}},
    {"stall count 255", PLAIN, WHOLE, {{STALL, 1, 255}}},
    {"own part 0, 4 posts waiting", RICH, WHOLE, {{OWN_PART, 1, 0}}},
    {"own part 16", RICH, WHOLE, {{OWN_PART, 1, POST_PLACES}}},
    {"own part 16, all else fresh", PLAIN, WHOLE, {{OWN_PART, 1, POST_PLACES}}},

    /* the token that may be resent */
    {"no leave, all else in use", RICH, WHOLE, {{TOKEN_SIZE, 1, 0}, {TOKEN, TOKEN_ROOM, 0}}},
    {"another number than the record's", RICH, WHOLE, {{T(T_NUMBER), 4, 7}}},
    {"number 2,000,000,000", RICH, WHOLE, {{T(T_NUMBER), 4, LIMIT}}},
    {"number 1", RICH, WHOLE, {{T(T_NUMBER), 4, 1}}},
    {"addressed here", RICH, WHOLE, {{T(T_ADDRESSEE), 2, 7}}},
    {"addressed to the representative", RICH, WHOLE, {{T(T_ADDRESSEE), 2, 3}}},
    {"highest 2,000,000,000", RICH, WHOLE, {{T(T_HIGHEST), 4, LIMIT}}},
    {"aru above the record's level", RICH, WHOLE, {{T(T_ARU), 4, 49}}},
    {"nobody, aru at the highest", RICH, WHOLE, {{T(T_ARU), 4, 50}, {T(T_BLOCKER), 2, 0}}},
    {"another blocker", RICH, WHOLE, {{T(T_BLOCKER), 2, 12}}},
    {"aru 0", RICH, WHOLE, {{T(T_ARU), 4, 0}}},
    {"round count 0", RICH, WHOLE, {{T(T_ROUND), 2, 0}}},
    {"round count 128", RICH, WHOLE, {{T(T_ROUND), 2, MOST_ROUND}}},
    {"backlog 0, below the own part", RICH, WHOLE, {{T(T_BACKLOG), 2, 0}}},
    {"backlog 128", RICH, WHOLE, {{T(T_BACKLOG), 2, MOST_BACKLOG}}},
    {"requests 1, 50 and one that is held", RICH, WHOLE,
     {{REQUEST(0), 4, 1}, {REQUEST(1), 4, 50}, {REQUEST(2), 4, 41}}},
    {"2 requests", RICH, WHOLE, {SIZE(40), {T(T_COUNT), 2, 2}, {REQUEST(2), 4, 0}}},
    {"4 requests", RICH, WHOLE, {SIZE(48), {T(T_COUNT), 2, 4}, {REQUEST(3), 4, 2}}},
    {"highest 0 and no requests, nobody", RICH, WHOLE,
     {SIZE(TOKEN_LEAST), {T(T_HIGHEST), 8, 0}, {T(T_BLOCKER), 2, 0}, {T(T_COUNT), TOKEN_ROOM - T_COUNT, 0}}},

    /* waiting posts */
    {"16 posts", RICH, WHOLE, {{POST_COUNT, 1, POST_PLACES}}},
    {"15 posts", RICH, WHOLE, {{POST_COUNT, 1, POST_PLACES - 1}}},
    {"a post of 64 bytes in the last place", RICH, WHOLE,
     {{POST_COUNT, 1, POST_PLACES}, {POST_SERVICE(15), 2, 1}, {POST_LENGTH(15), 1, CONTENT_ROOM},
      {POST_CONTENT(15), CONTENT_ROOM, 9}}},
    {"an empty safe post", RICH, WHOLE, {{POST_SERVICE(1), 2, 1}}},
};

void test_whole(void)
{
    tally_group("whole records");
    try_records(cases, sizeof cases / sizeof cases[0]);
}
