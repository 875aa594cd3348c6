/* Records that are not whole: each breaks the clauses named, most of them one alone. */
#include "broken_token.h"
#include "records.h"
#include "tally.h"
#include "tests.h"
#include "whole.h"

static const struct record_case cases[] = {
    /* fields in range */
    {"level and both marks 2,000,000,001", LAST, C_RANGE,
     {{LEVEL, 4, OVER}, {SAFE, 4, OVER}, {DELIVERED, 4, OVER}}},
    {"level and both marks all ones", LAST, C_RANGE,
     {{LEVEL, 4, ALL_ONES}, {SAFE, 4, ALL_ONES}, {DELIVERED, 4, ALL_ONES}}},
    {"level all ones, safe mark 0", PLAIN, C_RANGE | C_HELD, {{LEVEL, 4, ALL_ONES}}},
    {"level 2,000,000,001 and held", LAST, C_RANGE, {{LEVEL, 4, OVER}, {SENDER(OVER), 2, 3}}},
    {"level and delivered mark 2,000,000,001 and held", LAST, C_RANGE,
     {{LEVEL, 4, OVER}, {DELIVERED, 4, OVER}, {SENDER(OVER), 2, 3}}},
    {"safe mark 2,000,000,001", LAST, C_RANGE | C_MARKS, {{SAFE, 4, OVER}}},
    {"delivered mark all ones", RICH, C_RANGE | C_MARKS, {{DELIVERED, 4, ALL_ONES}}},
    {"2,000,000,001 held above the level", LAST, C_RANGE,
     {{SAFE, 4, LIMIT - 1}, {DELIVERED, 4, LIMIT - 1}, {LEVEL, 4, LIMIT - 1}, {SENDER(OVER), 2, 3}}},
    {"2,000,000,032 held above the level", LAST, C_RANGE, {{SENDER(LIMIT + 32), 2, 3}}},
    {"2,000,000,010 held, safe mark 22 below", LAST, C_RANGE,
     {{SAFE, 4, LIMIT - 12}, {DELIVERED, 4, LIMIT - 12}, {LEVEL, 4, LIMIT - 12}, {SENDER(LIMIT + 10), 2, 3}}},
    {"aru 2,000,000,001", LAST, C_RANGE | C_ARUS, {{ARU, 4, OVER}}},
    {"earlier aru 2,000,000,001", LAST, C_RANGE | C_ARUS, {{EARLIER, 4, OVER}}},
    {"token number 2,000,000,001", PLAIN, C_RANGE, {{TOKEN_NUMBER, 4, OVER}}},
    {"token number all ones", RICH, C_RANGE, {{TOKEN_NUMBER, 4, ALL_ONES}}},
    {"17 broadcast", PLAIN, C_RANGE, {{BROADCAST, 1, MOST_BROADCAST + 1}}},
    {"255 broadcast", RICH, C_RANGE, {{BROADCAST, 1, 255}}},
    {"own part 17", PLAIN, C_RANGE, {{OWN_PART, 1, POST_PLACES + 1}}},
    {"own part 17, all else in use", RICH, C_RANGE, {{OWN_PART, 1, POST_PLACES + 1}}},
    {"own part 255", RICH, C_RANGE, {{OWN_PART, 1, 255}}},
    {"token of 97 bytes", RICH, C_RANGE, {{TOKEN_SIZE, 1, TOKEN_ROOM + 1}}},
    {"token of 96 bytes, its size 97", LONG, C_RANGE, {{TOKEN_SIZE, 1, TOKEN_ROOM + 1}}},
    {"token of 96 bytes, its size 255", LONG, C_RANGE, {{TOKEN_SIZE, 1, 255}}},
    {"token of 255 bytes", RICH, C_RANGE, {{TOKEN_SIZE, 1, 255}}},
    {"held service 2", RICH, C_RANGE, {{SERVICE(42), 2, 2}}},
    {"held service 256", RICH, C_RANGE, {{SERVICE(72), 2, 256}}},
    {"held service 65535", RICH, C_RANGE, {{SERVICE(47), 2, 65535}}},
    {"held content of 65 bytes", RICH, C_RANGE, {{LENGTH(41), 1, CONTENT_ROOM + 1}}},
    {"held content of 255 bytes", RICH, C_RANGE, {{LENGTH(50), 1, 255}}},
    {"held content of 128 bytes at the last place", FULL, C_RANGE,
     {{LENGTH(127), 1, 128}, {CONTENT(127), CONTENT_ROOM, 7}}},
    {"17 posts", FULL, C_RANGE, {{POST_COUNT, 1, POST_PLACES + 1}}},
    {"255 posts", FULL, C_RANGE, {{POST_COUNT, 1, 255}}},
    {"17 posts, none in its place", PLAIN, C_RANGE, {{POST_COUNT, 1, POST_PLACES + 1}}},
    {"post's service 2", RICH, C_RANGE, {{POST_SERVICE(0), 2, 2}}},
    {"post's service 256", RICH, C_RANGE, {{POST_SERVICE(3), 2, 256}}},
    {"post's content of 65 bytes", RICH, C_RANGE, {{POST_LENGTH(2), 1, CONTENT_ROOM + 1}}},
    {"post's content of 255 bytes at the last place", FULL, C_RANGE,
     {{POST_LENGTH(15), 1, 255}, {POST_CONTENT(15), CONTENT_ROOM, 7}}},
    {"9 members", PLAIN, C_RANGE | C_FOUNDING, {{MEMBER_COUNT, 1, MEMBER_PLACES + 1}}},
    {"255 members", RICH, C_RANGE | C_FOUNDING, {{MEMBER_COUNT, 1, 255}}},
    {"8 + 1 members with 8 ids", PLAIN, C_RANGE | C_FOUNDING,
     {{MEMBER_COUNT, 1, MEMBER_PLACES + 1}, {MEMBER(3), 4, 0x00050004}, {MEMBER(5), 4, 0x00080006},
      {MEMBER(7), 2, 300}}},

    /* held senders members */
    {"a sender that is no member", RICH, C_SENDERS, {{SENDER(43), 2, 8}}},
    {"such a sender above the level", RICH, C_SENDERS, {{SENDER(72), 2, 8}}},
    {"such a sender in the first place", FULL, C_SENDERS, {{SENDER(128), 2, 65535}}},
    {"such a sender in the last place", FULL, C_SENDERS, {{SENDER(127), 2, 4}}},
    {"a sender that is a member in its lower byte", RICH, C_SENDERS, {{SENDER(41), 2, 0x0103}}},
    {"a sender that is a member in its upper byte", RICH, C_SENDERS, {{SENDER(41), 2, 0x0300}}},
    {"a sender that is a member of others", LEVEL_7, C_SENDERS, {{SENDER(5), 2, 12}}},

    /* founding questions 3 to 6 */
    {"no member", PLAIN, C_FOUNDING, {{MEMBER_COUNT, 1, 0}, {MEMBERS, 2 * MEMBER_PLACES, 0}}},
    {"no member, own id 0", PLAIN, C_FOUNDING,
     {{MEMBER_COUNT, 1, 0}, {MEMBERS, 2 * MEMBER_PLACES, 0}, {OWN, 2, 0}}},
    {"1 member", PLAIN, C_FOUNDING, {{MEMBER_COUNT, 1, 1}, {MEMBER(1), 4, 0}, {OWN, 2, 3}}},
    {"id 0 first", PLAIN, C_FOUNDING, {{MEMBER(0), 2, 0}}},
    {"id 0 among them", PLAIN, C_FOUNDING, {{MEMBER(1), 2, 0}, {OWN, 2, 9}}},
    {"id 0 last", PLAIN, C_FOUNDING, {{MEMBER(2), 2, 0}}},
    {"id 0 last and the own", PLAIN, C_FOUNDING, {{MEMBER(2), 2, 0}, {OWN, 2, 0}}},
    {"an id twice", PLAIN, C_FOUNDING, {{MEMBER(2), 2, 7}}},
    {"the first id twice", PLAIN, C_FOUNDING, {{MEMBER(2), 2, 3}}},
    {"lowest second", PLAIN, C_FOUNDING, {{MEMBER(0), 2, 8}}},
    {"lowest last", PLAIN, C_FOUNDING, {{MEMBER(2), 2, 2}}},
    {"own id not among them", PLAIN, C_FOUNDING, {{OWN, 2, 8}}},
    {"own id not among them, all else in use", RICH, C_FOUNDING, {{OWN, 2, 8}}},
    {"own id 0", PLAIN, C_FOUNDING, {{OWN, 2, 0}}},
    {"own id among them in its lower byte", PLAIN, C_FOUNDING, {{OWN, 2, 0x0107}}},
    {"ring 0", PLAIN, C_FOUNDING, {{RING, 4, 0}}},
    {"ring 2,000,000,001", PLAIN, C_FOUNDING, {{RING, 4, OVER}}},
    {"ring all ones", PLAIN, C_FOUNDING, {{RING, 4, ALL_ONES}}},

    /* safe mark <= delivered mark <= level */
    {"delivered mark above the level", RICH, C_MARKS, {{DELIVERED, 4, 46}}},
    {"delivered mark above the level, fresh", PLAIN, C_MARKS, {{DELIVERED, 4, 1}}},
    {"delivered mark 2,000,000,000", LEVEL_7, C_MARKS, {{DELIVERED, 4, LIMIT}}},
    {"delivered mark below the safe mark", RICH, C_MARKS, {{DELIVERED, 4, 39}}},
    {"delivered mark 0", RICH, C_MARKS, {{DELIVERED, 4, 0}}},
    {"safe mark above the delivered mark", RICH, C_MARKS, {{SAFE, 4, 43}}},
    {"safe mark above the level", LAST, C_MARKS, {{LEVEL, 4, LIMIT - 1}}},
    {"marks compared by all their bytes", RICH, C_MARKS, {{DELIVERED, 4, 0x0100002A}}},

    /* both aru <= level */
    {"aru above the level", RICH, C_ARUS, {{ARU, 4, 46}}},
    {"earlier aru above the level", RICH, C_ARUS, {{EARLIER, 4, 46}}},
    {"aru above the level, fresh", PLAIN, C_ARUS, {{ARU, 4, 1}}},
    {"earlier aru above the level, fresh", PLAIN, C_ARUS, {{EARLIER, 4, 1}}},
    {"aru 2,000,000,000", LEVEL_7, C_ARUS, {{ARU, 4, LIMIT}}},
    {"earlier aru 2,000,000,000", LEVEL_7, C_ARUS, {{EARLIER, 4, LIMIT}}},

    /* numbers from safe mark + 1 to level are held */
    {"safe mark + 1 missing", RICH, C_HELD, {NOT_HELD(41)}},
    {"one between missing", RICH, C_HELD, {NOT_HELD(43)}},
    {"the level missing", RICH, C_HELD, {NOT_HELD(45)}},
    {"level 1, nothing held", PLAIN, C_HELD, {{LEVEL, 4, 1}}},
    {"level 7, nothing held", PLAIN, C_HELD, {{LEVEL, 4, 7}}},
    {"level 8, 7 held", LEVEL_7, C_HELD, {{LEVEL, 4, 8}}},
    {"level 2,000,000,000, safe mark 0", PLAIN, C_HELD, {{LEVEL, 4, LIMIT}}},
    {"level above safe mark + 32, all places in use", FULL, C_HELD, {{LEVEL, 4, 133}}},
    {"level far above, all places in use", FULL, C_HELD, {{LEVEL, 4, 5000}}},
    {"safe mark two lower, one of its numbers gone", RICH, C_HELD, {{SAFE, 4, 38}, {DELIVERED, 4, 38}}},

    /* level + 1 isn't */
    {"1 held, level 0", PLAIN, C_NEXT, {{SENDER(1), 2, 3}}},
    {"8 held, level 7", LEVEL_7, C_NEXT, {{SENDER(8), 2, 3}}},
    {"level 6, 7 held", LEVEL_7, C_NEXT, {{LEVEL, 4, 6}}},
    {"the gap filled", RICH, C_NEXT, {{SENDER(46), 2, 3}}},
    {"level one less", RICH, C_NEXT, {{LEVEL, 4, 44}}},
    {"level one less, safe mark + 32 held", FULL, C_NEXT, {{LEVEL, 4, 131}}},
    {"2,000,000,000 held, the level one below", LAST, C_NEXT,
     {{SAFE, 4, LIMIT - 1}, {DELIVERED, 4, LIMIT - 1}, {LEVEL, 4, LIMIT - 1}, {SENDER(LIMIT), 2, 3}}},

    /* the panel's byte is the count of what is held and undelivered */
    {"panel 1, nothing held", PLAIN, C_PANEL, {{PANEL, 1, 1}}},
    {"panel 32, nothing held", PLAIN, C_PANEL, {{PANEL, 1, HELD_PLACES}}},
    {"panel 255, nothing held", PLAIN, C_PANEL, {{PANEL, 1, 255}}},
    {"panel 1, all marks 2,000,000,000", LAST, C_PANEL, {{PANEL, 1, 1}}},
    {"panel 0, 7 undelivered", LEVEL_7, C_PANEL, {{PANEL, 1, 0}}},
    {"panel 6, 7 undelivered", LEVEL_7, C_PANEL, {{PANEL, 1, 6}}},
    {"panel 8, 7 undelivered", LEVEL_7, C_PANEL, {{PANEL, 1, 8}}},
    {"panel one more", RICH, C_PANEL, {{PANEL, 1, 7}}},
    {"panel one less", RICH, C_PANEL, {{PANEL, 1, 5}}},
    {"panel 255", RICH, C_PANEL, {{PANEL, 1, 255}}},
    {"panel 6 + 32", RICH, C_PANEL, {{PANEL, 1, 6 + HELD_PLACES}}},
    {"panel with those delivered", RICH, C_PANEL, {{PANEL, 1, 8}}},
    {"panel without those behind the gap", RICH, C_PANEL, {{PANEL, 1, 3}}},
    {"panel with those behind the gap alone", RICH, C_PANEL, {{PANEL, 1, 3}, {DELIVERED, 4, 43}}},
    {"panel with the posts", RICH, C_PANEL, {{PANEL, 1, 10}}},
    {"panel one more, 32 held", FULL, C_PANEL, {{PANEL, 1, 16}}},
    {"panel one less, 32 held", FULL, C_PANEL, {{PANEL, 1, 14}}},
    {"panel 32, 32 held and half of them delivered", FULL, C_PANEL, {{PANEL, 1, HELD_PLACES}}},
    {"panel 31, 32 undelivered", FULL, C_PANEL, {{DELIVERED, 4, 100}, {PANEL, 1, 31}}},
    {"panel 33, 32 undelivered", FULL, C_PANEL, {{DELIVERED, 4, 100}, {PANEL, 1, 33}}},
    {"panel 0, 32 undelivered", FULL, C_PANEL, {{DELIVERED, 4, 100}, {PANEL, 1, 0}}},
    {"delivered mark one more, the panel as it was", RICH, C_PANEL, {{DELIVERED, 4, 43}, {PANEL, 1, 6}}},
    {"delivered mark one less, the panel as it was", RICH, C_PANEL, {{DELIVERED, 4, 41}, {PANEL, 1, 6}}},
    {"one more held, the panel as it was", RICH, C_PANEL, {{SENDER(52), 2, 3}, {PANEL, 1, 6}}},
    {"one less held, the panel as it was", RICH, C_PANEL, {NOT_HELD(50), {PANEL, 1, 6}}},

    /* a part not in use is zero */
    {"a member past the count", PLAIN, C_UNUSED, {{MEMBER(3), 2, 12}}},
    {"the upper byte of a member past the count", PLAIN, C_UNUSED, {{MEMBER(3) + 1, 1, 1}}},
    {"the last member place", RICH, C_UNUSED, {{MEMBER(7), 2, 65535}}},
    {"one member fewer, its place as it was", PLAIN, C_UNUSED, {{MEMBER_COUNT, 1, 2}}},
    {"a free place's service", RICH, C_UNUSED, {{SERVICE(46), 2, 1}}},
    {"a free place's length", RICH, C_UNUSED, {{LENGTH(46), 1, 1}}},
    {"a free place's length and content", RICH, C_UNUSED, {{LENGTH(46), 1, 2}, {CONTENT(46), 2, 0x0101}}},
    {"a free place's length 64", PLAIN, C_UNUSED, {{LENGTH(31), 1, CONTENT_ROOM}}},
    {"a free place's first content byte", RICH, C_UNUSED, {{CONTENT(46), 1, 1}}},
    {"a free place's last content byte", RICH, C_UNUSED, {{CONTENT(46) + CONTENT_ROOM - 1, 1, 1}}},
    {"the first of all held contents' bytes", RICH, C_UNUSED, {{CONTENTS, 1, 128}}},
    {"the last of all held contents' bytes", RICH, C_UNUSED, {{ARU - 1, 1, 128}}},
    {"a free place's service 2", RICH, C_RANGE | C_UNUSED, {{SERVICE(46), 2, 2}}},
    {"the byte past a held content", RICH, C_UNUSED, {{CONTENT(43) + 1, 1, 1}}},
    {"the last byte past a held content", RICH, C_UNUSED, {{CONTENT(43) + CONTENT_ROOM - 1, 1, 1}}},
    {"the one byte past a held content of 63", RICH, C_UNUSED, {{CONTENT(44) + CONTENT_ROOM - 1, 1, 255}}},
    {"the first byte past an empty held content", RICH, C_UNUSED, {{CONTENT(42), 1, 1}}},
    {"a held length one less", RICH, C_UNUSED, {{LENGTH(41), 1, CONTENT_ROOM - 1}}},
    {"a held message's sender gone", LEVEL_7, C_UNUSED | C_HELD, {{SENDER(7), 2, 0}}},
    {"a service past the count of posts", RICH, C_UNUSED, {{POST_SERVICE(4), 2, 1}}},
    {"a length past the count of posts", RICH, C_UNUSED, {{POST_LENGTH(4), 1, 1}}},
    {"a length and content past the count of posts", RICH, C_UNUSED,
     {{POST_LENGTH(4), 1, 1}, {POST_CONTENT(4), 1, 1}}},
    {"a content past the count of posts", RICH, C_UNUSED, {{POST_CONTENT(4), 1, 1}}},
    {"the last service", PLAIN, C_UNUSED, {{POST_SERVICE(15), 2, 1}}},
    {"the last length", PLAIN, C_UNUSED, {{POST_LENGTH(15), 1, CONTENT_ROOM}}},
    {"the record's last byte", RICH, C_UNUSED, {{RECORD_END - 1, 1, 1}}},
    {"the record's last byte past the last post", FULL, C_UNUSED, {{RECORD_END - 1, 1, 1}}},
    {"the byte past a post's content", RICH, C_UNUSED, {{POST_CONTENT(0) + 5, 1, 1}}},
    {"the last byte past a post's content", RICH, C_UNUSED, {{POST_CONTENT(0) + CONTENT_ROOM - 1, 1, 1}}},
    {"the first byte past an empty post", RICH, C_UNUSED, {{POST_CONTENT(1), 1, 1}}},
    {"a post's length one less", RICH, C_UNUSED, {{POST_LENGTH(2), 1, CONTENT_ROOM - 1}}},
    {"one post fewer, its place as it was", RICH, C_UNUSED, {{POST_COUNT, 1, 3}}},
    {"no posts, their places as they were", FULL, C_UNUSED, {{POST_COUNT, 1, 0}}},
};

static void not_whole(const char *name, struct bytes record)
{
    check(!try_record(name, record, 1, pattern(3), FRAMES_ROOM), "whole by the test's own clauses");
    try_record(name, record, 2, pattern(CONTENT_ROOM + 1), FRAMES_ROOM - 1);
}

/* a record of another length is not whole, whatever its bytes */
static void other_lengths(void)
{
    static const size_t lengths[] = {
        0, 1, 2, RECORD_END - 1, RECORD_END + 1, 2 * RECORD_END, 10000, 65536 + RECORD_END};
    static uint8_t record[65536 + RECORD_END];
    struct station s = sample(RICH);

    station_bytes(&s, record);
    for (size_t i = 0; i < sizeof lengths / sizeof lengths[0]; i++)
        not_whole("a record of another length", bytes_of(record, lengths[i]));
    not_whole("no record lent", null_bytes());
    not_whole("a record of zeros", bytes_of(record + RECORD_END, RECORD_END));
}

void test_not_whole(void)
{
    tally_group("records that are not whole");
    try_records(cases, sizeof cases / sizeof cases[0]);
    try_broken_tokens();
    other_lengths();
}
