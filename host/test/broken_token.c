#include "broken_token.h"

#include "records.h"
#include "whole.h"

/* The sample's token has 44 bytes: highest 50, aru 43, blocker 7, requests 46, 48, 49. */
static const struct record_case cases[] = {
    /* 10 */
    {"length one more", RICH, C_TOKEN, {{T(T_LENGTH), 2, 43}}},
    {"length one less", RICH, C_TOKEN, {{T(T_LENGTH), 2, 41}}},
    {"length counting itself", RICH, C_TOKEN, {{T(T_LENGTH), 2, 44}}},
    {"length exact in its lower byte", RICH, C_TOKEN, {{T(T_LENGTH), 2, 42 + 256}}},
    {"size one less", RICH, C_TOKEN, {{TOKEN_SIZE, 1, 43}}},
    {"size one more", RICH, C_TOKEN, {{TOKEN_SIZE, 1, 45}}},
    {"size 96", RICH, C_TOKEN, {{TOKEN_SIZE, 1, TOKEN_ROOM}}},
    {"size 1", RICH, C_TOKEN, {{TOKEN_SIZE, 1, 1}, {TOKEN, TOKEN_ROOM, 0}}},
    {"size 2, length 0", RICH, C_TOKEN, {{TOKEN_SIZE, 1, 2}, {TOKEN, TOKEN_ROOM, 0}}},
    {"9 bytes, length exact", RICH, C_TOKEN, {SIZE(9), {T(9), TOKEN_ROOM - 9, 0}}},
    {"32 bytes, all zero", RICH, C_TOKEN, {{TOKEN_SIZE, 1, TOKEN_LEAST}, {TOKEN, TOKEN_ROOM, 0}}},

    /* 11, and of kind 2 */
    {"kind 0", RICH, C_TOKEN, {{T(T_KIND), 2, 0}}},
    {"kind 3", RICH, C_TOKEN, {{T(T_KIND), 2, 3}}},
    {"kind 2 in its lower byte", RICH, C_TOKEN, {{T(T_KIND), 2, 0x0102}}},
    {"kind 1", RICH, C_TOKEN, {{T(T_KIND), 2, 1}}},
    {"a good message", RICH, C_TOKEN, {{T(T_KIND), 2, 1}, {T(16), 4, 0}, {T(20), 4, 1}}},

    /* 12: the size and the number of requests */
    {"10 bytes: the header alone", RICH, C_TOKEN, {SIZE(10), {T(10), TOKEN_ROOM - 10, 0}}},
    {"31 bytes", RICH, C_TOKEN, {SIZE(TOKEN_LEAST - 1), {T(T_COUNT), TOKEN_ROOM - T_COUNT, 0}}},
    {"33 bytes, no requests", RICH, C_TOKEN, {SIZE(TOKEN_LEAST + 1), {T(T_COUNT), TOKEN_ROOM - T_COUNT, 0}}},
    {"32 bytes, 3 requests", RICH, C_TOKEN, {SIZE(TOKEN_LEAST), {T(T_REQUESTS), TOKEN_ROOM - T_REQUESTS, 0}}},
    {"a request's last byte missing", RICH, C_TOKEN, {SIZE(43)}},
    {"room for a request more", RICH, C_TOKEN, {SIZE(48)}},
    {"room for a request less", RICH, C_TOKEN, {SIZE(40), {REQUEST(2), 4, 0}}},
    {"2 requests in the room of 3", RICH, C_TOKEN, {{T(T_COUNT), 2, 2}}},
    {"4 requests in the room of 3", RICH, C_TOKEN, {{T(T_COUNT), 2, 4}}},
    {"17 requests in the room of 16", RICH, C_TOKEN, {SIZE(TOKEN_ROOM), {T(T_COUNT), 2, REQUEST_PLACES + 1}}},
    {"3 requests in the lower byte", RICH, C_TOKEN, {{T(T_COUNT), 2, 3 + 256}}},
    {"65535 requests", RICH, C_TOKEN, {{T(T_COUNT), 2, 65535}}},

    /* 12: the values */
    {"representative 0", RICH, C_TOKEN, {{T(T_REPRESENTATIVE), 2, 0}}},
    {"addressee 0", RICH, C_TOKEN, {{T(T_ADDRESSEE), 2, 0}}},
    {"number 0", RICH, C_TOKEN, {{T(T_NUMBER), 4, 0}}},
    {"number 2,000,000,001", RICH, C_TOKEN, {{T(T_NUMBER), 4, OVER}}},
    {"number all ones", RICH, C_TOKEN, {{T(T_NUMBER), 4, ALL_ONES}}},
    {"highest 2,000,000,001", RICH, C_TOKEN, {{T(T_HIGHEST), 4, OVER}}},
    {"highest all ones", RICH, C_TOKEN, {{T(T_HIGHEST), 4, ALL_ONES}}},
    {"aru above the highest", RICH, C_TOKEN, {{T(T_ARU), 4, 51}}},
    {"aru above the highest, nobody", RICH, C_TOKEN, {{T(T_ARU), 4, 51}, {T(T_BLOCKER), 2, 0}}},
    {"aru at the highest, a blocker", RICH, C_TOKEN, {{T(T_ARU), 4, 50}}},
    {"aru below the highest, nobody", RICH, C_TOKEN, {{T(T_BLOCKER), 2, 0}}},
    {"round count 129", RICH, C_TOKEN, {{T(T_ROUND), 2, MOST_ROUND + 1}}},
    {"round count 256", RICH, C_TOKEN, {{T(T_ROUND), 2, 256}}},
    {"backlog 129", RICH, C_TOKEN, {{T(T_BACKLOG), 2, MOST_BACKLOG + 1}}},
    {"backlog 256", RICH, C_TOKEN, {{T(T_BACKLOG), 2, 256}}},
    {"backlog 65535", RICH, C_TOKEN, {{T(T_BACKLOG), 2, 65535}}},
    {"request 0", RICH, C_TOKEN, {{REQUEST(1), 4, 0}}},
    {"the last request 0", RICH, C_TOKEN, {{REQUEST(2), 4, 0}}},
    {"a request above the highest", RICH, C_TOKEN, {{REQUEST(2), 4, 51}}},
    {"the highest below a request", RICH, C_TOKEN, {{T(T_HIGHEST), 4, 48}}},
    {"a request all ones", RICH, C_TOKEN, {{REQUEST(0), 4, ALL_ONES}}},
    {"a request twice", RICH, C_TOKEN, {{REQUEST(1), 4, 46}}},
    {"the first and the last request the same", RICH, C_TOKEN, {{REQUEST(2), 4, 46}}},

    /* 13 */
    {"another ring", RICH, C_TOKEN, {{T(T_RING), 4, 5}}},
    {"another ring by the upper bytes", RICH, C_TOKEN, {{T(T_RING), 4, 4 + 65536}}},
    {"ring 0", RICH, C_TOKEN, {{T(T_RING), 4, 0}}},
    {"the record of another ring", RICH, C_TOKEN, {{RING, 4, 5}}},
    {"another member as representative", RICH, C_TOKEN, {{T(T_REPRESENTATIVE), 2, 7}}},
    {"a representative that is no member", RICH, C_TOKEN, {{T(T_REPRESENTATIVE), 2, 2}}},
    {"the record with another representative", RICH, C_TOKEN | C_SENDERS, {{MEMBER(0), 2, 2}}},

    /* 14 */
    {"addressee no member", RICH, C_TOKEN, {{T(T_ADDRESSEE), 2, 8}}},
    {"addressee a member in its lower byte", RICH, C_TOKEN, {{T(T_ADDRESSEE), 2, 0x0109}}},
    {"blocker no member", RICH, C_TOKEN, {{T(T_BLOCKER), 2, 8}}},
    {"blocker a member in its lower byte", RICH, C_TOKEN, {{T(T_BLOCKER), 2, 0x0107}}},

    /* its part not in use */
    {"the byte past the token", RICH, C_UNUSED, {{T(44), 1, 1}}},
    {"the last byte of the token's room", RICH, C_UNUSED, {{T(TOKEN_ROOM - 1), 1, 1}}},
    {"no leave, the token as it was", RICH, C_UNUSED, {{TOKEN_SIZE, 1, 0}}},
    {"no leave, the first byte", PLAIN, C_UNUSED, {{TOKEN, 1, 1}}},
    {"no leave, the last byte", PLAIN, C_UNUSED, {{T(TOKEN_ROOM - 1), 1, 128}}},
};

void try_broken_tokens(void)
{
    try_records(cases, sizeof cases / sizeof cases[0]);
}
