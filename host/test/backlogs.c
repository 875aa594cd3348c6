/* The backlog at a visit: the share that it leaves to the posts that wait here, and what goes on of it. */
#include "arrivals.h"
#include "tally.h"
#include "tests.h"

struct trial {
    const char *name;
    unsigned posts;    /* that wait */
    uint8_t own_part;  /* of the backlog */
    uint16_t backlog;  /* on the token that comes */
    uint16_t round;    /* its round count; the own last count is 0 */
    uint32_t repeats;  /* that it asks for */
    unsigned new_messages;
    uint16_t leaves; /* the backlog on the token that goes on */
};

static const struct trial trials[] = {
    /* 24 * waiting / (others' backlog + waiting) */
    {"16 waiting, others' backlog 0: eight, the most of a visit", 16, 0, 0, 0, 0, 8, 8},
    {"16 waiting, others' backlog 32: eight", 16, 0, 32, 0, 0, 8, 40},
    {"16 waiting, others' backlog 33: seven", 16, 0, 33, 0, 0, 7, 42},
    {"16 waiting, others' backlog 80: four", 16, 0, 80, 0, 0, 4, 92},
    {"16 waiting, others' backlog 112: three", 16, 0, 112, 0, 0, 3, 125},
    {"5 waiting, others' backlog 115: one", 5, 0, 115, 0, 0, 1, 119},
    {"3 waiting, others' backlog 0: all three", 3, 0, 0, 0, 0, 3, 0},

    /* a share of 0 */
    {"1 waiting, others' backlog 23: one", 1, 0, 23, 0, 0, 1, 23},
    {"1 waiting, others' backlog 24: 0, so one", 1, 0, 24, 0, 0, 1, 24},
    {"1 waiting, others' backlog 96: 0, so one", 1, 0, 96, 0, 0, 1, 96},
    {"5 waiting, others' backlog 128: 0, so one", 5, 0, 128, 0, 0, 1, 128},

    /* the own part is taken off, not below 0 */
    {"own part 16 of 96", 16, 16, 96, 0, 0, 4, 92},
    {"own part 16 of 16", 16, 16, 16, 0, 0, 8, 8},
    {"own part 16 of 15: others' backlog 0", 16, 16, 15, 0, 0, 8, 8},
    {"own part 16 of 0: others' backlog 0", 16, 16, 0, 0, 0, 8, 8},
    {"own part 5 of 20, no post", 0, 5, 20, 0, 0, 0, 15},
    {"own part 5 of 5, no post", 0, 5, 5, 0, 0, 0, 0},

    /* repeats and the round */
    {"no post: the share does not limit the repeats", 0, 0, 128, 0, 10, 0, 128},
    {"a share of four, three repeats: one", 16, 0, 80, 0, 3, 1, 95},
    {"a share of four, four repeats: none", 16, 0, 80, 0, 4, 0, 96},
    {"a share of one, ten repeats: none", 1, 0, 96, 0, 10, 0, 97},
    {"a share of four, round count 20: four", 16, 0, 80, 20, 0, 4, 92},
    {"a share of four, round count 21: three", 16, 0, 80, 21, 0, 3, 93},
    {"a share of one, round count 24: none", 1, 0, 96, 24, 0, 0, 97},

    /* at most 128 */
    {"113 and 14 left: 127", 16, 0, 113, 0, 0, 2, 127},
    {"114 and 14 left: 128", 16, 0, 114, 0, 0, 2, 128},
    {"115 and 14 left: 128", 16, 0, 115, 0, 0, 2, 128},
    {"128 and 14 left: 128", 16, 0, 128, 0, 0, 2, 128},
};

static void try_trial(const struct trial *trial)
{
    struct station s = posting(10, trial->posts);
    struct token arriving = token_for_7(4, 10, 10, 0), t;
    struct arrival a;

    s.own_part = trial->own_part;
    arriving.backlog = trial->backlog;
    arriving.round = trial->round;
    a = token_arrives(&s, requesting_also(arriving, 1, trial->repeats), &t);
    t.count = 0;
    for (uint32_t n = 1; n <= trial->repeats; n++)
        broadcasts(&a, n);
    a.after.broadcast = (uint8_t)trial->repeats;
    sends_new(&a, &t, trial->new_messages);
    delivers(&a, 11, t.highest);
    t.round = (uint16_t)(trial->round + trial->repeats + trial->new_messages);
    t.backlog = trial->leaves;
    forwards(&a, t);
    try_arrival(trial->name, &a);
}

void test_backlogs(void)
{
    tally_group("the backlog at a visit");
    for (size_t i = 0; i < sizeof trials / sizeof trials[0]; i++)
        try_trial(&trials[i]);
}
