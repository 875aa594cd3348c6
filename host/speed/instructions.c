/*
 * Each kind of call once by the library and once by the oracle, for callgrind: it dumps the instructions of
 * each call under the name 'kind|fill|station'. host/speed/run --instructions makes a table of them.
 */
#include <stdio.h>
#include <string.h>
#include <valgrind/callgrind.h>

#include "calling.h"

static void count_call(const struct stations *stations, size_t kind, enum fill fill)
{
    static struct lent lent;
    struct trial trial = trial_of(kind, fill);
    char name[128];

    snprintf(name, sizeof name, "%s|%s|%s", trial_name(kind), fill_names[fill], stations->name);
    memset(&lent, 0, sizeof lent);
    restore(&lent, &trial);
    CALLGRIND_ZERO_STATS;
    make_call(stations, &trial, &lent);
    CALLGRIND_DUMP_STATS_AT(name);
}

int main(void)
{
    for (size_t kind = 0; kind < trial_kinds(); kind++)
        for (enum fill fill = FRESH; fill < FILLS; fill++) {
            struct trial trial = trial_of(kind, fill);

            check_trial(trial_name(kind), fill_names[fill], &trial);
            count_call(&library, kind, fill);
            count_call(&oracle, kind, fill);
        }
    return 0;
}
