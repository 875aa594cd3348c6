/*
 * The time of each kind of call, library against oracle. Both make the same calls in short blocks by turns;
 * the ratio is that of two blocks side by side, and the median of all ratios counts, so noise that lasts
 * longer than a block drops out. What goes on besides the call itself is measured in blocks of its own
 * and taken off.
 *
 * 'calls CONTENT' prints the table, all contents of that many bytes. 'calls CONTENT RATIO' also fails if a
 * kind's ratio is above that one.
 */
#include <stdio.h>
#include <stdlib.h>

#include "calling.h"
#include "middle.h"

enum { CALLS = 200, BLOCKS = 240 };

struct measured {
    double library, oracle, ratio;
};

/* nanoseconds of one call and of what goes on besides */
static double block(const struct stations *stations, const struct trial *trial, struct lent *lent)
{
    double begin = nanoseconds();

    for (unsigned i = 0; i < CALLS; i++) {
        restore(lent, trial);
        make_call(stations, trial, lent);
    }
    return (nanoseconds() - begin) / CALLS;
}

static struct measured measure(const struct trial *trial)
{
    static struct lent lent;
    double ours[BLOCKS], theirs[BLOCKS], ratios[BLOCKS];

    for (unsigned i = 0; i < BLOCKS; i++) {
        double besides = block(&nothing, trial, &lent);

        if (i % 2)
            ours[i] = block(&library, trial, &lent) - besides;
        theirs[i] = block(&oracle, trial, &lent) - besides;
        if (i % 2 == 0)
            ours[i] = block(&library, trial, &lent) - besides;
        ratios[i] = ours[i] / theirs[i];
    }
    return (struct measured){middle(ours, BLOCKS), middle(theirs, BLOCKS), middle(ratios, BLOCKS)};
}

/* the kind's row; its largest ratio is the result */
static double row(size_t kind)
{
    struct measured m[FILLS];
    double most = 0;

    for (enum fill fill = FRESH; fill < FILLS; fill++) {
        struct trial trial = trial_of(kind, fill);

        check_trial(trial_name(kind), fill_names[fill], &trial);
        m[fill] = measure(&trial);
        if (m[fill].ratio > most)
            most = m[fill].ratio;
    }
    printf("| %s |", trial_name(kind));
    for (enum fill fill = FRESH; fill < FILLS; fill++)
        printf(" %.2f |", m[fill].ratio);
    for (enum fill fill = FRESH; fill < FILLS; fill++)
        printf(" %.0f / %.0f |", m[fill].library, m[fill].oracle);
    printf("\n");
    fflush(stdout);
    return most;
}

static void header(void)
{
    printf("| Call |");
    for (enum fill fill = FRESH; fill < FILLS; fill++)
        printf(" ratio, %s |", fill_names[fill]);
    for (enum fill fill = FRESH; fill < FILLS; fill++)
        printf(" ns, %s |", fill_names[fill]);
    printf("\n|---|---:|---:|---:|---:|---:|---:|\n");
}

int main(int count, char **arguments)
{
    double most = count > 2 ? atof(arguments[2]) : 0, largest = 0;
    const char *slowest = "";
    int missed = 0;

    content_size = count > 1 ? (unsigned)atoi(arguments[1]) : 0;
    if (count < 2 || count > 3 || content_size > TOTEM_MOST_CONTENT || (count == 3 && most <= 0)) {
        fprintf(stderr, "usage: %s CONTENT [RATIO]\n", arguments[0]);
        return 2;
    }
    header();
    for (size_t kind = 0; kind < trial_kinds(); kind++) {
        double ratio = row(kind);

        if (ratio > most && most > 0) {
            fprintf(stderr, "calls: '%s' is above %.2f times the oracle's\n", trial_name(kind), most);
            missed = 1;
        }
        if (ratio > largest) {
            largest = ratio;
            slowest = trial_name(kind);
        }
    }
    printf("\nThe largest ratio is %.2f: %s.\n", largest, slowest);
    return missed;
}
