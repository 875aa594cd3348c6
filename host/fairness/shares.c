/* All stations have as many posts waiting as may whenever the token comes: how many messages each sends. */
#include <stdio.h>

#include "ring.h"
#include "tables.h"

static void row(unsigned stations)
{
    static struct ring r;
    unsigned long sent[TOTEM_MOST_MEMBERS] = {0}, all = 0;

    ring_found(&r, stations);
    for (unsigned round = 0; round < WARM_UP + ROUNDS; round++)
        for (unsigned place = 0; place < stations; place++) {
            unsigned new_messages;

            ring_fill(&r, place);
            new_messages = ring_visit(&r, place);
            if (round >= WARM_UP) {
                sent[place] += new_messages;
                all += new_messages;
            }
        }
    printf("| %u | %.1f |", stations, (double)all / ROUNDS);
    for (unsigned place = 0; place < TOTEM_MOST_MEMBERS; place++)
        if (place < stations)
            printf(" %.1f |", 100.0 * (double)sent[place] / (double)all);
        else
            printf(" |");
    printf("\n");
}

void print_shares(void)
{
    printf("All stations busy: each one's part of the new messages in percent, by its place.\n\n");
    printf("| stations | messages a round |");
    for (unsigned place = 0; place < TOTEM_MOST_MEMBERS; place++)
        printf(" place %u |", place);
    printf("\n|---:|---:|");
    for (unsigned place = 0; place < TOTEM_MOST_MEMBERS; place++)
        printf("---:|");
    printf("\n");
    row(3);
    row(4);
    row(8);
}
