/*
 * The test of the C calls. With the argument 'brief', the form for valgrind, most of the random part is left
 * out, and the measuring of the stack: valgrind lets nobody read a stack's bytes below its end.
 */
#include <stdio.h>
#include <string.h>

#include "lent.h"
#include "tally.h"
#include "tests.h"

int main(int count, char **arguments)
{
    bool brief = count == 2 && strcmp(arguments[1], "brief") == 0;

    if (count > 2 || (count == 2 && !brief)) {
        printf("usage: %s [brief]\n", arguments[0]);
        return 2;
    }
    tally_catch_signals();
    lent_start();
    test_layout();
    test_founding();
    test_posting();
    test_messages();
    test_visits();
    test_broadcasts();
    test_backlogs();
    test_arrival_refusals();
    test_resending();
    test_whole();
    test_not_whole();
    test_use();
    test_panel();
    test_ring(brief);
    test_random(brief);
    test_random_arrivals(brief);
    if (!brief)
        test_stack();
    return tally_end();
}
