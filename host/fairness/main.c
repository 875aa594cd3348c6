/* Who gets to send: rings of stations that post more than the ring carries. Prints markdown. */
#include <stdio.h>

#include "tables.h"

int main(void)
{
    print_shares();
    printf("\n");
    print_light();
    printf("\n");
    print_quiet();
    return 0;
}
