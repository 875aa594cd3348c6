/* Counting checks. A failed one prints its group, its case and what is wrong, and the run goes on. */
#ifndef HOST_TALLY_H
#define HOST_TALLY_H

#include <stdbool.h>

/* what the next checks belong to; both names are kept, not copied */
void tally_group(const char *name);
void tally_case(const char *name);

void check(bool good, const char *format, ...) __attribute__((format(printf, 2, 3)));

/* a call that stops the program (a byte outside the lent ones, a trap) is a failure with a name */
void tally_catch_signals(void);

/* prints the last line and gives the exit status: a failure too where no check ran */
int tally_end(void);

#endif
