/* The tables; each prints itself. */
#ifndef FAIRNESS_TABLES_H
#define FAIRNESS_TABLES_H

/* rounds of the token before anything is counted, and rounds that count */
enum { WARM_UP = 1000, ROUNDS = 10000 };

void print_shares(void);
void print_light(void);
void print_quiet(void);

#endif
