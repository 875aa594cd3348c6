/* The groups of tests. `brief` leaves most of the random part out. */
#ifndef HOST_TESTS_H
#define HOST_TESTS_H

#include <stdbool.h>

void test_layout(void);
void test_founding(void);
void test_posting(void);
void test_messages(void);
void test_visits(void);
void test_broadcasts(void);
void test_backlogs(void);
void test_arrival_refusals(void);
void test_resending(void);
void test_whole(void);
void test_not_whole(void);
void test_use(void);
void test_panel(void);
void test_ring(bool brief);
void test_random(bool brief);
void test_random_arrivals(bool brief);
void test_stack(void);

#endif
