/* Time, and the middle of many measurements: one block that was disturbed does not move it. */
#ifndef SPEED_MIDDLE_H
#define SPEED_MIDDLE_H

#include <stddef.h>

/* nanoseconds that this process has had of a processor: what others take meanwhile does not count */
double nanoseconds(void);

/* the median; the values are put in order */
double middle(double *values, size_t count);

#endif
