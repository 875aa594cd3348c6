/* Whole numbers as text: decimal digits and nothing else. */
#ifndef NODE_WHOLE_NUMBER_H
#define NODE_WHOLE_NUMBER_H

#include <stdbool.h>
#include <stdint.h>

/* false where the text is no such number, or one below `least` or above `most` */
bool whole_number(const char *text, uint64_t least, uint64_t most, uint64_t *value);

#endif
