/*
 * The configuration file: the same for all stations of a ring. A line is 'ring N' or 'member ID
 * ADDRESS:PORT', members in circulation order; '#' begins a comment, empty lines are passed over.
 */
#ifndef NODE_CONFIG_H
#define NODE_CONFIG_H

#include "options.h"

/* Complains and ends the program where the file can't be read or a line is wrong. */
void config_read(struct options *o, const char *path);

#endif
