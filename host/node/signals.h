/* The program's only global state: that a signal has come. */
#ifndef NODE_SIGNALS_H
#define NODE_SIGNALS_H

#include <stdbool.h>

/* SIGTERM and SIGINT ask for a stop, SIGUSR1 for a report; a closed pipe becomes a failed write */
void signals_catch(void);

bool stop_asked(void);

/* true once for each request */
bool report_asked(void);

#endif
