/* Messages for the operator, on standard error, each with the program's name before it. */
#ifndef NODE_COMPLAIN_H
#define NODE_COMPLAIN_H

/* statuses: something went wrong while it ran; flags or configuration are wrong */
enum { EXIT_FAILED = 1, EXIT_USAGE = 2 };

void complain(const char *format, ...) __attribute__((format(printf, 1, 2)));

/* complains, and ends the program with that status */
_Noreturn void fail(int status, const char *format, ...) __attribute__((format(printf, 2, 3)));

#endif
