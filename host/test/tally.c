#define _DEFAULT_SOURCE
#include "tally.h"

#include <signal.h>
#include <stdarg.h>
#include <stdio.h>
#include <stdlib.h>
#include <string.h>
#include <unistd.h>

enum { MOST_FAILURES = 25 };

static const char *group_name = "";
static const char *case_name = "";
static unsigned long passed, failed;

void tally_group(const char *name)
{
    group_name = name;
    case_name = "";
}

void tally_case(const char *name)
{
    case_name = name;
}

void check(bool good, const char *format, ...)
{
    va_list rest;

    if (good) {
        passed++;
        return;
    }
    failed++;
    printf("host: FAILED: %s: %s: ", group_name, case_name);
    va_start(rest, format);
    vprintf(format, rest);
    va_end(rest);
    printf("\n");
    if (failed >= MOST_FAILURES) {
        printf("host: stopped after %d failures\n", MOST_FAILURES);
        exit(1);
    }
}

static void say(const char *text)
{
    if (write(STDOUT_FILENO, text, strlen(text)) < 0)
        _exit(1);
}

static void stopped(int signal_number)
{
    say("host: FAILED: ");
    say(group_name);
    say(": ");
    say(case_name);
    say(signal_number == SIGSEGV || signal_number == SIGBUS ? ": a byte outside the lent ones was touched\n"
                                                            : ": the call stopped the program\n");
    _exit(1);
}

void tally_catch_signals(void)
{
    static const int caught[] = {SIGSEGV, SIGBUS, SIGILL, SIGFPE, SIGABRT, SIGTRAP};
    struct sigaction action;

    memset(&action, 0, sizeof action);
    action.sa_handler = stopped;
    for (size_t i = 0; i < sizeof caught / sizeof caught[0]; i++)
        sigaction(caught[i], &action, NULL);
    setvbuf(stdout, NULL, _IOLBF, BUFSIZ);
}

int tally_end(void)
{
    if (failed > 0) {
        printf("host: %lu checks failed, %lu passed\n", failed, passed);
        return 1;
    }
    if (passed == 0) {
        printf("host: FAILED: no check ran\n");
        return 1;
    }
    printf("host: %lu checks passed\n", passed);
    return 0;
}
