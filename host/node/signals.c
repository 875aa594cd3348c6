#include "signals.h"

#include <signal.h>
#include <string.h>

static volatile sig_atomic_t stop, report;

static void ask_stop(int signal_number)
{
    (void)signal_number;
    stop = 1;
}

static void ask_report(int signal_number)
{
    (void)signal_number;
    report = 1;
}

/* without SA_RESTART, so that a wait ends when the signal comes */
static void catch(int signal_number, void (*handler)(int))
{
    struct sigaction action;

    memset(&action, 0, sizeof action);
    action.sa_handler = handler;
    sigaction(signal_number, &action, NULL);
}

void signals_catch(void)
{
    catch(SIGTERM, ask_stop);
    catch(SIGINT, ask_stop);
    catch(SIGUSR1, ask_report);
    catch(SIGPIPE, SIG_IGN);
}

bool stop_asked(void)
{
    return stop != 0;
}

bool report_asked(void)
{
    bool asked = report != 0;

    if (asked)
        report = 0;
    return asked;
}
