/* totem-node: one station of a furnace ring over UDP. docs/HOST.md says how it uses the library. */
#include <fcntl.h>

#include "complain.h"
#include "node.h"
#include "signals.h"

/* A closed standard input or output must not become the cable's number; using it has to fail. */
static void open_standard_files(void)
{
    int file;

    do
        file = open("/dev/null", O_RDONLY | O_CLOEXEC);
    while (file >= 0 && file <= 2);
}

int main(int argc, char **argv)
{
    static struct options options;
    static struct node node;
    int status;

    open_standard_files();
    options_read(&options, argc, argv);
    signals_catch();
    node_start(&node, &options);
    status = node_run(&node);
    if (options.count)
        tally_show_rate(&node.tally, options.own);
    if (options.refusals) {
        tally_show(&node.tally, options.own);
        station_show(&node.station, options.own);
    }
    return status;
}
