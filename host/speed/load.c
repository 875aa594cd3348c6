/*
 * A client of corosync: 'load MEMBERS SECONDS'. It joins a group, waits until the group has so many members,
 * and then sends agreed messages of 64 bytes as fast as flow control lets it. Prints how many messages of the
 * whole group were delivered here each second. The first second and the last are not counted: all members
 * send during those between.
 */
#include <corosync/cpg.h>
#include <poll.h>
#include <stdio.h>
#include <stdlib.h>
#include <sys/uio.h>
#include <time.h>

enum { CONTENT = 64, SENDS = 4096, PATIENCE = 40 };

static unsigned long delivered;
static size_t members;

static void on_delivery(cpg_handle_t handle, const struct cpg_name *group, uint32_t node, uint32_t pid,
                        void *message, size_t length)
{
    (void)handle, (void)group, (void)node, (void)pid, (void)message;
    if (length == CONTENT)
        delivered++;
}

static void on_change(cpg_handle_t handle, const struct cpg_name *group, const struct cpg_address *now,
                      size_t count, const struct cpg_address *left, size_t left_count,
                      const struct cpg_address *joined, size_t joined_count)
{
    (void)handle, (void)group, (void)now, (void)left, (void)left_count, (void)joined, (void)joined_count;
    members = count;
}

static void fail(const char *what)
{
    fprintf(stderr, "load: %s\n", what);
    exit(1);
}

static double now(void)
{
    struct timespec t;

    clock_gettime(CLOCK_MONOTONIC, &t);
    return t.tv_sec + t.tv_nsec / 1e9;
}

static void pause_briefly(void)
{
    struct timespec t = {0, 50 * 1000 * 1000};

    nanosleep(&t, NULL);
}

static cpg_handle_t connected(double until)
{
    cpg_callbacks_t callbacks = {.cpg_deliver_fn = on_delivery, .cpg_confchg_fn = on_change};
    cpg_handle_t handle;

    while (cpg_initialize(&handle, &callbacks) != CS_OK) {
        if (now() > until)
            fail("corosync does not answer in this namespace: see its log");
        pause_briefly();
    }
    return handle;
}

static void join(cpg_handle_t handle, size_t wanted, double until)
{
    static struct cpg_name group = {5, "speed"};

    while (cpg_join(handle, &group) != CS_OK) {
        if (now() > until)
            fail("the group cannot be joined: the ring has not formed");
        pause_briefly();
    }
    while (members < wanted) {
        if (now() > until)
            fail("not all members have joined: the ring has not formed");
        cpg_dispatch(handle, CS_DISPATCH_ALL);
        pause_briefly();
    }
}

static void send_some(cpg_handle_t handle)
{
    static char content[CONTENT];
    struct iovec part = {content, CONTENT};
    unsigned i = 0;

    while (i < SENDS && cpg_mcast_joined(handle, CPG_TYPE_AGREED, &part, 1) == CS_OK)
        i++;
}

static void send_until(cpg_handle_t handle, int fd, double until)
{
    while (now() < until) {
        struct pollfd wait = {fd, POLLIN, 0};

        send_some(handle);
        poll(&wait, 1, 1);
        if (cpg_dispatch(handle, CS_DISPATCH_ALL) != CS_OK)
            fail("corosync has ended the connection");
    }
}

int main(int count, char **arguments)
{
    double seconds = count == 3 ? atof(arguments[2]) : 0, begin;
    unsigned long before;
    cpg_handle_t handle;
    int fd;

    if (seconds <= 0 || atoi(arguments[1]) < 1)
        fail("usage: load MEMBERS SECONDS");
    handle = connected(now() + PATIENCE);
    join(handle, (size_t)atoi(arguments[1]), now() + PATIENCE);
    if (cpg_fd_get(handle, &fd) != CS_OK)
        fail("corosync gives no descriptor to wait on");
    send_until(handle, fd, now() + 1);
    before = delivered;
    begin = now();
    send_until(handle, fd, begin + seconds);
    printf("%.0f\n", (delivered - before) / (now() - begin));
    fflush(stdout);
    send_until(handle, fd, now() + 1);
    return 0;
}
