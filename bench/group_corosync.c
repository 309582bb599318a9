/* The closed process groups of corosync behind group.h. It orders every message totally. */
#include "group.h"

#include <corosync/corotypes.h>
#include <corosync/cpg.h>
#include <errno.h>
#include <poll.h>
#include <string.h>
#include <sys/uio.h>
#include <time.h>

/* How often a daemon that starts is asked again, each time after 50 ms. */
#define MOST_TURNS 100

static cpg_handle_t handle;
static int fd, has_come;

static void delivered(cpg_handle_t of, const struct cpg_name *group, uint32_t node, uint32_t process, void *message, size_t length) {
    (void)of, (void)group, (void)node, (void)process;
    has_come = 1;
    on_delivery(message, length);
}

static void changed(cpg_handle_t of, const struct cpg_name *group, const struct cpg_address *members, size_t count,
                    const struct cpg_address *left, size_t left_count, const struct cpg_address *joined, size_t joined_count) {
    (void)of, (void)group, (void)members, (void)left, (void)left_count, (void)joined, (void)joined_count;
    has_come = 1;
    on_view(count);
}

static void wait_a_turn(void) {
    struct timespec turn = {0, 50000000};
    nanosleep(&turn, NULL);
}

enum group_result group_connect(const char *path) {
    cpg_callbacks_t calls = {.cpg_deliver_fn = delivered, .cpg_confchg_fn = changed};
    cs_error_t error = CS_ERR_TRY_AGAIN;
    (void)path;
    for (int turn = 0; turn < MOST_TURNS && (error = cpg_initialize(&handle, &calls)) != CS_OK; turn++) wait_a_turn();
    return error == CS_OK && cpg_fd_get(handle, &fd) == CS_OK ? GROUP_DONE : GROUP_FAILED;
}

enum group_result group_join(int is_total) {
    struct cpg_name group = {.length = 4, .value = "load"};
    cs_error_t error = CS_ERR_TRY_AGAIN;
    (void)is_total;
    for (int turn = 0; turn < MOST_TURNS && (error = cpg_join(handle, &group)) == CS_ERR_TRY_AGAIN; turn++) wait_a_turn();
    return error == CS_OK ? GROUP_DONE : GROUP_FAILED;
}

enum group_result group_cast(const void *message, size_t length) {
    struct iovec part = {(void *)message, length};
    cs_error_t error = cpg_mcast_joined(handle, CPG_TYPE_AGREED, &part, 1);
    return error == CS_OK ? GROUP_DONE : error == CS_ERR_TRY_AGAIN ? GROUP_LATER : GROUP_FAILED;
}

static enum group_result take_in(void) {
    cs_error_t error = cpg_dispatch(handle, CS_DISPATCH_ALL);
    return error == CS_OK || error == CS_ERR_TRY_AGAIN ? GROUP_DONE : GROUP_FAILED;
}

enum group_result group_dispatch(int milliseconds) {
    has_come = 0;
    if (take_in() == GROUP_FAILED) return GROUP_FAILED;
    if (has_come || milliseconds == 0) return GROUP_DONE;
    struct pollfd ready = {fd, POLLIN, 0};
    int polled = poll(&ready, 1, milliseconds);
    if (polled < 0) return errno == EINTR ? GROUP_DONE : GROUP_FAILED;
    return polled > 0 ? take_in() : GROUP_DONE;
}
