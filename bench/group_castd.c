/* castd behind group.h. It reads and writes the stream itself, since the client has one command at a time at the daemon, and here as many are
 * to be under way as load.c wants. Casts are gathered until group_dispatch writes them, as far as the stream has room: a program that waited
 * for room would not read meanwhile, and the daemon might wait for it to read. A cast that is refused, as the group changes its view or for
 * want of room, is cast again. */
#include "group.h"

#include "../clients/c/castd.h"
#include <errno.h>
#include <poll.h>
#include <stdio.h>
#include <string.h>
#include <sys/socket.h>

#define GROUP 1
#define MOST_WAITING 64
/* Milliseconds within which the daemon opens the session. */
#define PATIENCE 20000

/* The casts that have no Reply yet, the oldest at `oldest`. Replies come in the order of the commands. */
static struct {
    uint8_t bytes[CASTD_MOST_COMMAND];
    size_t length;
} waiting[MOST_WAITING];
static size_t oldest, count;

static struct castd session;
static enum castd_kind kind;
static int has_joined, has_own_abcast;
static uint8_t in[1 << 20], out[2 << 20];
static size_t in_used, out_used;

/* Room is never wanting: there are at most so many casts that wait. */
static void gather(const uint8_t *bytes, size_t length) {
    memcpy(out + out_used, bytes, length);
    out_used += length;
}

static enum group_result write_out(void) {
    size_t written = 0;
    while (written < out_used) {
        ssize_t sent = send(session.socket, out + written, out_used - written, MSG_DONTWAIT | MSG_NOSIGNAL);
        if (sent < 0 && errno == EINTR) continue;
        if (sent < 0 && errno != EAGAIN) return GROUP_FAILED;
        if (sent < 0) break;
        written += (size_t)sent;
    }
    memmove(out, out + written, out_used - written);
    out_used -= written;
    return GROUP_DONE;
}

static enum group_result take_reply(int code) {
    if (!has_joined || count == 0) {
        has_joined = 1;
        return code == 0 ? GROUP_DONE : GROUP_FAILED;
    }
    size_t place = oldest;
    oldest = (oldest + 1) % MOST_WAITING;
    if (code == 0) {
        count--;
        return GROUP_DONE;
    }
    if (code != CASTD_FLUSHING && code != CASTD_OWN_ABCAST && code != CASTD_HELD_FULL) return GROUP_FAILED;
    size_t last = (oldest + count - 1) % MOST_WAITING;
    if (last != place) waiting[last] = waiting[place];
    gather(waiting[last].bytes, waiting[last].length);
    return GROUP_DONE;
}

static int is_own(struct castd_process process) {
    return process.site == session.process.site && process.serial == session.process.serial;
}

static enum group_result take_push(const struct castd_push *push) {
    switch (push->type) {
    case CASTD_REPLY: return take_reply(push->code);
    case CASTD_VIEW: on_view(push->member_count); return GROUP_DONE;
    case CASTD_DELIVER:
        if (push->kind == CASTD_ATOMIC && is_own(push->process)) has_own_abcast = 0;
        on_delivery(push->payload, push->length);
        return GROUP_DONE;
    default: fprintf(stderr, "load: the daemon pushed %d with code %d\n", push->type, push->code); return GROUP_FAILED;
    }
}

/* The pushes that have come whole. */
static enum group_result take_in(void) {
    struct castd_push push;
    size_t taken = 0;
    int length;
    while ((length = castd_decode(in + taken, in_used - taken, &push)) != 0) {
        if (length < 0 || take_push(&push) == GROUP_FAILED) return GROUP_FAILED;
        taken += (size_t)length;
    }
    memmove(in, in + taken, in_used - taken);
    in_used -= taken;
    return GROUP_DONE;
}

enum group_result group_connect(const char *path) { return castd_connect(&session, path, PATIENCE) ? GROUP_FAILED : GROUP_DONE; }

enum group_result group_join(int is_total) {
    struct castd_command join = {.type = CASTD_JOIN, .group = GROUP};
    kind = is_total ? CASTD_ATOMIC : CASTD_CAUSAL;
    out_used += castd_encode(&join, 0, out + out_used);
    return GROUP_DONE;
}

/* An ABCAST waits until the own one before it is delivered: the daemon would refuse it. */
enum group_result group_cast(const void *message, size_t length) {
    if (count == MOST_WAITING || has_own_abcast) return GROUP_LATER;
    struct castd_command cast = {.type = CASTD_CAST, .group = GROUP, .kind = kind, .payload = message, .length = length};
    size_t place = (oldest + count++) % MOST_WAITING;
    waiting[place].length = castd_encode(&cast, 0, waiting[place].bytes);
    gather(waiting[place].bytes, waiting[place].length);
    has_own_abcast = kind == CASTD_ATOMIC;
    return GROUP_DONE;
}

enum group_result group_dispatch(int milliseconds) {
    if (write_out() == GROUP_FAILED) return GROUP_FAILED;
    struct pollfd ready = {session.socket, (short)(out_used > 0 ? POLLIN | POLLOUT : POLLIN), 0};
    if (milliseconds > 0 && poll(&ready, 1, milliseconds) < 0 && errno != EINTR) return GROUP_FAILED;
    ssize_t came = recv(session.socket, in + in_used, sizeof in - in_used, MSG_DONTWAIT);
    if (came == 0 || (came < 0 && errno != EAGAIN && errno != EINTR)) return GROUP_FAILED;
    if (came > 0) in_used += (size_t)came;
    if (came > 0 && take_in() == GROUP_FAILED) return GROUP_FAILED;
    return write_out();
}
