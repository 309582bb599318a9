/* A program that casts as fast as its daemon takes casts, in all groups in turn: what bench/tenants has one tenant do beside another.
 *
 *   flood PATH causal|total GROUPS SECONDS
 *
 * connects by the socket PATH, joins the groups 1 to GROUPS and says `ready`. Once a line comes on standard input it casts 16 bytes again and
 * again for so many SECONDS, with 32 commands under way, or in total order one in each group, and then says `casts=N`: how many were done. What
 * is refused is passed over. It reads on until standard input ends. It ends with 1 where the daemon is gone. */
#include "../clients/c/castd.h"

#include <errno.h>
#include <poll.h>
#include <stdio.h>
#include <stdlib.h>
#include <string.h>
#include <sys/socket.h>
#include <time.h>
#include <unistd.h>

#define MOST_GROUPS 32
#define IN_FLIGHT 32
#define PATIENCE 20000

static struct castd session;
static enum castd_kind kind;
static unsigned groups, joined;
static int is_ready;
/* Of each group, whether an own atomic message is on its way. Of each command without a Reply, the oldest at `oldest`, its group. */
static int is_busy[MOST_GROUPS + 1];
static unsigned asked[IN_FLIGHT], oldest, count;
static unsigned long done;
static uint8_t in[1 << 20], out[1 << 16];
static size_t in_used, out_used;

static void fail(const char *what) {
    fprintf(stderr, "flood: %s\n", what);
    exit(1);
}

static double now(void) {
    struct timespec time;
    clock_gettime(CLOCK_MONOTONIC, &time);
    return time.tv_sec + time.tv_nsec / 1e9;
}

static int is_own(struct castd_process process) {
    return process.site == session.process.site && process.serial == session.process.serial;
}

static void take_reply(int code) {
    if (count == 0) fail("a reply to nothing");
    unsigned group = asked[oldest];
    oldest = (oldest + 1) % IN_FLIGHT;
    count--;
    if (code == 0) done++;
    else if (is_ready) is_busy[group] = 0;
    else fail("a group cannot be joined");
}

static void take_push(const struct castd_push *push) {
    switch (push->type) {
    case CASTD_REPLY: take_reply(push->code); break;
    case CASTD_VIEW: joined |= 1u << (push->group - 1); break;
    case CASTD_DELIVER:
        if (push->kind == CASTD_ATOMIC && is_own(push->process)) is_busy[push->group] = 0;
        break;
    default: fail("the daemon is gone");
    }
}

static void take_in(void) {
    struct castd_push push;
    size_t taken = 0;
    int length;
    while ((length = castd_decode(in + taken, in_used - taken, &push)) > 0) {
        take_push(&push);
        taken += (size_t)length;
    }
    if (length < 0) fail("bytes that are no push");
    memmove(in, in + taken, in_used - taken);
    in_used -= taken;
}

static void write_out(void) {
    ssize_t sent = send(session.socket, out, out_used, MSG_DONTWAIT | MSG_NOSIGNAL);
    if (sent < 0 && errno != EAGAIN && errno != EINTR) fail("the daemon is gone");
    if (sent <= 0) return;
    memmove(out, out + sent, out_used - (size_t)sent);
    out_used -= (size_t)sent;
}

/* Writes what is to be written, waits until something comes, and takes it. */
static void turn(int milliseconds) {
    if (out_used > 0) write_out();
    struct pollfd ready = {session.socket, (short)(out_used > 0 ? POLLIN | POLLOUT : POLLIN), 0};
    if (poll(&ready, 1, milliseconds) <= 0 || !(ready.revents & (POLLIN | POLLHUP))) return;
    ssize_t came = recv(session.socket, in + in_used, sizeof in - in_used, MSG_DONTWAIT);
    if (came == 0 || (came < 0 && errno != EAGAIN && errno != EINTR)) fail("the daemon is gone");
    if (came > 0) in_used += (size_t)came;
    take_in();
}

static void say(const struct castd_command *command) {
    asked[(oldest + count++) % IN_FLIGHT] = command->group;
    out_used += castd_encode(command, 0, out + out_used);
}

/* Casts in the next group that may be cast in. Whether there is one. */
static int cast(void) {
    static unsigned last;
    static const char payload[16];
    for (unsigned tried = 0; tried < groups; tried++) {
        last = last % groups + 1;
        if (is_busy[last]) continue;
        struct castd_command cast = {.type = CASTD_CAST, .group = last, .kind = kind, .payload = payload, .length = sizeof payload};
        is_busy[last] = kind == CASTD_ATOMIC;
        say(&cast);
        return 1;
    }
    return 0;
}

static int is_told(void) {
    struct pollfd ready = {STDIN_FILENO, POLLIN, 0};
    return poll(&ready, 1, 0) > 0;
}

int main(int words, char **word) {
    if (words != 5) fail("usage: flood PATH causal|total GROUPS SECONDS");
    kind = strcmp(word[2], "total") == 0 ? CASTD_ATOMIC : CASTD_CAUSAL;
    groups = strtoul(word[3], NULL, 10);
    if (groups == 0 || groups > MOST_GROUPS) fail("GROUPS is out of range");
    setvbuf(stdout, NULL, _IOLBF, 0);
    if (castd_connect(&session, word[1], PATIENCE)) fail("there is no daemon");
    for (unsigned group = 1; group <= groups; group++) {
        struct castd_command join = {.type = CASTD_JOIN, .group = group};
        say(&join);
        while (count > 0 || !(joined >> (group - 1) & 1)) turn(100);
    }
    is_ready = 1;
    puts("ready");
    while (!is_told()) turn(10);
    if (getchar() == EOF) return 0;
    done = 0;
    double end = now() + strtod(word[4], NULL);
    while (now() < end) {
        while (count < IN_FLIGHT && cast()) {}
        turn(100);
    }
    printf("casts=%lu\n", done);
    while (!is_told()) turn(100);
    return 0;
}
