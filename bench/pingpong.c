/* One of the members of a group between which a message goes to and fro: what bench/serve measures with beside load.c. It stands over group.h.
 *
 *   pingpong PATH ORDER MEMBERS PLACE SIZE SECONDS
 *
 * connects by the socket PATH and joins. Once the view has so many MEMBERS it says `ready` and waits for a line of standard input. Then the
 * member of place 1 casts messages of SIZE bytes, ordered as ORDER says, `causal` or `total`, for so many SECONDS. The member of place 2 answers
 * each that it is delivered with a cast of its own, and the next one is cast once that answer came: so nobody runs ahead. At the end each writes
 * one line,
 *
 *   delivered=N p50=T p99=T
 *
 * at place 1 with the answers and half of the times in microseconds from a cast to its answer, the median and that within which 99 of 100 are.
 * Then it stays until standard input ends. It ends with 1 where the daemon is gone, or something is still wanting 20 seconds after the last
 * cast. */
#define PROGRAM "pingpong"
#include "measure.h"

#include <poll.h>
#include <stdint.h>
#include <stdio.h>
#include <stdlib.h>
#include <string.h>
#include <time.h>
#include <unistd.h>

#define MOST_TIMES (1 << 21)

/* What each message begins with. */
struct head {
    uint16_t is_last;
    uint16_t place;
};

/* What is to be done: make the next cast, or answer one. And whether the last one came. */
static int wants, is_over;
static double sent;
static float times[MOST_TIMES];

void on_delivery(const void *message, size_t length) {
    struct head head;
    if (length < sizeof head) fail("a message without its head");
    memcpy(&head, message, sizeof head);
    if (head.is_last) is_over = 1;
    if (head.is_last || head.place == place || place > 2) return;
    if (place == 1 && delivered < MOST_TIMES) times[delivered] = (float)((now() - sent) / 2);
    delivered++;
    wants = 1;
}

/* Casts a message, unless there is no room for it. */
static void cast(int is_last) {
    static char message[MOST_SIZE];
    struct head head = {(uint16_t)is_last, (uint16_t)place};
    memcpy(message, &head, sizeof head);
    sent = now();
    wants = 0;
    enum group_result result = group_cast(message, is_last ? sizeof head : size);
    if (result == GROUP_FAILED) fail("a message could not be cast");
    if (result == GROUP_LATER) wants = 1;
}

static void join(const char *path, int is_total) {
    if (group_connect(path) == GROUP_FAILED) fail("there is no daemon");
    if (group_join(is_total) == GROUP_FAILED) fail("the group cannot be joined");
    wait_for_members();
    puts("ready");
    while (poll(&(struct pollfd){STDIN_FILENO, POLLIN, 0}, 1, 0) == 0) dispatch(1);
    if (getchar() == EOF) exit(0);
}

static void run(double seconds) {
    double end = now() + seconds * 1e6, patience = end + PATIENCE * 1e6;
    /* The member of place 2 may have been delivered the first cast before it was told to go on. */
    if (place == 1) wants = 1;
    while (!is_over) {
        if (now() > patience) fail("messages are wanting");
        if (wants) cast(place == 1 && now() >= end);
        dispatch(wants ? 0 : 50);
    }
}

int main(int count, char **words) {
    if (count != 7) fail("usage: pingpong PATH causal|total MEMBERS PLACE SIZE SECONDS");
    members = strtoul(words[3], NULL, 10);
    place = strtoul(words[4], NULL, 10);
    size = strtoul(words[5], NULL, 10);
    if (place == 0 || size < sizeof(struct head) || size > MOST_SIZE) fail("PLACE or SIZE is out of range");
    setvbuf(stdout, NULL, _IOLBF, 0);
    join(words[1], strcmp(words[2], "total") == 0);
    run(strtod(words[6], NULL));
    size_t kept = place == 1 ? delivered < MOST_TIMES ? delivered : MOST_TIMES : 0;
    qsort(times, kept, sizeof *times, by_size);
    printf("delivered=%zu p50=%.1f p99=%.1f\n", delivered, kept > 0 ? times[kept / 2] : 0, kept > 0 ? times[kept * 99 / 100] : 0);
    while (poll(&(struct pollfd){STDIN_FILENO, POLLIN, 0}, 1, 0) == 0) dispatch(10);
    return 0;
}
