/* One member of a group under load: what bench/serve and tools/soak measure with. It stands over group.h.
 *
 *   load PATH ORDER MEMBERS SENDERS PLACE SIZE IN_FLIGHT SECONDS [each]
 *
 * connects by the socket PATH and joins, unless MEMBERS is 0. Once the view has so many MEMBERS it says `ready` and waits for a line of standard
 * input. Then the members of the places 1 to SENDERS cast messages of SIZE bytes, ordered as ORDER says, `causal` or `total`: as many as keep so
 * many IN_FLIGHT, which are those that were not yet delivered to their sender, for so many SECONDS. With `each` a member says once a second how
 * many messages came in it (`came N`). Once all has come that was cast it writes one line,
 *
 *   delivered=N rate=N p50=T p99=T
 *
 * with the messages a second, until the last or for SECONDS if that is longer, and the times in microseconds from the cast to the delivery here,
 * the median and that within which 99 of 100 are. All members run on one machine, so one clock serves all. Then it stays until standard input
 * ends. It ends with 1 where the daemon is gone, or something is still wanting 20 seconds after the last cast. */
#define PROGRAM "load"
#include "measure.h"

#include <poll.h>
#include <stdint.h>
#include <stdio.h>
#include <stdlib.h>
#include <string.h>
#include <time.h>
#include <unistd.h>

#define MOST_PLACES 65
#define MOST_TIMES (1 << 22)
/* At most so many casts are made before what has come is taken. */
#define BURST 32

/* What each message begins with. The last of a sender says how many were before it. */
struct head {
    uint16_t is_last;
    uint16_t place;
    uint32_t number;
    double sent;
};

static size_t senders, in_flight, ended;
static double seconds;
static int is_each;

static uint32_t sent, come[MOST_PLACES];
static double begun, last;
static float times[MOST_TIMES];

void on_delivery(const void *message, size_t length) {
    struct head head;
    if (length < sizeof head) fail("a message without its head");
    memcpy(&head, message, sizeof head);
    if (head.place == 0 || head.place >= MOST_PLACES) fail("a message of no member");
    if (head.is_last) {
        if (come[head.place] != head.number) fail("a message was not delivered, or twice");
        ended++;
        return;
    }
    last = now();
    if (delivered < MOST_TIMES) times[delivered] = (float)(last - head.sent);
    delivered++;
    come[head.place]++;
}

/* Casts a message, unless there is no room for it. */
static int cast(uint16_t is_last) {
    static char message[MOST_SIZE];
    struct head head = {is_last, (uint16_t)place, sent, now()};
    memcpy(message, &head, sizeof head);
    enum group_result result = group_cast(message, is_last ? sizeof head : size);
    if (result == GROUP_FAILED) fail("a message could not be cast");
    return result == GROUP_DONE;
}

/* Whether there is something on standard input, or its end. */
static int is_told(void) {
    struct pollfd ready = {STDIN_FILENO, POLLIN, 0};
    return poll(&ready, 1, 0) > 0;
}

static void join(const char *path, int is_total) {
    if (group_connect(path) == GROUP_FAILED) fail("there is no daemon");
    if (members > 0 && group_join(is_total) == GROUP_FAILED) fail("the group cannot be joined");
    wait_for_members();
    puts("ready");
    while (!is_told()) dispatch(members > 0 ? 1 : 1000);
    if (getchar() == EOF) exit(0);
}

/* Makes the casts that may be made now. Whether there was no room for one that might. */
static int cast_more(void) {
    for (int turn = 0; turn < BURST && sent - come[place] < in_flight; turn++) {
        if (!cast(0)) return 1;
        sent++;
    }
    return 0;
}

/* Says how many came in each second that has gone by. */
static void say_each(void) {
    static size_t said, before;
    while (now() - begun >= (said + 1) * 1e6) {
        said++;
        printf("came %zu\n", delivered - before);
        before = delivered;
    }
}

static void run(void) {
    begun = now();
    double end = begun + seconds * 1e6, patience = end + PATIENCE * 1e6;
    int is_sending = place <= senders;
    while (ended < senders) {
        double time = now();
        int is_late = 0;
        if (time > patience) fail("messages are wanting");
        if (is_sending && time >= end && sent == come[place]) is_sending = !cast(1);
        else if (is_sending && time < end) is_late = cast_more();
        int may_cast = is_sending && time < end && sent - come[place] < in_flight;
        dispatch(is_late ? 1 : may_cast ? 0 : 50);
        if (is_each && time < end) say_each();
    }
}

static void report(void) {
    size_t count = delivered < MOST_TIMES ? delivered : MOST_TIMES;
    qsort(times, count, sizeof *times, by_size);
    double taken = last - begun > seconds * 1e6 ? last - begun : seconds * 1e6;
    double median = count > 0 ? times[count / 2] : 0, most = count > 0 ? times[count * 99 / 100] : 0;
    printf("delivered=%zu rate=%.0f p50=%.1f p99=%.1f\n", delivered, delivered * 1e6 / taken, median, most);
}

int main(int count, char **words) {
    if (count < 9 || count > 10) fail("usage: load PATH causal|total MEMBERS SENDERS PLACE SIZE IN_FLIGHT SECONDS [each]");
    members = strtoul(words[3], NULL, 10);
    senders = strtoul(words[4], NULL, 10);
    place = strtoul(words[5], NULL, 10);
    size = strtoul(words[6], NULL, 10);
    in_flight = strtoul(words[7], NULL, 10);
    seconds = strtod(words[8], NULL);
    is_each = count == 10;
    if (place == 0 || place >= MOST_PLACES || size < sizeof(struct head) || size > MOST_SIZE) fail("PLACE or SIZE is out of range");
    setvbuf(stdout, NULL, _IOLBF, 0);
    join(words[1], strcmp(words[2], "total") == 0);
    run();
    report();
    while (poll(&(struct pollfd){STDIN_FILENO, POLLIN, 0}, 1, 0) == 0) dispatch(10);
    return 0;
}
