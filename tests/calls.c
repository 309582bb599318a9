/* Makes calls of castd.h, and prints what each comes to.
 *
 *   calls PATH MILLISECONDS
 *
 * connects, and reads lines `WORD MILLISECONDS NUMBER TEXT` from standard input. The number is a group, or what
 * `do_line` has. A text such as `100*` is so many bytes that are 0. A call that is late before its time, or ends long
 * after it, says so. The program is linked so that the client calls the malloc of this file. */
#include "castd.h"

#include <errno.h>
#include <poll.h>
#include <signal.h>
#include <stdio.h>
#include <stdlib.h>
#include <string.h>
#include <sys/socket.h>
#include <sys/time.h>
#include <time.h>

/* In milliseconds: how long after its time a call may end, and what is read may come. */
#define PATIENCE 30000

static struct castd session;
static int is_starved;
static long long begun;

void *__real_malloc(size_t length);
void *__wrap_malloc(size_t length);

void *__wrap_malloc(size_t length) {
    if (!is_starved) return __real_malloc(length);
    errno = ENOMEM;
    return NULL;
}

static long long now(void) {
    struct timespec time;
    clock_gettime(CLOCK_MONOTONIC, &time);
    return time.tv_sec * 1000000LL + time.tv_nsec / 1000;
}

/* Prints what a call of so many milliseconds came to. */
static void tell(int result, int milliseconds) {
    const char *failures[] = {"none", "late", "ended", "bad bytes", "failed"};
    long long taken = now() - begun, most = 1000LL * milliseconds;
    printf("%s", result == 0 ? "done" : result > 0 ? castd_code_name(result) : failures[-1 - result]);
    if (result == CASTD_FAILED) printf(": %s", strerror(errno));
    if (result == CASTD_ENDED && session.closed != 0) printf(" with %d", session.closed);
    if (result != CASTD_DONE && session.may_be_done) printf(", may be done");
    if ((result == CASTD_NONE || result == CASTD_LATE) && taken < most) printf(", too soon");
    if (milliseconds >= 0 && taken > most + 1000LL * PATIENCE) printf(", too late");
    printf("\n");
}

static void tell_push(const struct castd_push *push) {
    switch (push->type) {
    case CASTD_OPENED: printf("opened %u.%u\n", push->process.site, push->process.serial); break;
    case CASTD_REPLY: printf("reply %u %d\n", push->tag, push->code); break;
    case CASTD_VIEW: printf("view %u %u of %zu\n", push->group, push->view, push->member_count); break;
    case CASTD_DELIVER: printf("deliver %u %.*s\n", push->group, (int)push->length, (const char *)push->payload); break;
    case CASTD_EJECTED: printf("ejected %u %u\n", push->group, push->view); break;
    case CASTD_DENIED: printf("denied %u %d\n", push->group, push->code); break;
    case CASTD_CLOSED: printf("closed %d\n", push->code); break;
    }
}

static void tell_read(int milliseconds) {
    struct castd_push push;
    int result = castd_read(&session, &push, milliseconds);
    if (result == CASTD_DONE) tell_push(&push);
    else tell(result, milliseconds);
}

/* Reads up to a view of so many members. */
static void read_members(size_t members) {
    struct castd_push push = {.type = CASTD_OPENED};
    int result = 0;
    while (result == 0 && push.member_count != members) result = castd_read(&session, &push, PATIENCE);
    tell(result, PATIENCE);
}

/* Reads until so many messages were delivered, and prints them. */
static void read_messages(size_t messages) {
    struct castd_push push;
    int result = 0;
    while (messages > 0 && (result = castd_read(&session, &push, PATIENCE)) == 0) {
        if (push.type != CASTD_DELIVER) continue;
        tell_push(&push);
        messages--;
    }
    if (result != 0) tell(result, PATIENCE);
}

static void tell_wait(void) {
    int wait = castd_wait(&session);
    if (wait <= 0) printf("wait %d\n", wait);
    else printf(wait <= 21 ? "wait a little\n" : "wait too long\n");
}

static void tell_room(void) { printf(session.in.room < 100000 ? "little room\n" : "much room\n"); }

static void on_alarm(int number) { (void)number; }

/* Has a signal come every so many milliseconds, which ends system calls. */
static void alarm_every(int milliseconds) {
    struct sigaction action = {.sa_handler = on_alarm};
    struct timeval time = {0, 1000 * milliseconds};
    struct itimerval timer = {time, time};
    sigaction(SIGALRM, &action, NULL);
    setitimer(ITIMER_REAL, &timer, NULL);
}

/* Lets the socket take as little as it can be brought to. */
static void narrow(void) {
    int room = 1;
    setsockopt(session.socket, SOL_SOCKET, SO_SNDBUF, &room, sizeof room);
}

static void send_cast(unsigned group, const char *text, size_t length) {
    struct castd_command command = {CASTD_CAST, (uint16_t)group, CASTD_ATOMIC, text, length, {0, 0}};
    uint32_t tag = 0;
    int result = castd_send(&session, &command, &tag);
    if (result == CASTD_DONE) printf("tag %u\n", tag);
    else tell(result, 0);
}

static void do_line(const char *word, int milliseconds, unsigned number, const char *text, size_t length) {
    uint16_t group = (uint16_t)number;
    const char *serial = strchr(text, '.') == NULL ? text : strchr(text, '.') + 1;
    struct castd_process process = {(uint16_t)atoi(text), (uint32_t)strtoul(serial, NULL, 10)};
    if (strcmp(word, "join") == 0) tell(castd_join(&session, group, milliseconds), milliseconds);
    else if (strcmp(word, "leave") == 0) tell(castd_leave(&session, group, milliseconds), milliseconds);
    else if (strcmp(word, "cast") == 0) tell(castd_cast(&session, group, text, length, milliseconds), milliseconds);
    else if (strcmp(word, "abcast") == 0) tell(castd_abcast(&session, group, text, length, milliseconds), milliseconds);
    else if (strcmp(word, "pass") == 0) tell(castd_pass(&session, group, process, milliseconds), milliseconds);
    else if (strcmp(word, "send") == 0) send_cast(group, text, length);
    else if (strcmp(word, "read") == 0) tell_read(milliseconds);
    else if (strcmp(word, "members") == 0) read_members(number);
    else if (strcmp(word, "messages") == 0) read_messages(number);
    else if (strcmp(word, "wait") == 0) tell_wait();
    else if (strcmp(word, "room") == 0) tell_room();
    else if (strcmp(word, "pause") == 0) poll(NULL, 0, milliseconds);
    else if (strcmp(word, "alarm") == 0) alarm_every(milliseconds);
    else if (strcmp(word, "starve") == 0) is_starved = number != 0;
    else if (strcmp(word, "narrow") == 0) narrow();
    else if (strcmp(word, "close") == 0) castd_close(&session);
    else printf("unknown: %s\n", word);
}

int main(int count, char **words) {
    static char line[65536], word[16], text[65536];
    setvbuf(stdout, NULL, _IOLBF, 0);
    if (count != 3) return 2;
    begun = now();
    tell(castd_connect(&session, words[1], atoi(words[2])), atoi(words[2]));
    while (fgets(line, sizeof line, stdin) != NULL) {
        int milliseconds = 0;
        unsigned number = 0;
        text[0] = 0;
        sscanf(line, "%15s %d %u %65535[^\n]", word, &milliseconds, &number, text);
        size_t length = strlen(text);
        if (length > 0 && text[length - 1] == '*') {
            length = (size_t)atoi(text);
            memset(text, 0, length);
        }
        begun = now();
        do_line(word, milliseconds, number, text, length);
    }
    castd_close(&session);
    return 0;
}
