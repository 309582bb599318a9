/* The line tool of castd.h.
 *
 *     castd-client SOCKET
 *
 * connects, and reads commands from standard input, one a line: `join G`, `leave G`, `cast G TEXT`, `abcast G TEXT`,
 * `pass G PROCESS`. It prints each push as one line, up to the end of the command: its Reply, and of a join the View
 * with the own process, or Denied. `wait SECONDS` prints what comes within that time. Then it prints what has come
 * already. At the end of the input or of the session it ends with 0, and with 1 where it cannot connect or go on.
 *
 *     castd-client --vectors
 *
 * reads lines as clients/vectors has them, and prints each but comments, with what it computes itself behind ` = `. */
#include "castd.h"

#include <errno.h>
#include <limits.h>
#include <stdio.h>
#include <stdlib.h>
#include <string.h>
#include <sys/types.h>
#include <time.h>

#define USAGE "usage: castd-client SOCKET\n       castd-client --vectors\n"

/* A part of a line. It may have any bytes. */
struct text {
    const char *at;
    size_t length;
};

static bool is_text(struct text text, const char *other) {
    return text.length == strlen(other) && memcmp(text.at, other, text.length) == 0;
}

/* Takes what stands before the first `separator`, or all, off the front of a text, and the separator too. */
static struct text take_until(struct text *text, char separator) {
    const char *found = text->length > 0 ? memchr(text->at, separator, text->length) : NULL;
    struct text front = {text->at, found == NULL ? text->length : (size_t)(found - text->at)};
    size_t taken = front.length + (found != NULL);
    text->at += taken;
    text->length -= taken;
    return front;
}

static bool is_digit(char byte) { return byte >= '0' && byte <= '9'; }

/* Reads a number without sign or leading zeros. Whether it is one, and at most `most`. */
static bool read_number(struct text text, uint32_t most, uint32_t *number) {
    uint64_t value = 0;
    for (size_t i = 0; i < text.length; i++) {
        if (!is_digit(text.at[i])) return false;
        value = 10 * value + (uint64_t)(text.at[i] - '0');
        if (value > most) return false;
    }
    *number = (uint32_t)value;
    return text.length > 0 && (text.at[0] != '0' || text.length == 1);
}

/* As read_number, where 0 is out of range. */
static bool read_name(struct text text, uint32_t most, uint32_t *number) {
    return read_number(text, most, number) && *number > 0;
}

static bool read_group(struct text text, uint16_t *group) {
    uint32_t number;
    bool is_group = read_name(text, UINT16_MAX, &number);
    if (is_group) *group = (uint16_t)number;
    return is_group;
}

static bool read_process(struct text text, struct castd_process *process) {
    struct text site = take_until(&text, '.');
    return read_group(site, &process->site) && read_name(text, UINT32_MAX, &process->serial);
}

/* Reads the command of a line. Its payload stays in the line. */
static bool read_command(struct text line, struct castd_command *command) {
    struct text word = take_until(&line, ' '), group = take_until(&line, ' ');
    memset(command, 0, sizeof *command);
    if (!read_group(group, &command->group)) return false;
    if (is_text(word, "join") || is_text(word, "leave")) {
        command->type = is_text(word, "join") ? CASTD_JOIN : CASTD_LEAVE;
        return line.at == group.at + group.length;
    }
    if (is_text(word, "pass")) {
        command->type = CASTD_PASS;
        return read_process(line, &command->to);
    }
    command->type = CASTD_CAST;
    command->kind = is_text(word, "abcast") ? CASTD_ATOMIC : CASTD_CAUSAL;
    command->payload = line.at;
    command->length = line.length;
    return (is_text(word, "cast") || is_text(word, "abcast")) && line.length <= CASTD_MOST_PAYLOAD;
}

/* Reads decimal seconds, such as `0.5`, as milliseconds. */
static bool read_seconds(struct text text, int *milliseconds) {
    char digits[32], *end;
    if (text.length == 0 || text.length >= sizeof digits) return false;
    memcpy(digits, text.at, text.length);
    digits[text.length] = 0;
    if (strspn(digits, "0123456789.") != text.length) return false;
    double seconds = strtod(digits, &end);
    if (end != digits + text.length || seconds > INT_MAX / 1000) return false;
    *milliseconds = (int)(1000 * seconds);
    return true;
}

static void print_process(const char *before, struct castd_process process) {
    printf("%s%u.%u", before, process.site, process.serial);
}

static void print_payload(const struct castd_push *push) {
    if (push->length > 0) putchar(' ');
    for (size_t i = 0; i < push->length; i++) {
        uint8_t byte = push->payload[i];
        if (byte < 32 || byte == 127 || byte == '\\') printf("\\x%02x", byte);
        else putchar(byte);
    }
}

static void print_code(int code) {
    printf(" %d", code);
    if (code != CASTD_DONE) printf(" %s", castd_code_name(code));
}

static void print_view(const struct castd_push *view) {
    printf("view %u %u", view->group, view->view);
    if (view->member_count > 0) print_process(" holder ", view->holder);
    printf(" members");
    for (size_t i = 0; i < view->member_count; i++) print_process(" ", view->members[i]);
}

static void print_push(const struct castd_push *push) {
    switch (push->type) {
    case CASTD_OPENED: print_process("opened ", push->process); break;
    case CASTD_REPLY:
        printf("reply %u", push->tag);
        print_code(push->code);
        break;
    case CASTD_VIEW: print_view(push); break;
    case CASTD_DELIVER:
        printf("deliver %u/%u/", push->group, push->view);
        print_process("", push->process);
        printf("/%u %s", push->count, push->kind == CASTD_ATOMIC ? "atomic" : "causal");
        print_payload(push);
        break;
    case CASTD_EJECTED: printf("ejected %u %u", push->group, push->view); break;
    case CASTD_DENIED:
        printf("denied %u", push->group);
        print_code(push->code);
        break;
    case CASTD_CLOSED:
        printf("closed");
        print_code(push->code);
        break;
    }
    putchar('\n');
    fflush(stdout);
}

static void complain(struct text line) {
    fprintf(stderr, "unknown: ");
    fwrite(line.at, 1, line.length, stderr);
    fputc('\n', stderr);
}

/* Why a session cannot begin or go on. */
static const char *reason_of(int result) {
    switch (result) {
    case CASTD_ENDED: return "the daemon closed the stream";
    case CASTD_BAD_BYTES: return "the daemon sent what is no push";
    case CASTD_FAILED: return strerror(errno);
    default: return castd_code_name(result);
    }
}

static int64_t now(void) {
    struct timespec time;
    clock_gettime(CLOCK_MONOTONIC, &time);
    return time.tv_sec * 1000LL + time.tv_nsec / 1000000;
}

/* Prints what comes within that time. 0, or why no more comes. */
static int show_for(struct castd *session, int milliseconds) {
    struct castd_push push;
    int64_t end = now() + milliseconds, left = milliseconds;
    for (;; left = end - now()) {
        int result = castd_read(session, &push, left > 0 ? (int)left : 0);
        if (result != 0) return result == CASTD_NONE ? 0 : result;
        print_push(&push);
    }
}

static bool ends_join(const struct castd_push *push, uint16_t group, struct castd_process own) {
    bool is_end = push->type == CASTD_DENIED;
    for (size_t i = 0; i < push->member_count; i++) {
        if (push->members[i].site == own.site && push->members[i].serial == own.serial) is_end = true;
    }
    return is_end && push->group == group;
}

/* Sends a command and prints what comes up to its end. 0, or why no more comes. */
static int run(struct castd *session, const struct castd_command *command) {
    struct castd_push push;
    uint32_t tag;
    bool is_joining = false;
    int result = castd_send(session, command, &tag);
    while (result == 0 && (result = castd_read(session, &push, -1)) == 0) {
        print_push(&push);
        if (is_joining && ends_join(&push, command->group, session->process)) break;
        if (push.type != CASTD_REPLY || push.tag != tag) continue;
        is_joining = command->type == CASTD_JOIN && push.code == CASTD_DONE;
        if (!is_joining) break;
    }
    return result;
}

/* Does what a line says, and prints what has come then. 0, or why no more comes. */
static int take_line(struct castd *session, struct text line) {
    struct castd_command command;
    struct text rest = line, word = take_until(&rest, ' ');
    int milliseconds, result = 0;
    if (read_command(line, &command)) result = run(session, &command);
    else if (is_text(word, "wait") && read_seconds(rest, &milliseconds)) result = show_for(session, milliseconds);
    else if (line.length > 0) complain(line);
    return result == 0 ? show_for(session, 0) : result;
}

/* The next line of standard input, without its end. False where there is none. */
static bool read_line(struct text *line) {
    static char *bytes;
    static size_t room;
    ssize_t length = getline(&bytes, &room, stdin);
    if (length < 0) {
        free(bytes);
        return false;
    }
    *line = (struct text){bytes, (size_t)length - (bytes[length - 1] == '\n')};
    return true;
}

/* Serves standard input in a session. The exit status. */
static int serve(const char *path) {
    struct castd session;
    struct text line;
    int result = castd_connect(&session, path, -1);
    if (result != 0) {
        fprintf(stderr, "castd-client: %s: %s\n", path, reason_of(result));
        return 1;
    }
    result = show_for(&session, 0);
    while (result == 0 && read_line(&line)) result = take_line(&session, line);
    if (result == 0) result = show_for(&session, 0);
    bool is_fault = result != 0 && result != CASTD_ENDED;
    if (is_fault) fprintf(stderr, "castd-client: %s\n", reason_of(result));
    castd_close(&session);
    return is_fault;
}

/* Prints the frame of a tag and a command, such as `1 join 2`. Whether the line has these. */
static bool print_frame(struct text line) {
    struct castd_command command;
    uint32_t tag;
    if (!read_number(take_until(&line, ' '), UINT32_MAX, &tag) || !read_command(line, &command)) return false;
    uint8_t frame[CASTD_MOST_COMMAND];
    size_t length = castd_encode(&command, tag, frame);
    for (size_t i = 0; i < length; i++) printf("%02x", frame[i]);
    putchar('\n');
    return true;
}

static int digit_of(char byte) {
    const char *digits = "0123456789abcdef", *found = strchr(digits, byte);
    return byte == 0 || found == NULL ? -1 : (int)(found - digits);
}

/* Reads bytes in hexadecimal, with spaces between them. How many they are, -1 where they are none. */
static ptrdiff_t read_hex(struct text text, uint8_t *bytes) {
    ptrdiff_t length = 0;
    for (size_t i = 0; i < text.length; i++) {
        if (text.at[i] == ' ') continue;
        int high = digit_of(text.at[i]), low = i + 1 < text.length ? digit_of(text.at[i + 1]) : -1;
        if (high < 0 || low < 0) return -1;
        bytes[length++] = (uint8_t)(high << 4 | low);
        i++;
    }
    return length;
}

/* Prints the push that these bytes begin with. Whether the text has bytes. */
static bool print_pushed(struct text text) {
    struct castd_push push;
    uint8_t *bytes = malloc(text.length / 2 + 1);
    ptrdiff_t length = bytes == NULL ? -1 : read_hex(text, bytes);
    if (length >= 0) {
        int taken = castd_decode(bytes, (size_t)length, &push);
        if (taken > 0) print_push(&push);
        else puts(taken == 0 ? "more" : "fault");
    }
    free(bytes);
    return length >= 0;
}

/* Prints each line of standard input that is a vector, with what it computes. The exit status. */
static int compute(void) {
    struct text line;
    int status = 0;
    while (read_line(&line)) {
        const char *equals = strstr(line.at, " = ");
        if (line.length == 0 || line.at[0] == '#') continue;
        if (equals != NULL) line.length = (size_t)(equals - line.at);
        fwrite(line.at, 1, line.length, stdout);
        printf(" = ");
        struct text word = take_until(&line, ' ');
        if (is_text(word, "command") && print_frame(line)) continue;
        if (is_text(word, "push") && print_pushed(line)) continue;
        puts("unknown");
        status = 1;
    }
    return status;
}

int main(int count, char **words) {
    if (count == 2 && strcmp(words[1], "--help") == 0) {
        printf("%s", USAGE);
        return 0;
    }
    if (count != 2) {
        fprintf(stderr, "%s", USAGE);
        return 2;
    }
    return strcmp(words[1], "--vectors") == 0 ? compute() : serve(words[1]);
}
