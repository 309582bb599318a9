/* A client of castd: see castd.h. `in` has the frames that came: `kept` bytes for castd_read, then what is not whole.
 * `out` has those of all commands without a final answer. While a call waits, its `answer` is CASTD_NONE. */
#include "castd.h"

#include <errno.h>
#include <poll.h>
#include <stdlib.h>
#include <string.h>
#include <sys/socket.h>
#include <sys/un.h>
#include <time.h>
#include <unistd.h>

enum { TYPE = 4, HEAD = 5, COMMAND = 17, MOST_FRAME = 20000, CHUNK = 16384, AGAIN = 20 /* ms */ };

const char *castd_code_name(int code) {
    static const char *const names[] = {
        "Done", "BadFrame", "NotOpen", "TooManySessions", "NoGroup", "NotMember", "AlreadyMember", "Flushing",
        "OwnAbcast", "HeldFull", "TooLong", "NotHolder", "Slow", "Halted", "GroupFull", "OutOfRange"};
    return code >= CASTD_DONE && code <= CASTD_OUT_OF_RANGE ? names[code] : "Unknown";
}

/* Writes a number of so many bytes, and returns the place behind it. */
static uint8_t *put(uint8_t *at, uint32_t value, size_t width) {
    for (size_t i = width; i-- > 0; value >>= 8) at[i] = (uint8_t)value;
    return at + width;
}

size_t castd_encode(const struct castd_command *command, uint32_t tag, uint8_t *frame) {
    uint8_t *at = put(put(put(frame + TYPE, command->type, 1), tag, 4), command->group, 2);
    if (command->type == CASTD_PASS) at = put(put(at, command->to.site, 2), command->to.serial, 4);
    if (command->type == CASTD_CAST) at = put(at, command->kind, 1);
    if (command->length > 0) at = (uint8_t *)memcpy(at, command->payload, command->length) + command->length;
    put(frame, (uint32_t)(at - frame), 4);
    return (size_t)(at - frame);
}

struct fields { const uint8_t *at, *end; bool is_fault; }; /* What was not read yet of a frame. */

/* The next number, of so many bytes. Where it is missing or out of range, 0 and a fault. */
static uint32_t take(struct fields *fields, size_t width, uint32_t least, uint32_t most) {
    uint32_t value = 0;
    if ((size_t)(fields->end - fields->at) < width) fields->is_fault = true;
    for (size_t i = 0; i < width && !fields->is_fault; i++) value = value << 8 | *fields->at++;
    if (value < least || value > most) fields->is_fault = true;
    return fields->is_fault ? 0 : value;
}

static struct castd_process take_process(struct fields *fields) {
    uint16_t site = (uint16_t)take(fields, 2, 1, UINT16_MAX);
    return (struct castd_process){site, take(fields, 4, 1, UINT32_MAX)};
}
static uint64_t rank_of(struct castd_process process) { return (uint64_t)process.site << 32 | process.serial; }

static void take_members(struct fields *fields, struct castd_push *push) {
    push->member_count = take(fields, 1, 0, CASTD_MOST_MEMBERS);
    for (size_t i = 0; i < push->member_count; i++) {
        push->members[i] = take_process(fields);
        if (i > 0 && rank_of(push->members[i - 1]) >= rank_of(push->members[i])) fields->is_fault = true;
    }
    if (push->member_count > 0) push->holder = push->members[take(fields, 1, 0, (uint32_t)push->member_count - 1)];
}

int castd_decode(const uint8_t *bytes, size_t length, struct castd_push *push) {
    if (length < TYPE) return 0;
    struct fields fields = {bytes, bytes + TYPE, false};
    size_t whole = take(&fields, TYPE, HEAD, MOST_FRAME);
    if (length < whole) return 0;
    fields.end = bytes + whole;
    memset(push, 0, offsetof(struct castd_push, members));
    enum castd_push_type type = push->type = (enum castd_push_type)take(&fields, 1, CASTD_OPENED, CASTD_CLOSED);
    if (type >= CASTD_VIEW && type <= CASTD_DENIED) push->group = (uint16_t)take(&fields, 2, 1, UINT16_MAX);
    if (type >= CASTD_VIEW && type <= CASTD_EJECTED) push->view = take(&fields, 4, 1, UINT32_MAX);
    if (type == CASTD_OPENED || type == CASTD_DELIVER) push->process = take_process(&fields);
    if (type == CASTD_REPLY) push->tag = take(&fields, 4, 0, UINT32_MAX);
    bool is_refusal = type == CASTD_DENIED || type == CASTD_CLOSED;
    if (type == CASTD_REPLY || is_refusal) push->code = (int)take(&fields, 1, is_refusal, CASTD_OUT_OF_RANGE);
    if (type == CASTD_VIEW) take_members(&fields, push);
    if (type == CASTD_DELIVER) push->count = take(&fields, 4, 1, UINT32_MAX);
    if (type == CASTD_DELIVER) push->kind = (enum castd_kind)take(&fields, 1, CASTD_CAUSAL, CASTD_ATOMIC);
    push->payload = fields.at;
    push->length = (size_t)(fields.end - fields.at);
    bool is_good = !fields.is_fault && push->length <= (type == CASTD_DELIVER ? CASTD_MOST_PAYLOAD : 0);
    return is_good ? (int)whole : CASTD_BAD_BYTES;
}

/* The moment so many milliseconds from now, in microseconds. Where they are negative, it never comes. */
static int64_t moment_in(int milliseconds) {
    struct timespec time;
    clock_gettime(CLOCK_MONOTONIC, &time);
    return milliseconds < 0 ? INT64_MAX : time.tv_sec * 1000000LL + time.tv_nsec / 1000 + milliseconds * 1000LL;
}

/* The milliseconds until then, rounded up; -1 for ever. */
static int left_until(int64_t moment) {
    int64_t left = moment - moment_in(0);
    return moment == INT64_MAX ? -1 : left > 0 ? (int)((left + 999) / 1000) : 0;
}

/* Makes room for so many bytes more. Gives room back, but leaves as much free as is used, so that bytes seldom move. */
static int make_room(struct castd_bytes *bytes, size_t more) {
    size_t used = bytes->to - bytes->from, room = 2 * (used + more);
    if (bytes->to + more <= bytes->room && bytes->room <= 4 * room) return 0;
    uint8_t *at = malloc(room);
    if (at == NULL) return CASTD_FAILED;
    if (used > 0) memcpy(at, bytes->at + bytes->from, used);
    free(bytes->at);
    *bytes = (struct castd_bytes){at, 0, used, room};
    return 0;
}

/* Makes the next command, if there is one, the first. */
static void go_on(struct castd *session) {
    session->out.from += session->first.length;
    struct fields fields = {session->out.at + session->out.from, session->out.at + session->out.to, false};
    uint32_t length = take(&fields, 4, 0, UINT32_MAX), type = take(&fields, 1, 0, UINT8_MAX);
    session->first = (struct castd_first){.length = length, .type = type, .tag = take(&fields, 4, 0, UINT32_MAX)};
}

/* Sends the first command if it is time, as far as there is room. A broken stream ends behind what has come. */
static int send_first(struct castd *session) {
    struct castd_first *first = &session->first;
    while (session->over == 0 && first->sent < first->length && left_until(first->again) == 0) {
        const uint8_t *rest = session->out.at + session->out.from + first->sent;
        ssize_t sent = send(session->socket, rest, first->length - first->sent, MSG_DONTWAIT | MSG_NOSIGNAL);
        if (sent > 0) first->sent += (size_t)sent;
        else if (errno == EAGAIN) return 0;
        else if (errno == EPIPE || errno == ECONNRESET) return shutdown(session->socket, SHUT_RDWR) ? CASTD_FAILED : 0;
        else if (errno != EINTR) return CASTD_FAILED;
    }
    return 0;
}

/* Takes the answer to the first command. Whether castd_read gives it. */
static bool take_reply(struct castd *session, const struct castd_push *reply) {
    struct castd_first *first = &session->first;
    if (first->length == 0 || first->sent < first->length || first->tag != reply->tag) session->over = CASTD_BAD_BYTES;
    if (session->over != 0) return false;
    bool is_of_call = session->answer == CASTD_NONE && session->out.from + first->length == session->out.to;
    bool is_left = first->is_left, is_for_now = reply->code >= CASTD_FLUSHING && reply->code <= CASTD_HELD_FULL;
    if (is_for_now && first->type >= CASTD_CAST && !is_left) {
        *first = (struct castd_first){first->length, 0, first->type, first->tag, moment_in(AGAIN), reply->code, false};
        return false;
    }
    if (is_of_call && (first->type != CASTD_JOIN || reply->code != 0)) session->answer = reply->code;
    go_on(session);
    return !is_of_call && !is_left;
}

/* Takes what a push says to the client itself. Whether castd_read gives it. */
static bool heed(struct castd *session, const struct castd_push *push) {
    uint64_t own = rank_of(session->process);
    bool is_own_abcast = push->kind == CASTD_ATOMIC && rank_of(push->process) == own;
    bool ends_join = push->type == CASTD_DENIED, has_join = session->answer == CASTD_NONE && session->first.length == 0;
    for (size_t i = 0; i < push->member_count; i++) ends_join |= rank_of(push->members[i]) == own;
    if (has_join && ends_join && push->group == session->joining) session->answer = push->code;
    if (push->type == CASTD_VIEW || push->type == CASTD_EJECTED || is_own_abcast) session->first.again = 0;
    if (push->type == CASTD_OPENED) session->process = push->process;
    if (push->type == CASTD_CLOSED) session->closed = push->code;
    if (session->closed != 0) session->over = CASTD_ENDED;
    return push->type != CASTD_REPLY || take_reply(session, push);
}

/* Waits until something comes or may be sent, and takes and sends it. CASTD_LATE where it is `end` then. */
static int step(struct castd *session, int64_t end) {
    struct castd_bytes *in = &session->in;
    struct castd_push push;
    if (session->over != 0) return session->over;
    if (make_room(in, CHUNK) != 0) return CASTD_FAILED;
    bool is_unsent = session->first.sent < session->first.length, has_turn = left_until(session->first.again) == 0;
    struct pollfd ready = {session->socket, is_unsent && has_turn ? POLLIN | POLLOUT : POLLIN, 0};
    int64_t until = is_unsent && !has_turn && session->first.again < end ? session->first.again : end;
    if (poll(&ready, 1, left_until(until)) < 0 && errno != EINTR) return CASTD_FAILED;
    ssize_t came = recv(session->socket, in->at + in->to, in->room - in->to, MSG_DONTWAIT);
    if (came > 0) in->to += (size_t)came;
    else if (came == 0 || errno == ECONNRESET) session->over = CASTD_ENDED;
    else if (errno != EAGAIN && errno != EINTR) return CASTD_FAILED;
    while (session->over == 0) {
        uint8_t *frame = in->at + in->from + session->kept;
        int length = castd_decode(frame, (size_t)(in->at + in->to - frame), &push);
        if (length == 0) break;
        bool is_in_turn = push.type == CASTD_CLOSED || (push.type == CASTD_OPENED) == (session->process.site == 0);
        if (length < 0 || !is_in_turn) session->over = CASTD_BAD_BYTES;
        else if (heed(session, &push)) session->kept += (size_t)length;
        else {
            in->to -= (size_t)length;
            memmove(frame, frame + length, (size_t)(in->at + in->to - frame));
        }
    }
    int result = send_first(session);
    return result == 0 && left_until(end) == 0 ? CASTD_LATE : result;
}

int castd_connect(struct castd *session, const char *path, int milliseconds) {
    int64_t end = moment_in(milliseconds);
    struct sockaddr_un address = {.sun_family = AF_UNIX};
    *session = (struct castd){.socket = socket(AF_UNIX, SOCK_STREAM | SOCK_CLOEXEC | SOCK_NONBLOCK, 0)};
    int result = session->socket < 0 ? CASTD_FAILED : 0;
    if (strlen(path) < sizeof address.sun_path) strcpy(address.sun_path, path);
    else result = CASTD_FAILED, errno = ENAMETOOLONG;
    while (result == 0 && connect(session->socket, (struct sockaddr *)&address, sizeof address) != 0) {
        if (errno != EAGAIN && errno != EINTR) result = CASTD_FAILED;
        else if (left_until(end) == 0) result = CASTD_LATE;
        else poll(NULL, 0, AGAIN);
    }
    while (result == 0 && session->process.site == 0) result = step(session, end);
    if (session->process.site != 0) return 0;
    int error = errno;
    castd_close(session);
    errno = error;
    return session->closed != 0 ? session->closed : result;
}

void castd_close(struct castd *session) {
    if (session->socket >= 0) close(session->socket);
    free(session->in.at);
    free(session->out.at);
    *session = (struct castd){-1, session->process, false, session->closed, .over = CASTD_ENDED};
}

int castd_send(struct castd *session, const struct castd_command *command, uint32_t *tag) {
    session->may_be_done = false;
    bool is_to_none = command->type == CASTD_PASS && (command->to.site == 0 || command->to.serial == 0);
    if (command->group == 0 || is_to_none) return CASTD_OUT_OF_RANGE;
    if (command->length > CASTD_MOST_PAYLOAD) return CASTD_TOO_LONG;
    if (session->over != 0) return session->over;
    if (make_room(&session->out, COMMAND + command->length) != 0) return CASTD_FAILED;
    session->last = castd_encode(command, ++session->tag, session->out.at + session->out.to);
    session->out.to += session->last;
    if (tag != NULL) *tag = session->tag;
    if (session->first.length == 0) go_on(session);
    send_first(session); /* Where the system refuses, the next call tries again and says so. */
    return 0;
}

/* Sends a command and waits for its answer; at a join, for what that comes to. */
static int call(struct castd *session, const struct castd_command *command, int milliseconds) {
    int64_t end = moment_in(milliseconds);
    int result = castd_send(session, command, NULL);
    if (result != 0) return result;
    for (session->answer = CASTD_NONE; session->answer < 0 && result == 0;) result = step(session, end);
    if (session->answer >= 0) return session->answer;
    session->answer = 0;
    bool is_first = session->out.from + session->first.length == session->out.to;
    session->may_be_done = is_first && (session->first.length == 0 || session->first.sent > 0);
    session->first.is_left |= session->may_be_done;
    if (session->may_be_done) return result;
    int refused = is_first ? session->first.refused : 0;
    if (is_first) go_on(session);
    else session->out.to -= session->last;
    return result == CASTD_LATE && refused != 0 ? refused : result;
}

int castd_join(struct castd *session, uint16_t group, int milliseconds) {
    session->joining = group;
    return call(session, &(struct castd_command){.type = CASTD_JOIN, .group = group}, milliseconds);
}
int castd_leave(struct castd *session, uint16_t group, int milliseconds) {
    return call(session, &(struct castd_command){.type = CASTD_LEAVE, .group = group}, milliseconds);
}
int castd_cast(struct castd *session, uint16_t group, const void *payload, size_t length, int milliseconds) {
    return call(session, &(struct castd_command){CASTD_CAST, group, CASTD_CAUSAL, payload, length, {0}}, milliseconds);
}
int castd_abcast(struct castd *session, uint16_t group, const void *payload, size_t length, int milliseconds) {
    return call(session, &(struct castd_command){CASTD_CAST, group, CASTD_ATOMIC, payload, length, {0}}, milliseconds);
}
int castd_pass(struct castd *session, uint16_t group, struct castd_process to, int milliseconds) {
    return call(session, &(struct castd_command){.type = CASTD_PASS, .group = group, .to = to}, milliseconds);
}

int castd_read(struct castd *session, struct castd_push *push, int milliseconds) {
    int64_t end = moment_in(milliseconds);
    session->may_be_done = false;
    int result = send_first(session);
    while (session->kept == 0 && result == 0) result = step(session, end);
    if (session->kept == 0) return result == CASTD_LATE ? CASTD_NONE : result;
    size_t length = (size_t)castd_decode(session->in.at + session->in.from, session->kept, push);
    session->in.from += length;
    session->kept -= length;
    return 0;
}

int castd_wait(const struct castd *session) {
    if (session->kept > 0 || session->over != 0) return 0;
    return session->first.sent == session->first.length ? -1 : left_until(session->first.again) + 1;
}
