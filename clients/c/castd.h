/* A client of castd, the group communication daemon, for programs in C11 and C++.
 *
 * A session is one connection to the socket of a domain: one process of it. Its commands stand in one queue, in the
 * order of the calls. Only the first is at the daemon, until it has its final answer; a cast or a pass that is refused
 * for now (7, 8 or 9) is sent again. A cast that was answered 0 is delivered to its sender, unless that leaves, is
 * ejected or ends first. One that failed was not cast, unless `may_be_done` is set, and may be cast again.
 *
 * Calls return 0 for done, the code of a refusal (1 to 15), or a `castd_failure`. Milliseconds count from the call on;
 * negative, they are for ever. One thread at a time may use a session. Different sessions are independent.
 * An event loop waits until `socket` is readable, but only as long as castd_wait says, which it asks anew after each
 * call. Then it calls castd_read with 0 until that gives CASTD_NONE. */
#ifndef CASTD_H
#define CASTD_H

#include <stdbool.h>
#include <stddef.h>
#include <stdint.h>

#ifdef __cplusplus
extern "C" {
#endif

enum { CASTD_MOST_PAYLOAD = 16384, CASTD_MOST_COMMAND = CASTD_MOST_PAYLOAD + 12, CASTD_MOST_MEMBERS = 64 };
enum castd_code { CASTD_DONE, CASTD_BAD_FRAME, CASTD_NOT_OPEN, CASTD_TOO_MANY_SESSIONS, CASTD_NO_GROUP,
                  CASTD_NOT_MEMBER, CASTD_ALREADY_MEMBER, CASTD_FLUSHING, CASTD_OWN_ABCAST, CASTD_HELD_FULL,
                  CASTD_TOO_LONG, CASTD_NOT_HOLDER, CASTD_SLOW, CASTD_HALTED, CASTD_GROUP_FULL, CASTD_OUT_OF_RANGE };
enum castd_failure {
    CASTD_NONE = -1,      /* castd_read alone: no push came in time. */
    CASTD_LATE = -2,      /* The time is over. */
    CASTD_ENDED = -3,     /* The session is over: Closed came, whose code is in `closed`, or the stream ended. */
    CASTD_BAD_BYTES = -4, /* The session is over: what came is no push, or no Reply to the command at the daemon. */
    CASTD_FAILED = -5     /* The system refused, see errno. The session goes on, and no push is lost. */
};
enum castd_command_type { CASTD_JOIN = 1, CASTD_LEAVE, CASTD_CAST, CASTD_PASS };
enum castd_push_type { CASTD_OPENED = 65, CASTD_REPLY, CASTD_VIEW, CASTD_DELIVER, CASTD_EJECTED, CASTD_DENIED,
                       CASTD_CLOSED };
enum castd_kind { CASTD_CAUSAL = 1, CASTD_ATOMIC = 2 };
struct castd_process { uint16_t site; uint32_t serial; }; /* Neither is 0. */

struct castd_command {
    enum castd_command_type type;
    uint16_t group;          /* Not 0. */
    enum castd_kind kind;    /* Cast. */
    const void *payload;     /* Cast: `length` bytes. */
    size_t length;           /* Cast: at most CASTD_MOST_PAYLOAD. Else 0. */
    struct castd_process to; /* Pass: who is to hold the token. */
};

struct castd_push {
    enum castd_push_type type;
    uint16_t group;               /* View, Deliver, Ejected, Denied. */
    uint32_t view;                /* View, Deliver, Ejected. */
    struct castd_process process; /* Opened: the own. Deliver: the sender. */
    uint32_t tag;                 /* Reply: that of its command. */
    int code;                     /* Reply, Denied, Closed. */
    uint32_t count;               /* Deliver: the number of the message among its sender's of this view. */
    enum castd_kind kind;         /* Deliver. */
    const uint8_t *payload;       /* Deliver: `length` bytes, which stay until the next call of the session. */
    size_t length, member_count;  /* Deliver: of the payload. View: 0 to 64. */
    struct castd_process holder;  /* View: who holds the token at first; 0.0 where there are no members. */
    struct castd_process members[CASTD_MOST_MEMBERS]; /* View: rising by site, then serial. */
};

struct castd {
    int socket;
    struct castd_process process; /* The own. */
    bool may_be_done;             /* Of the last call, if it failed: whether its command may be done, now or later. */
    int closed;                   /* The code of Closed, or 0. */
    int over, answer;             /* From here on the client's own. */
    uint32_t tag, joining;
    size_t kept, last;
    struct castd_bytes { uint8_t *at; size_t from, to, room; } in, out;
    struct castd_first { size_t length, sent; uint32_t type, tag; int64_t again; int refused; bool is_left; } first;
};

const char *castd_code_name(int code); /* As "NotMember"; "Unknown" of what is no code. */

/* Connects to the socket of a domain, and waits for Opened, which castd_read gives too. Where Closed comes instead,
 * CASTD_TOO_MANY_SESSIONS or CASTD_HALTED. After a failure nothing is left to close. The socket is closed on exec. */
int castd_connect(struct castd *session, const char *path, int milliseconds);
void castd_close(struct castd *session); /* What is not at the daemon is not done. May be called again. */

/* Puts a command, with a copy of its payload, at the end of the queue, and does not wait. Only calls move the queue on.
 * castd_read gives its Reply, with the tag to which `tag` is set, unless it is NULL. CASTD_TOO_LONG, CASTD_OUT_OF_RANGE
 * (a 0), CASTD_ENDED, CASTD_BAD_BYTES, CASTD_FAILED (no memory): then the command is not in the queue. */
int castd_send(struct castd *session, const struct castd_command *command, uint32_t *tag);

/* Put a command at the end of the queue and wait for its Reply, which castd_read does not give; what else comes is kept
 * for it. They fail as castd_send does, with the code of the Reply, and without a final answer with CASTD_LATE or the
 * code of the last refusal for now, with CASTD_ENDED, CASTD_BAD_BYTES or CASTD_FAILED. What is at the daemon then may
 * be done; what is not has left the queue. castd_join waits on, for the View that begins the membership, or for Denied,
 * whose code it returns; castd_read gives both. */
int castd_join(struct castd *session, uint16_t group, int milliseconds);
int castd_leave(struct castd *session, uint16_t group, int milliseconds);
int castd_cast(struct castd *session, uint16_t group, const void *payload, size_t length, int milliseconds);
int castd_abcast(struct castd *session, uint16_t group, const void *payload, size_t length, int milliseconds);
int castd_pass(struct castd *session, uint16_t group, struct castd_process to, int milliseconds);

/* The next push. CASTD_NONE, CASTD_ENDED, CASTD_BAD_BYTES, CASTD_FAILED. */
int castd_read(struct castd *session, struct castd_push *push, int milliseconds);

/* The milliseconds that an event loop may wait: 0 where castd_read has something to say at once, -1 for ever. */
int castd_wait(const struct castd *session);

/* The first writes the frame of a command, at most CASTD_MOST_COMMAND bytes. The second reads the push at the front of
 * these bytes, where its payload stays. They return the length of the frame; the second 0 where it is not whole, and
 * CASTD_BAD_BYTES where it is no push. */
size_t castd_encode(const struct castd_command *command, uint32_t tag, uint8_t *frame);
int castd_decode(const uint8_t *bytes, size_t length, struct castd_push *push);

#ifdef __cplusplus
}
#endif
#endif
