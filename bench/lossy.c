/* Loses datagrams, for a program that is run with this library preloaded: of those that it sends over the internet's protocols, by send, sendto
 * or sendmsg, LOSSY_PERCENT in a hundred. The file LOSSY_COUNT has how many it lost, in 8 bytes. */
#define _GNU_SOURCE
#include <dlfcn.h>
#include <fcntl.h>
#include <stdatomic.h>
#include <stdint.h>
#include <stdlib.h>
#include <sys/mman.h>
#include <sys/socket.h>
#include <unistd.h>

static ssize_t (*next_send)(int, const void *, size_t, int);
static ssize_t (*next_sendto)(int, const void *, size_t, int, const struct sockaddr *, socklen_t);
static ssize_t (*next_sendmsg)(int, const struct msghdr *, int);
static double share;
static _Atomic uint64_t state = 1, unseen;
static _Atomic uint64_t *lost = &unseen;

__attribute__((constructor)) static void begin(void) {
    const char *percent = getenv("LOSSY_PERCENT"), *path = getenv("LOSSY_COUNT");
    next_send = dlsym(RTLD_NEXT, "send");
    next_sendto = dlsym(RTLD_NEXT, "sendto");
    next_sendmsg = dlsym(RTLD_NEXT, "sendmsg");
    share = percent ? strtod(percent, NULL) / 100 : 0;
    int fd = path ? open(path, O_RDWR | O_CREAT | O_CLOEXEC, 0600) : -1;
    if (fd < 0) return;
    if (ftruncate(fd, sizeof unseen) == 0) {
        void *shared = mmap(NULL, sizeof unseen, PROT_READ | PROT_WRITE, MAP_SHARED, fd, 0);
        if (shared != MAP_FAILED) lost = shared;
    }
    close(fd);
}

/* The next number of a fixed row that looks like chance (splitmix64). */
static uint64_t chance(void) {
    uint64_t x = atomic_fetch_add(&state, 0x9e3779b97f4a7c15u);
    x = (x ^ (x >> 30)) * 0xbf58476d1ce4e5b9u;
    x = (x ^ (x >> 27)) * 0x94d049bb133111ebu;
    return x ^ (x >> 31);
}

static int is_lost(int fd) {
    if ((double)(chance() >> 11) >= share * 9007199254740992.0) return 0;
    int type = 0, family = 0;
    socklen_t length = sizeof type;
    if (getsockopt(fd, SOL_SOCKET, SO_TYPE, &type, &length) != 0 || type != SOCK_DGRAM) return 0;
    length = sizeof family;
    if (getsockopt(fd, SOL_SOCKET, SO_DOMAIN, &family, &length) != 0 || (family != AF_INET && family != AF_INET6)) return 0;
    atomic_fetch_add(lost, 1);
    return 1;
}

ssize_t send(int fd, const void *bytes, size_t length, int flags) {
    return is_lost(fd) ? (ssize_t)length : next_send(fd, bytes, length, flags);
}

ssize_t sendto(int fd, const void *bytes, size_t length, int flags, const struct sockaddr *to, socklen_t to_length) {
    return is_lost(fd) ? (ssize_t)length : next_sendto(fd, bytes, length, flags, to, to_length);
}

ssize_t sendmsg(int fd, const struct msghdr *message, int flags) {
    if (!is_lost(fd)) return next_sendmsg(fd, message, flags);
    size_t length = 0;
    for (size_t i = 0; i < message->msg_iovlen; i++) length += message->msg_iov[i].iov_len;
    return (ssize_t)length;
}
