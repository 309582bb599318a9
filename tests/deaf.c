/* Lets a program that is run with this library preloaded listen at one socket, and at no other. */
#define _GNU_SOURCE
#include <dlfcn.h>
#include <errno.h>

int listen(int socket, int backlog) {
    static int sockets;
    int (*behind)(int, int) = (int (*)(int, int))dlsym(RTLD_NEXT, "listen");
    if (sockets++ == 0) return behind(socket, backlog);
    errno = ENOBUFS;
    return -1;
}
