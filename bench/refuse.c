/* Refuses memory, for a program that is run with this library preloaded: of its requests since the signal SIGUSR1 that of the number
 * REFUSE_REQUEST, from 1 on. Each further SIGUSR1 counts anew, and the number is one more. At SIGUSR2 it writes how many requests there were
 * since then to the file REFUSE_COUNT, in 8 bytes. What is granted comes from the library behind this one. Where REFUSE_EACH is given, each
 * of so many requests is refused instead, from SIGUSR1 to SIGUSR2. */
#define _GNU_SOURCE
#include <dlfcn.h>
#include <errno.h>
#include <fcntl.h>
#include <signal.h>
#include <stdatomic.h>
#include <stddef.h>
#include <stdint.h>
#include <stdlib.h>
#include <unistd.h>

static _Atomic int counts;
static _Atomic uint64_t requests, refused;
static uint64_t each;
static int file = -1;

static void start(int number) {
    (void)number;
    requests = 0;
    if (counts) refused++;
    counts = 1;
}

static void report(int number) {
    uint64_t found = requests;
    (void)number;
    if (each) counts = 0;
    else if (pwrite(file, &found, sizeof found, 0) < 0) _exit(1);
}

__attribute__((constructor)) static void begin(void) {
    const char *request = getenv("REFUSE_REQUEST"), *of = getenv("REFUSE_EACH"), *path = getenv("REFUSE_COUNT");
    struct sigaction at_start = {.sa_handler = start, .sa_flags = SA_RESTART}, at_report = {.sa_handler = report, .sa_flags = SA_RESTART};
    refused = request ? strtoull(request, NULL, 10) : 0;
    each = of ? strtoull(of, NULL, 10) : 0;
    if (path) file = open(path, O_WRONLY | O_CREAT | O_CLOEXEC, 0600);
    sigaction(SIGUSR1, &at_start, NULL);
    sigaction(SIGUSR2, &at_report, NULL);
}

static int is_refused(void) {
    if (!counts) return 0;
    uint64_t request = atomic_fetch_add(&requests, 1) + 1;
    if (each ? request % each : request != refused) return 0;
    errno = ENOMEM;
    return 1;
}

typedef void *grant(size_t);
typedef void *grant_two(size_t, size_t);
typedef void *grant_again(void *, size_t);
typedef int grant_aligned(void **, size_t, size_t);

/* The function of this name in the library behind this one. */
static void *behind(void *_Atomic *found, const char *name) {
    if (*found == NULL) *found = dlsym(RTLD_NEXT, name);
    return *found;
}

void *malloc(size_t size) {
    static void *_Atomic found;
    return is_refused() ? NULL : ((grant *)behind(&found, "malloc"))(size);
}

void *calloc(size_t count, size_t size) {
    static void *_Atomic found;
    return is_refused() ? NULL : ((grant_two *)behind(&found, "calloc"))(count, size);
}

void *realloc(void *block, size_t size) {
    static void *_Atomic found;
    return is_refused() ? NULL : ((grant_again *)behind(&found, "realloc"))(block, size);
}

void *aligned_alloc(size_t alignment, size_t size) {
    static void *_Atomic found;
    return is_refused() ? NULL : ((grant_two *)behind(&found, "aligned_alloc"))(alignment, size);
}

int posix_memalign(void **block, size_t alignment, size_t size) {
    static void *_Atomic found;
    return is_refused() ? ENOMEM : ((grant_aligned *)behind(&found, "posix_memalign"))(block, alignment, size);
}
