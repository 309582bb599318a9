/* What load.c and pingpong.c share, each of which is one member of a group: how it fails, what time it is, what it hears of the group. PROGRAM is
 * its name. */
#ifndef MEASURE_H
#define MEASURE_H

#include "group.h"

#include <stdio.h>
#include <stdlib.h>
#include <time.h>

#define MOST_SIZE 16384
#define PATIENCE 20.0

static size_t members, place, size, viewed, delivered;

static void fail(const char *what) {
    fprintf(stderr, PROGRAM ": %s\n", what);
    exit(1);
}

/* In microseconds. */
static double now(void) {
    struct timespec time;
    clock_gettime(CLOCK_MONOTONIC, &time);
    return time.tv_sec * 1e6 + time.tv_nsec / 1e3;
}

void on_view(size_t count) { viewed = count; }

static void dispatch(int milliseconds) {
    if (group_dispatch(milliseconds) == GROUP_FAILED) fail("the daemon is gone");
}

/* Waits until the view has all members. */
static void wait_for_members(void) {
    double end = now() + PATIENCE * 1e6;
    while (viewed < members) {
        dispatch(100);
        if (now() > end) fail("the members did not come");
    }
}

static int by_size(const void *a, const void *b) {
    float x = *(const float *)a, y = *(const float *)b;
    return (x > y) - (x < y);
}

#endif
