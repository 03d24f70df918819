/* What clients that are tests have in common: a check, random numbers, the time, and threads. Those that are examples of programs stand by
   themselves. It is included before all else. */
#ifndef CLIENT_H
#define CLIENT_H
#if !defined(_GNU_SOURCE) && !defined(_XOPEN_SOURCE)
#define _XOPEN_SOURCE 700
#endif
#include "vbr.h"

#include <pthread.h>
#include <sched.h>
#include <stdatomic.h>
#include <stdio.h>
#include <stdlib.h>
#include <time.h>

#define CHECK(x) do { if (!(x)) { fprintf(stderr, "%s:%d: FAILED: %s\n", __FILE__, __LINE__, #x); exit(1); } } while (0)

/* The next number of a sequence, which begins with any but 0. */
static inline uint64_t next(uint64_t *random) {
    *random ^= *random << 13;
    *random ^= *random >> 7;
    *random ^= *random << 17;
    return *random;
}

/* The time in nanoseconds, and in seconds. */
static inline uint64_t nanoseconds(void) {
    struct timespec time;
    CHECK(clock_gettime(CLOCK_MONOTONIC, &time) == 0);
    return (uint64_t)time.tv_sec * 1000000000u + (uint64_t)time.tv_nsec;
}

static inline double now(void) { return (double)nanoseconds() / 1e9; }

/* Runs so many threads, up to 64, until each has ended; each works with an item of its own, of an array of items of this size. */
static inline void run_threads(int count, void *(*work)(void *), void *items, size_t size) {
    pthread_t threads[64];
    for (int i = 0; i < count; i++) CHECK(!pthread_create(&threads[i], NULL, work, (char *)items + (size_t)i * size));
    for (int i = 0; i < count; i++) CHECK(!pthread_join(threads[i], NULL));
}

#endif
