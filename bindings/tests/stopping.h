/* Threads that are stopped in the middle of calls, from time to time, by a signal: for soak.c and realtime.c, which say how often and
   for how long. */
#ifndef STOPPING_H
#define STOPPING_H

#include "client.h"

#include <errno.h>
#include <signal.h>

static _Alignas(128) atomic_int working; /* threads that haven't done */
static atomic_int pause_us;              /* how long a thread that is stopped stands still */
static long stops;                       /* how often one was stopped */

/* Stops the thread where it is, often in the middle of a call. */
static void stand_still(int signal_number) {
    (void)signal_number;
    int kept = errno;
    struct timespec time = {0, atomic_load(&pause_us) * 1000L};
    nanosleep(&time, NULL);
    errno = kept;
}

/* Whether the signal stops a thread from now on. */
static int can_stop(void) {
    struct sigaction action = {0};
    action.sa_handler = stand_still;
    return sigaction(SIGUSR1, &action, NULL) == 0;
}

/* Until all of so many threads have done, stops one of them every `least` nanoseconds or up to `more` later, for as many microseconds
   as `pause_of` makes of a random number. */
static void stop_threads(uint64_t *random, const pthread_t *threads, int count, long least, long more, int (*pause_of)(uint32_t)) {
    while (atomic_load(&working) > 0) {
        uint64_t x = next(random);
        struct timespec time = {0, least + (long)(x % (uint64_t)more)};
        nanosleep(&time, NULL);
        if (atomic_load(&working) < count) continue;
        atomic_store(&pause_us, pause_of((uint32_t)(x >> 32)));
        pthread_kill(threads[(x >> 40) % (uint64_t)count], SIGUSR1);
        stops++;
    }
}

#endif
