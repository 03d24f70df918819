/* To be preloaded into a program: refuses its thread number REFUSE, counted from 1. Each other thread sleeps for half a
   second before it begins, and doesn't begin if the program has come to its end by then. A program that ends by exit or _exit leaves
   in the file that THREADS names how many threads were started, and how many of them have begun and ended; it waits for the last few
   instructions of those that have begun, and for a minute at most if they go on. */
#define _GNU_SOURCE
#include <dlfcn.h>
#include <errno.h>
#include <pthread.h>
#include <stdatomic.h>
#include <stdio.h>
#include <stdlib.h>
#include <sys/syscall.h>
#include <time.h>
#include <unistd.h>

struct work {
    void *(*run)(void *);
    void *given;
};

static atomic_long asked, started, begun, ended;
static atomic_int is_over;

static void pause_for(long milliseconds) {
    struct timespec time = {0, milliseconds * 1000000};
    nanosleep(&time, NULL);
}

static void *begin(void *argument) {
    struct work work = *(struct work *)argument;
    free(argument);
    pause_for(500);
    atomic_fetch_add(&begun, 1);
    if (atomic_load(&is_over)) {
        atomic_fetch_sub(&begun, 1);
        for (;;) pause();
    }
    void *result = work.run(work.given);
    atomic_fetch_add(&ended, 1);
    return result;
}

int pthread_create(pthread_t *thread, const pthread_attr_t *attributes, void *(*run)(void *), void *given) {
    int (*create)(pthread_t *, const pthread_attr_t *, void *(*)(void *), void *);
    *(void **)&create = dlsym(RTLD_NEXT, "pthread_create");
    const char *refused = getenv("REFUSE");
    long n = atomic_fetch_add(&asked, 1) + 1;
    if (!create || (refused && n == strtol(refused, NULL, 10))) return EAGAIN;
    struct work *work = malloc(sizeof *work);
    if (!work) return EAGAIN;
    *work = (struct work){run, given};
    int fault = create(thread, attributes, begin, work);
    if (fault) free(work);
    else atomic_fetch_add(&started, 1);
    return fault;
}

__attribute__((destructor)) static void end(void) {
    atomic_store(&is_over, 1);
    for (int i = 0; i < 6000 && atomic_load(&ended) < atomic_load(&begun); i++) pause_for(10);
    const char *name = getenv("THREADS");
    FILE *file = name ? fopen(name, "w") : NULL;
    if (!file) return;
    fprintf(file, "%ld started, %ld ended\n", atomic_load(&started), atomic_load(&ended));
    fclose(file);
}

/* A program that has threads ends so, past the destructors. */
void _exit(int status) {
    end();
    for (;;) syscall(SYS_exit_group, status);
}
