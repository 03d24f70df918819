/* Handles whose threads end or are cancelled, calls in a signal handler, and the child of a fork. */
#include "client.h"

#include <signal.h>
#include <sys/time.h>
#include <sys/wait.h>
#include <unistd.h>

enum { KEYS = 64, SLOTS = KEYS + 2 * 64 };

static uint64_t keys[KEYS];
static vbr_report report;

static void open_two(vbr_handle *two) {
    two[0] = two[1] = (vbr_handle){0};
    CHECK(vbr_open(two, 2, SLOTS, KEYS, VBR_MAX_EPOCH) == VBR_OK);
}

/* Closes both, and sees which keys are left. */
static void close_two(vbr_handle *two, const unsigned char *held) {
    uint32_t want = 0;
    CHECK(vbr_close(&two[0], keys, KEYS, &report) == VBR_NO && vbr_close(&two[1], keys, KEYS, &report) == VBR_YES);
    for (int i = 0; i < KEYS; i++)
        if (held[i]) CHECK(want < report.live && keys[want++] == (uint64_t)i);
    CHECK(report.live == want);
}

/* Inserts or removes the key of the number `turn`, and notes it. */
static void turn_of(vbr_handle *handle, unsigned char *held, long turn, int offset) {
    int i = (int)(turn * 2 % KEYS) + offset;
    if (held[i]) CHECK(vbr_remove(handle, (uint64_t)i) == VBR_YES);
    else CHECK(vbr_insert(handle, (uint64_t)i) == VBR_YES);
    held[i] = !held[i];
}

struct thread {
    vbr_handle two[2];
    unsigned char held[KEYS];
    atomic_long turns;
};

/* Opens two handles, and starts a thread, which has made no turn, and has the first. */
static pthread_t begin(struct thread *t, void *(*does)(void *)) {
    pthread_t id;
    *t = (struct thread){0};
    open_two(t->two);
    CHECK(!pthread_create(&id, NULL, does, t));
    return id;
}

static void *ends(void *of) {
    struct thread *t = of;
    for (long i = 0; i < 1001; i++) turn_of(&t->two[0], t->held, i, 0);
    return NULL;
}

/* A thread ends while its handle is open: who joined it goes on with the handle. */
static void ended_threads(void) {
    for (int again = 0; again < 50; again++) {
        static struct thread t;
        CHECK(!pthread_join(begin(&t, ends), NULL));
        for (long i = 0; i < 501; i++) turn_of(&t.two[0], t.held, i, 0);
        for (int i = 0; i < KEYS; i++) CHECK(vbr_has(&t.two[again % 2], (uint64_t)i) == (t.held[i] ? VBR_YES : VBR_NO));
        close_two(t.two, t.held);
    }
}

static void *is_cancelled(void *of) {
    struct thread *t = of;
    for (long i = 0; i < 1000000000; i++) {
        turn_of(&t->two[0], t->held, i, 0);
        atomic_store(&t->turns, i + 1);
        pthread_testcancel();
    }
    return NULL;
}

/* A thread is cancelled: not within a call, so its handle goes on with what it noted. */
static void cancelled_threads(void) {
    for (int again = 0; again < 50; again++) {
        static struct thread t;
        void *result = NULL;
        pthread_t id = begin(&t, is_cancelled);
        while (atomic_load(&t.turns) < 100) sched_yield();
        CHECK(!pthread_cancel(id) && !pthread_join(id, &result) && result == PTHREAD_CANCELED);
        for (long i = 0; i < 501; i++) turn_of(&t.two[0], t.held, i, 0);
        close_two(t.two, t.held);
    }
}

static vbr_handle *of_handler;
static unsigned char held_by_both[KEYS];
static volatile sig_atomic_t handled;

/* A walk in the handler gives its own keys, the odd ones. */
static void walk(void) {
    vbr_cursor cursor = VBR_CURSOR_BEGIN;
    uint64_t key = 0;
    vbr_answer told;
    int missing = 0;
    for (int i = 1; i < KEYS; i += 2) missing += held_by_both[i];
    while ((told = vbr_next(of_handler, &cursor, &key)) == VBR_YES)
        if (key % 2) CHECK(held_by_both[key] && missing-- > 0);
    CHECK(told == VBR_NO && missing == 0);
}

/* The handler has a handle and keys of its own: the odd ones. */
static void handle_signal(int number) {
    (void)number;
    for (int i = 0; i < 4; i++) turn_of(of_handler, held_by_both, handled * 4 + i, 1);
    walk();
    handled++;
}

/* Signals come in the middle of calls, and their handler makes calls. */
static void signals(void) {
    vbr_handle two[2];
    struct sigaction action = {0};
    struct itimerval often = {{0, 100}, {0, 100}}, never = {{0, 0}, {0, 0}};
    long turn = 0;
    open_two(two);
    of_handler = &two[1];
    action.sa_handler = handle_signal;
    action.sa_flags = SA_RESTART;
    CHECK(!sigaction(SIGALRM, &action, NULL) && !setitimer(ITIMER_REAL, &often, NULL));
    while (handled < 300) turn_of(&two[0], held_by_both, turn++, 0);
    CHECK(!setitimer(ITIMER_REAL, &never, NULL));
    action.sa_handler = SIG_IGN;
    CHECK(!sigaction(SIGALRM, &action, NULL));
    close_two(two, held_by_both);
}

/* A process with one thread forks: parent and child each go on with a set that the other doesn't see. */
static void forks(void) {
    unsigned char held[KEYS] = {0};
    vbr_handle two[2];
    int status = 1;
    open_two(two);
    for (long i = 0; i < 1001; i++) turn_of(&two[i % 2], held, i, 0);
    pid_t child = fork();
    CHECK(child >= 0);
    for (long i = 0; i < (child ? 333 : 777); i++) turn_of(&two[i % 2], held, i, child ? 0 : 1);
    close_two(two, held);
    if (!child) _exit(0);
    CHECK(waitpid(child, &status, 0) == child && status == 0);
}

int main(void) {
    forks();
    ended_threads();
    cancelled_threads();
    signals();
    puts("threads that end, signals and a fork in C: passed");
    return 0;
}
