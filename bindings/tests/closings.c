/* Threads that close, drop or end their own handles at the same time: each gives its pass back, and the last one that closes gets
   what the calls of all leave. The calls are made by pointers to them, as a table of calls has them.

       closings [ROUNDS [FAULT]]

   With FAULT 1 a thread makes a call by a handle that it doesn't own: a program that is wrong, for ThreadSanitizer to find. */
#include "client.h"

enum { THREADS = 4, KEYS = 8 * THREADS, SLOTS = KEYS + 64 * THREADS };

/* Its members are named as the calls are. */
static const struct {
    vbr_answer (*vbr_insert)(vbr_handle *handle, uint64_t key);
    vbr_answer (*vbr_insert_within)(vbr_handle *handle, uint64_t key, uint32_t steps);
    vbr_answer (*vbr_close)(vbr_handle *handle, uint64_t *keys, size_t room, vbr_report *report);
    void (*vbr_drop)(vbr_handle *handle);
    void (*vbr_end_all)(vbr_handle *handles, size_t count);
} calls = {vbr_insert, vbr_insert_within, vbr_close, vbr_drop, vbr_end_all};

static struct worker {
    pthread_t thread;
    vbr_handle handle, *other;
    int number, drops;
    vbr_answer closed;
    vbr_report report;
    uint64_t keys[SLOTS];
} workers[THREADS];
static atomic_int ready, turn;
static int fault;

/* Waits until a number has come so far. It orders nothing. */
static void await(atomic_int *number, int wanted) {
    for (int turns = 0; atomic_load_explicit(number, memory_order_relaxed) < wanted; turns++)
        if (turns % 64 == 63) sched_yield();
}

static void tell(atomic_int *number) { atomic_fetch_add_explicit(number, 1, memory_order_relaxed); }

static void *work(void *of) {
    struct worker *w = of;
    for (int i = 0; i < KEYS / THREADS; i++) CHECK(calls.vbr_insert(&w->handle, (uint64_t)(w->number + i * THREADS)) == VBR_YES);
    if (fault && w->number == 0) { /* one after the other, and not ordered */
        tell(&turn);
        await(&turn, 2);
    } else if (fault && w->number == 1) {
        await(&turn, 1);
        CHECK(calls.vbr_insert_within(w->other, 0, 1000) == VBR_NO);
        tell(&turn);
    }
    tell(&ready);
    await(&ready, THREADS);
    if (w->drops && w->number % 2) calls.vbr_drop(&w->handle);
    else if (w->drops) calls.vbr_end_all(&w->handle, 1);
    else w->closed = calls.vbr_close(&w->handle, w->keys, SLOTS, &w->report);
    return NULL;
}

/* A set from its opening to its end. How many of the threads close; whether the last of all was one of them. */
static int play(long round) {
    vbr_handle handles[THREADS] = {{0}};
    int told = 0;
    CHECK(vbr_open(handles, THREADS, SLOTS, KEYS, VBR_MAX_EPOCH) == VBR_OK);
    atomic_store(&ready, 0);
    atomic_store(&turn, 0);
    for (int i = 0; i < THREADS; i++) workers[i] = (struct worker){.handle = handles[i], .number = i, .drops = round >> i & 1, .closed = VBR_NO};
    workers[1].other = &workers[0].handle;
    for (int i = 0; i < THREADS; i++) CHECK(!pthread_create(&workers[i].thread, NULL, work, &workers[i]));
    for (int i = 0; i < THREADS; i++) CHECK(!pthread_join(workers[i].thread, NULL));
    for (int i = 0; i < THREADS; i++) {
        CHECK(!workers[i].handle.owned && (workers[i].closed == VBR_NO || workers[i].closed == VBR_YES));
        if (workers[i].closed != VBR_YES) continue;
        told++;
        CHECK(workers[i].report.live == KEYS);
        for (uint64_t key = 0; key < KEYS; key++) CHECK(workers[i].keys[key] == key);
    }
    CHECK(told <= 1 && (told == 1 || round % (1 << THREADS)));
    return told;
}

int main(int count, char **words) {
    long rounds = count > 1 ? atol(words[1]) : 500, told = 0;
    if (count > 2) fault = atoi(words[2]);
    for (long round = 0; round < rounds; round++) told += play(round);
    CHECK(told > 0);
    printf("handles in C that are closed and dropped at the same time: passed, %ld sets, %ld of them told a report\n", rounds, told);
    return 0;
}
