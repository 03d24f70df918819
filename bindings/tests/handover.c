/* Handles that go round among four threads, by a release and an acquire and nothing else. Each handle has keys of its own,
   so each answer is known, by what the threads before noted in plain memory that goes along.

       handover [ROUNDS [FAULT]]

   With FAULT 1 the hand-over is relaxed, with 2 a handle is given on before its last call, with 3 before it is asked for
   the number of slots, and with 4 before it walks: programs that are wrong, for ThreadSanitizer to find. */
#include "client.h"

#include <string.h>

enum { THREADS = 4, HANDLES = 4, KEYS = 16, SLOTS = HANDLES * (KEYS + 64) };

struct baton {
    vbr_handle handle;
    atomic_int turn; /* whose turn it is; what is above belongs to that thread */
    unsigned char held[KEYS];
    uint64_t random;
    long calls;
    char padding[64];
};

static struct baton batons[HANDLES];
static long rounds = 2000;
static int fault;

static void call(struct baton *b, int id) {
    next(&b->random);
    unsigned number = (unsigned)(b->random >> 32) % KEYS, kind = (unsigned)(b->random >> 40) % 3;
    uint64_t key = number * (uint64_t)HANDLES + (uint64_t)id;
    int there = b->held[number];
    if (kind == 0) CHECK(vbr_has(&b->handle, key) == (there ? VBR_YES : VBR_NO));
    if (kind == 1) CHECK(vbr_insert(&b->handle, key) == (there ? VBR_NO : VBR_YES));
    if (kind == 2) CHECK(vbr_remove(&b->handle, key) == (there ? VBR_YES : VBR_NO));
    if (kind > 0) b->held[number] = kind == 1;
    b->calls++;
}

static int walks(vbr_handle *handle) {
    vbr_cursor cursor = VBR_CURSOR_BEGIN;
    uint64_t key = 0;
    return vbr_next_within(handle, &cursor, &key, 8) == VBR_YES;
}

static void *work(void *of) {
    int id = *(int *)of, next = (id + 1) % THREADS;
    for (long round = 0; round < rounds; round++)
        for (int h = 0; h < HANDLES; h++) {
            struct baton *b = &batons[h];
            memory_order acquires = fault == 1 ? memory_order_relaxed : memory_order_acquire;
            memory_order releases = fault == 1 ? memory_order_relaxed : memory_order_release;
            for (int turns = 0; atomic_load_explicit(&b->turn, acquires) != id; turns++)
                if (turns % 64 == 63) sched_yield();
            call(b, h);
            atomic_store_explicit(&b->turn, next, releases);
            if (fault == 2 && !vbr_has_within(&b->handle, 0, 8)) sched_yield();
            if (fault == 3 && !vbr_slots(&b->handle)) sched_yield();
            if (fault == 4 && !walks(&b->handle)) sched_yield();
        }
    return NULL;
}

int main(int count, char **words) {
    vbr_handle handles[HANDLES] = {{0}};
    int ids[THREADS];
    vbr_report report = {0};
    uint64_t keys[HANDLES * KEYS] = {0};
    uint32_t want = 0;
    if (count > 1) rounds = atol(words[1]);
    if (count > 2) fault = atoi(words[2]);
    CHECK(vbr_open(handles, HANDLES, SLOTS, HANDLES * KEYS, VBR_MAX_EPOCH) == VBR_OK);
    for (int h = 0; h < HANDLES; h++) {
        batons[h].handle = handles[h]; /* moved: the old place is not used again */
        batons[h].random = 88172645463325252u + (uint64_t)h;
        atomic_init(&batons[h].turn, 0);
    }
    for (int i = 0; i < THREADS; i++) ids[i] = i;
    run_threads(THREADS, work, ids, sizeof *ids);
    for (int h = 0; h < HANDLES; h++) {
        CHECK(batons[h].calls == THREADS * rounds);
        for (int i = 0; i < KEYS; i++) want += batons[h].held[i];
        CHECK(vbr_close(&batons[h].handle, keys, HANDLES * KEYS, &report) == (h == HANDLES - 1 ? VBR_YES : VBR_NO));
    }
    CHECK(report.live == want);
    for (uint32_t i = 0; i < want; i++) CHECK(batons[keys[i] % HANDLES].held[keys[i] / HANDLES]);
    printf("handles handed over in C: passed, %ld times each\n", THREADS * rounds);
    return 0;
}
