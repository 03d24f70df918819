/* Records beside the set: a record is written before its key is inserted, and read by who finds the key, or is given it by a
   walk. The records are plain memory, and nothing but the set orders the threads.

       published [ROUNDS [FAULT]]

   First two threads write records and insert their keys. Two others read them: one looks each key up until it is there, and one
   walks until it is given all. Then four threads take records by removing their keys, change them, and give them back by inserting the keys: each
   record is one thread's at a time, and no change is lost. With FAULT 1 a reader doesn't look up, with 2 it reads what
   it found absent, with 3 a record is changed once more after its insert, and with 4 both readers walk by one cursor: programs
   that are wrong, for ThreadSanitizer to find. */
#include "vbr.h"

#include <pthread.h>
#include <sched.h>
#include <stdatomic.h>
#include <stdio.h>
#include <stdlib.h>

#define CHECK(x) do { if (!(x)) { fprintf(stderr, "published.c:%d: %s\n", __LINE__, #x); exit(1); } } while (0)

enum { THREADS = 4, RECORDS = 4096, SLOTS = RECORDS + 64 * THREADS };

struct record {
    uint64_t value, changes;
};

struct worker {
    vbr_handle handle;
    int id;
    uint64_t random, changed;
};

static struct record records[RECORDS];
static struct worker workers[THREADS];
static long rounds = 100000;
static int fault;
static atomic_int read_early;

static void publish(struct worker *w) {
    for (uint64_t i = (uint64_t)w->id; i < RECORDS; i += 2) {
        records[i].value = 3 * i + 1;
        CHECK(vbr_insert(&w->handle, i) == VBR_YES);
        if (fault == 3) records[i].value = 3 * i + 1;
    }
}

static void look_up_and_read(struct worker *w) {
    for (uint64_t i = 0; i < RECORDS; i++) {
        vbr_answer there;
        while ((there = vbr_has(&w->handle, i)) == VBR_NO) sched_yield();
        CHECK(there == VBR_YES && records[i].value == 3 * i + 1);
    }
}

static void walk_and_read(struct worker *w) {
    for (int given = 0; given < RECORDS; sched_yield()) {
        vbr_cursor cursor = VBR_CURSOR_BEGIN;
        uint64_t key = 0;
        vbr_answer told;
        for (given = 0; (told = vbr_next(&w->handle, &cursor, &key)) == VBR_YES; given++) CHECK(records[key].value == 3 * key + 1);
        CHECK(told == VBR_NO);
    }
}

/* What nobody should do either: the cursor is another thread's too. */
static void walk_together(struct worker *w) {
    static vbr_cursor shared = VBR_CURSOR_BEGIN;
    uint64_t key = 0;
    for (int i = 0; i < RECORDS; i++) w->changed += vbr_next(&w->handle, &shared, &key) == VBR_YES;
}

/* What nobody should do: it reads a record that isn't published yet, and only then lets the others begin. */
static void read_too_early(struct worker *w) {
    if (fault == 2) CHECK(vbr_has(&w->handle, RECORDS - 1) == VBR_NO);
    w->changed += records[RECORDS - 1].value;
    atomic_fetch_add_explicit(&read_early, 1, memory_order_relaxed);
}

static void *publish_and_read(void *of) {
    struct worker *w = of;
    int is_early = fault == 1 || fault == 2;
    if (w->id < 2) {
        while (is_early && atomic_load_explicit(&read_early, memory_order_relaxed) < 2) sched_yield();
        publish(w);
    } else if (is_early) {
        read_too_early(w);
    } else if (fault == 4) {
        walk_together(w);
    } else if (w->id == 2) {
        look_up_and_read(w);
    } else {
        walk_and_read(w);
    }
    return NULL;
}

static void *take_and_give_back(void *of) {
    struct worker *w = of;
    for (long round = 0; round < rounds; round++) {
        w->random ^= w->random << 13;
        w->random ^= w->random >> 7;
        w->random ^= w->random << 17;
        uint64_t i = (w->random >> 32) % 64;
        vbr_answer taken = vbr_remove(&w->handle, i);
        CHECK(taken == VBR_YES || taken == VBR_NO);
        if (taken == VBR_NO) continue;
        records[i].changes++;
        w->changed++;
        CHECK(vbr_insert(&w->handle, i) == VBR_YES);
    }
    return NULL;
}

static void run(void *(*what)(void *)) {
    pthread_t threads[THREADS];
    for (int i = 0; i < THREADS; i++) CHECK(!pthread_create(&threads[i], NULL, what, &workers[i]));
    for (int i = 0; i < THREADS; i++) CHECK(!pthread_join(threads[i], NULL));
}

int main(int count, char **words) {
    static uint64_t keys[RECORDS];
    vbr_handle handles[THREADS] = {{0}};
    vbr_report report = {0};
    uint64_t changes = 0, changed = 0;
    if (count > 1) rounds = atol(words[1]);
    if (count > 2) fault = atoi(words[2]);
    CHECK(vbr_open(handles, THREADS, SLOTS, RECORDS, VBR_MAX_EPOCH) == VBR_OK);
    for (int i = 0; i < THREADS; i++) {
        workers[i].handle = handles[i]; /* moved: the old place is not used again */
        workers[i].id = i;
        workers[i].random = 88172645463325252u + (uint64_t)i;
    }
    run(publish_and_read);
    if (fault) return 0;
    run(take_and_give_back);
    for (int i = 0; i < THREADS; i++) {
        changed += workers[i].changed;
        CHECK(vbr_close(&workers[i].handle, keys, RECORDS, &report) == (i == THREADS - 1 ? VBR_YES : VBR_NO));
    }
    for (int i = 0; i < RECORDS; i++) changes += records[i].changes;
    CHECK(report.live == RECORDS && changes == changed && changes > 0);
    printf("published records in C: passed, %llu changes\n", (unsigned long long)changes);
    return 0;
}
