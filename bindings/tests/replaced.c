/* Records that a map names by its values: a record is written before its number becomes the value of a key, and read by who finds the
   number there. The records are plain memory, and nothing but the map orders the threads.

       replaced [RECORDS [FAULT]]

   Two threads write records, each once, and give a key their numbers, by replace, put and compare_exchange in turns; one of the
   first comes by get_or_insert. Who takes a number out of the map reads that record, and so do two others, who get values. With FAULT 1
   a reader reads the record that comes next, whose number no call returned to it, and with 2 a record is written once more after its
   call: programs that are wrong, for ThreadSanitizer to find. */
#include "client.h"

enum { WRITERS = 2, THREADS = 2 * WRITERS, KEYS = 8, MOST = 1 << 20, SLOTS = KEYS + 64 * THREADS };

struct record {
    uint64_t key, number;
};

struct worker {
    vbr_map_handle *map;
    int id;
    uint64_t read; /* how many records it has read */
};

static struct record records[MOST];
static vbr_map_handle handles[THREADS];
static struct worker workers[THREADS];
static long count = 200000;
static int fault;
static atomic_int writing = WRITERS;

static void read_record(struct worker *w, uint64_t key, uint64_t number) {
    CHECK(records[number].key == key && records[number].number == number);
    w->read++;
}

/* Gives a key a number that is computed by no other thread: whatever is there is exchanged. */
static vbr_answer exchange(struct worker *w, uint64_t key, uint64_t number, uint64_t *before) {
    vbr_answer told = vbr_map_get(w->map, key, before) == VBR_YES ? VBR_OTHER : VBR_NO;
    while (told == VBR_OTHER) told = vbr_map_compare_exchange(w->map, key, *before, number, before);
    return told;
}

/* Gives a key the number of a record, by one call or another. The first number of a key may be another thread's. */
static void publish(struct worker *w, uint64_t key, uint64_t number) {
    uint64_t before = 0;
    vbr_answer there = vbr_map_get_or_insert(w->map, key, number, &before);
    if (there == VBR_YES) {
        read_record(w, key, before);
        there = number % 3 == 0   ? vbr_map_replace(w->map, key, number, &before)
                : number % 3 == 1 ? vbr_map_put(w->map, key, number, &before)
                                  : exchange(w, key, number, &before);
        CHECK(there == VBR_YES);
        read_record(w, key, before);
    }
    CHECK(there >= 0);
}

static void write_records(struct worker *w) {
    for (uint64_t number = (uint64_t)w->id; number < (uint64_t)count; number += WRITERS) {
        uint64_t key = number / WRITERS % KEYS;
        records[number] = (struct record){key, number};
        publish(w, key, number);
        if (fault == 2) records[number] = (struct record){key, number};
    }
    atomic_fetch_sub_explicit(&writing, 1, memory_order_relaxed);
}

static void read_records(struct worker *w) {
    for (uint64_t turn = 0; atomic_load_explicit(&writing, memory_order_relaxed) > 0; turn++) {
        uint64_t key = turn % KEYS, number = 0;
        vbr_answer there = vbr_map_get(w->map, key, &number);
        if (there == VBR_YES) read_record(w, key, number);
        else sched_yield();
        if (fault == 1) w->read += records[(number + WRITERS) % (uint64_t)count].key == key; /* the writer's next: no call returned it */
    }
}

static void *work(void *of) {
    struct worker *w = of;
    if (w->id < WRITERS) write_records(w);
    else read_records(w);
    return NULL;
}

int main(int words, char **word) {
    static vbr_entry entries[KEYS];
    vbr_report report = {0};
    pthread_t threads[THREADS];
    uint64_t read = 0;
    if (words > 1) count = atol(word[1]);
    if (words > 2) fault = atoi(word[2]);
    CHECK(count >= WRITERS * KEYS && count <= MOST);
    CHECK(vbr_map_open(handles, THREADS, SLOTS, KEYS, VBR_MAX_EPOCH) == VBR_OK);
    for (int i = 0; i < THREADS; i++) {
        workers[i] = (struct worker){&handles[i], i, 0};
        CHECK(!pthread_create(&threads[i], NULL, work, &workers[i]));
    }
    for (int i = 0; i < THREADS; i++) {
        CHECK(!pthread_join(threads[i], NULL));
        read += workers[i].read;
    }
    CHECK(vbr_map_close_all(handles, THREADS, entries, KEYS, &report) == VBR_YES && report.live == KEYS && read >= (uint64_t)count - KEYS);
    for (uint64_t key = 0; key < KEYS; key++) read_record(&workers[0], key, entries[key].value);
    printf("records of values that change in C: passed, %ld records\n", count);
    return 0;
}
