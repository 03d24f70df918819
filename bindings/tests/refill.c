/* Slots by the rule of vbr.h, the most keys at one time and 64 for each handle, are enough: a set is filled with that many
   keys, four threads remove them all, and then one thread puts as many others in. No insert may get VBR_NO_SLOT,
   and the report counts the removed nodes that are still in a list.

       refill [RUNS [KEYS]]

   plays that many runs of each of three kinds, four of 262,144 keys where it isn't told:
   - neighbours: the threads take the next key off a counter that they share. Keys that follow each other are neighbours in
     a list: they have one bucket where it has several;
   - in step: the same, and for the first sixteenth of the keys the threads begin each remove together;
   - in sequence: the keys are 0, 1, 2 and so on, off a counter too, so the threads are in different buckets.
   In the first two the keys of the second filling have other buckets than those of the first, so no insert comes by what
   was left there. */
#include "client.h"

enum { THREADS = 4, MAX_KEYS = 1 << 20 };

/* With seed 0 keys are spread by a product with the first number, whose upper bits are the bucket; the second is its inverse. */
static const uint64_t MIXER = 0x9E3779B97F4A7C15u, INVERSE = 0xF1DE83E19937733Du;

enum kind { NEIGHBOURS, IN_STEP, IN_SEQUENCE };

static const char *const name[] = {"neighbours", "in step", "in sequence"};

struct worker {
    vbr_handle handle;
    int id;
};

static struct worker workers[THREADS];
static uint64_t first[MAX_KEYS], ascending[MAX_KEYS], second[MAX_KEYS], left[MAX_KEYS];
static uint32_t key_count = 1 << 18;
static enum kind kind;
static atomic_uint taken, arrived;

static int by_number(const void *a, const void *b) {
    uint64_t x = *(const uint64_t *)a, y = *(const uint64_t *)b;
    return x < y ? -1 : x > y;
}

/* The keys of a bucket stand behind one another, in the order of its list. */
static int by_bucket(const void *a, const void *b) {
    uint64_t x = *(const uint64_t *)a * MIXER, y = *(const uint64_t *)b * MIXER;
    if ((x >> 32) * key_count >> 32 != (y >> 32) * key_count >> 32) return x < y ? -1 : 1;
    return by_number(a, b);
}

/* Keys of the lower half of the buckets for the first filling, of the upper half for the second; in sequence, the
   numbers, and then those that come behind them. */
static void choose_keys(uint64_t *random) {
    for (uint32_t i = 0; i < key_count; i++) {
        first[i] = kind == IN_SEQUENCE ? i : (next(random) >> 1) * INVERSE;
        second[i] = kind == IN_SEQUENCE ? key_count + i : (next(random) | 1ull << 63) * INVERSE;
        ascending[i] = first[i];
    }
    qsort(ascending, key_count, sizeof ascending[0], by_number);
    if (kind != IN_SEQUENCE) qsort(first, key_count, sizeof first[0], by_bucket);
}

static uint32_t steps(void) { return kind == IN_STEP ? key_count / (16 * THREADS) : 0; }

/* Waits until each thread has come so far. */
static void meet(uint32_t step) {
    atomic_fetch_add(&arrived, 1);
    for (unsigned turns = 0; atomic_load(&arrived) < THREADS * (step + 1); turns++)
        if (turns % 256 == 255) sched_yield();
}

static void *remove_all(void *of) {
    struct worker *w = of;
    for (uint32_t step = 0; step < steps(); step++) {
        meet(step);
        CHECK(vbr_remove(&w->handle, first[THREADS * step + (uint32_t)w->id]) == VBR_YES);
    }
    for (uint32_t place; (place = atomic_fetch_add(&taken, 1)) < key_count;)
        CHECK(vbr_remove(&w->handle, first[place]) == VBR_YES);
    return NULL;
}

/* Fills, empties and fills a set: how many keys of the second filling found a slot, and the report. */
static uint32_t play(vbr_report *report) {
    vbr_handle handles[THREADS] = {{0}};
    uint32_t slots = key_count + 64 * THREADS, found = 0;
    CHECK(vbr_open_seeded(handles, THREADS, slots, key_count, VBR_MAX_EPOCH, 0, ascending, key_count) == VBR_OK);
    atomic_store(&taken, THREADS * steps());
    atomic_store(&arrived, 0);
    for (int i = 0; i < THREADS; i++) {
        workers[i].handle = handles[i]; /* moved: the old place is not used again */
        workers[i].id = i;
    }
    run_threads(THREADS, remove_all, workers, sizeof *workers);
    vbr_answer added = VBR_YES;
    while (found < key_count && (added = vbr_insert(&workers[0].handle, second[found])) == VBR_YES) found++;
    CHECK(added == VBR_YES || added == VBR_NO_SLOT);
    for (int i = 0; i < THREADS; i++)
        CHECK(vbr_close(&workers[i].handle, left, MAX_KEYS, report) == (i == THREADS - 1 ? VBR_YES : VBR_NO));
    CHECK(report->live == found && report->live + report->marked + report->free == slots);
    return found;
}

int main(int count, char **words) {
    long runs = count > 1 ? atol(words[1]) : 4;
    if (count > 2) key_count = (uint32_t)atol(words[2]);
    CHECK(runs > 0 && key_count >= THREADS && key_count <= MAX_KEYS && key_count % THREADS == 0);
    CHECK(MIXER * INVERSE == 1);
    uint64_t random = 88172645463325252u;
    long failed = 0;
    for (kind = NEIGHBOURS; kind <= IN_SEQUENCE; kind++) {
        uint32_t least = key_count, most_left = 0;
        long refused = 0, leaving = 0;
        for (long run = 0; run < runs; run++) {
            vbr_report report = {0};
            choose_keys(&random);
            uint32_t found = play(&report);
            if (found < least) least = found;
            if (report.marked > most_left) most_left = report.marked;
            refused += found < key_count;
            leaving += report.marked > 0;
        }
        printf("refill in C, %s: %ld of %ld runs found no slot, at %u of %u keys at the least; %ld left removed nodes in "
               "lists, up to %u\n",
               name[kind], refused, runs, least, key_count, leaving, most_left);
        failed += refused + leaving;
    }
    if (failed) return fputs("refill: FAILED: slots by the rule are not enough\n", stderr), 1;
    puts("refill in C: passed");
    return 0;
}
