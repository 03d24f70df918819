/* What a large set takes: its opening, a fill by four threads, look-ups, a walk, a report of its numbers and a renewal, each with
   its seconds by the clock and the most memory that the process had by then. It measures, and claims nothing but that each call
   answers as it should: large_table [SLOTS [KEYS]]

   Its buckets are the least power of two that is no less than the slots. The keys are 0, 1, 2 and so on; they are spread by seed 0. */
#include "client.h"

#include <sys/resource.h>

enum { THREADS = 4, LOOK_UPS = 1000000 };

static vbr_handle handles[THREADS];
static uint64_t keys = 60000;
static double began;

static void begins(void) { began = now(); }

static void took(const char *what) {
    struct rusage used;
    double seconds = now() - began;
    CHECK(getrusage(RUSAGE_SELF, &used) == 0);
    printf("%-28s %7.2f s, at most %5.2f GB until then\n", what, seconds, (double)used.ru_maxrss * 1024 / 1e9);
    fflush(stdout);
}

/* Inserts the keys of one thread, each of which is absent. */
static void *fill(void *handle) {
    uint64_t first = (uint64_t)((vbr_handle *)handle - handles);
    for (uint64_t key = first; key < keys; key += THREADS) CHECK(vbr_insert(handle, key) == VBR_YES);
    return NULL;
}

static void fill_by_threads(void) {
    pthread_t threads[THREADS];
    for (int i = 0; i < THREADS; i++) CHECK(pthread_create(&threads[i], NULL, fill, &handles[i]) == 0);
    for (int i = 0; i < THREADS; i++) CHECK(pthread_join(threads[i], NULL) == 0);
}

/* Of each two keys that are asked for one is there. */
static void look_up(void) {
    uint64_t random = 1;
    for (int i = 0; i < LOOK_UPS; i++) {
        random = random * 6364136223846793005u + 1442695040888963407u;
        uint64_t key = (random >> 11) % (2 * keys);
        CHECK(vbr_has(&handles[0], key) == (key < keys ? VBR_YES : VBR_NO));
    }
}

static void walk(void) {
    vbr_cursor cursor = VBR_CURSOR_BEGIN;
    uint64_t key = 0, met = 0, sum = 0;
    while (vbr_next(&handles[0], &cursor, &key) == VBR_YES) met++, sum += key;
    CHECK(met == keys && sum == keys * (keys - 1) / 2);
}

static void report(uint64_t live) {
    uint64_t none;
    vbr_report report = {0};
    CHECK(vbr_report_all(handles, THREADS, &none, 0, &report) == (live ? VBR_NO_ROOM : VBR_YES));
    CHECK(report.live == live);
}

int main(int argc, char **argv) {
    uint64_t slots = argc > 1 ? strtoull(argv[1], NULL, 10) : 65535;
    if (argc > 2) keys = strtoull(argv[2], NULL, 10);
    CHECK(slots <= VBR_MAX_SLOTS && keys > 0 && keys <= slots);
    uint64_t buckets = 1;
    while (buckets < slots) buckets *= 2;
    CHECK(buckets <= VBR_MAX_BUCKETS);
    printf("%llu slots, %llu buckets, %llu keys: %.2f GB of words\n", (unsigned long long)slots, (unsigned long long)buckets,
           (unsigned long long)keys, (double)(32 * slots + slots / 8 + 8 * buckets) / 1e9);
    begins();
    CHECK(vbr_open_seeded(handles, THREADS, (uint32_t)slots, (uint32_t)buckets, VBR_MAX_EPOCH, 0, &keys, 0) == VBR_OK);
    took("opening");
    begins();
    fill_by_threads();
    took("fill by four threads");
    begins();
    look_up();
    took("a million look-ups by one");
    begins();
    walk();
    took("walk by one");
    begins();
    report(keys);
    took("report of the numbers");
    begins();
    CHECK(vbr_renew_all(handles, THREADS, (uint32_t)slots, (uint32_t)buckets, VBR_MAX_EPOCH) == VBR_OK);
    took("renewal");
    walk();
    vbr_end_all(handles, THREADS);
    return 0;
}
