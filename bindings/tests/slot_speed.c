/* What records beside slots cost: calls by one thread or several, of 4,096 keys in as many buckets, at random, each kind in turn. It
   measures, and claims nothing: slot_speed [RUNS [CALLS [THREADS]]]

   Of each kind it prints the least time in ns, and the median of the ratio to a get of the same run: of processor time, in the mean of
   the threads, which all make calls of this kind. A record has 256 bytes. Then comes the median of the ratio of `is_still` to a
   generation. The line on answers says how many of the entries that the look-ups of the second kind found had left their slots by the
   question, while another thread gave keys other records. */
#include "client.h"
#include "vbr_records.h"

enum { KEYS = 4096, MOST_THREADS = 8, SLOTS = KEYS + 64 * MOST_THREADS, KINDS = 9, MOST_RUNS = 99, GET = 0, ASKED = 2, COUNTED = 3 };

static const char *const names[KINDS] = {
    "get", "get_entry", "get_entry and is_still", "get and the generation of a record", "records_read", "put",
    "hold, records_write and put_held", "insert and remove", "hold, insert_held and remove"};

static vbr_map_handle maps[MOST_THREADS], plain[MOST_THREADS]; /* handles of one map each; the first has records */
static vbr_records records;
static struct { _Atomic uint32_t generation; uint64_t words[32]; } generations[KEYS]; /* as a program has them that counts itself */
static pthread_barrier_t at_once;

struct caller {
    pthread_t thread;
    int number, kind;
    long calls;
    double took;
    uint64_t sum, gone;
};

static double cpu_time(void) {
    struct timespec at;
    CHECK(clock_gettime(CLOCK_THREAD_CPUTIME_ID, &at) == 0);
    return (double)at.tv_sec * 1e9 + (double)at.tv_nsec;
}

static void write_and_put(vbr_map_handle *map, uint64_t key, uint64_t *record) {
    uint32_t slot = 0;
    record[31] = key;
    CHECK(vbr_map_hold(map, &slot) == VBR_YES);
    vbr_records_write(&records, slot, record);
    CHECK(vbr_map_put_held(map, key, key, NULL) == VBR_YES);
}

static void call(struct caller *me, uint64_t key) {
    vbr_map_handle *map = &maps[me->number], *other = &plain[me->number];
    uint64_t record[32], value = 0, absent = KEYS + key + (uint64_t)me->number * KEYS;
    uint32_t slot = 0;
    vbr_incarnation at = {0, 0, 0};
    switch (me->kind) {
    case 0: CHECK(vbr_map_get(map, key, &value) == VBR_YES); break;
    case 1: CHECK(vbr_map_get_entry(map, key, &at) == VBR_YES); break;
    case 2:
        CHECK(vbr_map_get_entry(map, key, &at) == VBR_YES);
        me->gone += vbr_map_is_still(map, &at) == VBR_NO;
        break;
    case 3:
        CHECK(vbr_map_get(map, key, &value) == VBR_YES);
        CHECK(atomic_load_explicit(&generations[value].generation, memory_order_acquire) == 1);
        break;
    case 4: CHECK(vbr_map_records_read(map, &records, key, record, &at) == VBR_YES && record[31] == key); break;
    case 5: CHECK(vbr_map_put(other, key, key, NULL) == VBR_YES); break;
    case 6: write_and_put(map, key, record); break;
    case 7: CHECK(vbr_map_insert(other, absent, key) == VBR_YES && vbr_map_remove(other, absent, NULL) == VBR_YES); break;
    default:
        CHECK(vbr_map_hold(map, &slot) == VBR_YES && vbr_map_insert_held(map, absent, key) == VBR_YES);
        CHECK(vbr_map_remove(map, absent, NULL) == VBR_YES);
    }
    me->sum += value + at.value + at.slot + slot;
}

/* The time of one call of a kind, by so many of them, where all threads make them at once. */
static void *calls_of(void *argument) {
    struct caller *me = argument;
    uint64_t random = 88172645463325252u + (uint64_t)me->number * 7919;
    pthread_barrier_wait(&at_once);
    double begin = cpu_time();
    for (long i = 0; i < me->calls; i++) {
        next(&random);
        call(me, random % KEYS);
    }
    me->took = (cpu_time() - begin) / (double)me->calls;
    return NULL;
}

static double measured(int kind, long calls, int threads) {
    struct caller all[MOST_THREADS] = {0};
    double sum = 0;
    CHECK(pthread_barrier_init(&at_once, NULL, (unsigned)threads) == 0);
    for (int i = 0; i < threads; i++) {
        all[i].number = i, all[i].kind = kind, all[i].calls = calls;
        CHECK(pthread_create(&all[i].thread, NULL, calls_of, &all[i]) == 0);
    }
    for (int i = 0; i < threads; i++) {
        CHECK(pthread_join(all[i].thread, NULL) == 0);
        sum += all[i].took;
    }
    pthread_barrier_destroy(&at_once);
    return sum / threads;
}

static atomic_int is_over;

/* Gives keys other records until the others have asked. */
static void *writes(void *argument) {
    uint64_t random = 1, record[32] = {0};
    while (!is_over) {
        next(&random);
        write_and_put(argument, random % KEYS, record);
    }
    return NULL;
}

static void asks_beside_a_writer(long calls) {
    pthread_t writer;
    struct caller me = {.number = 0, .kind = ASKED, .calls = calls};
    CHECK(pthread_barrier_init(&at_once, NULL, 1) == 0);
    CHECK(pthread_create(&writer, NULL, writes, &maps[1]) == 0);
    calls_of(&me);
    is_over = 1;
    CHECK(pthread_join(writer, NULL) == 0);
    printf("answers no beside a writer: %llu of %ld\n", (unsigned long long)me.gone, calls);
}

static int is_above(const void *one, const void *other) {
    double a = *(const double *)one, b = *(const double *)other;
    return (a > b) - (a < b);
}

static void open_all(void) {
    uint64_t record[32] = {0};
    CHECK(vbr_map_open_seeded(maps, MOST_THREADS, SLOTS, KEYS, VBR_MAX_EPOCH, 0, &(vbr_entry){0, 0}, 0) == VBR_OK);
    CHECK(vbr_map_open_seeded(plain, MOST_THREADS, SLOTS, KEYS, VBR_MAX_EPOCH, 0, &(vbr_entry){0, 0}, 0) == VBR_OK);
    CHECK(vbr_records_open(&records, SLOTS, sizeof record, NULL) == VBR_OK);
    for (uint64_t key = 0; key < KEYS; key++) {
        uint32_t slot = 0;
        record[31] = key;
        atomic_store(&generations[key].generation, 1);
        CHECK(vbr_map_hold(maps, &slot) == VBR_YES);
        vbr_records_write(&records, slot, record);
        CHECK(vbr_map_insert_held(maps, key, key) == VBR_YES && vbr_map_insert(plain, key, key) == VBR_YES);
    }
}

static double took[KINDS][MOST_RUNS];

/* The median of what a call of a kind took, by what one of another kind took in the same run. */
static double ratio(int kind, int to, long runs) {
    double ratios[MOST_RUNS];
    for (long run = 0; run < runs; run++) ratios[run] = took[kind][run] / took[to][run];
    qsort(ratios, (size_t)runs, sizeof *ratios, is_above);
    return ratios[runs / 2];
}

int main(int count, char **words) {
    long runs = count > 1 ? strtol(words[1], NULL, 10) : 15, calls = count > 2 ? strtol(words[2], NULL, 10) : 1000000;
    long threads = count > 3 ? strtol(words[3], NULL, 10) : 1;
    CHECK(runs > 0 && runs <= MOST_RUNS && calls > 0 && threads > 0 && threads <= MOST_THREADS);
    open_all();
    for (long run = 0; run < runs; run++)
        for (int kind = 0; kind < KINDS; kind++) took[kind][run] = measured(kind, calls, (int)threads);
    printf("call,least ns,median ratio to a get\n");
    for (int kind = 0; kind < KINDS; kind++) {
        double least = took[kind][0];
        for (long run = 0; run < runs; run++)
            if (took[kind][run] < least) least = took[kind][run];
        printf("%s,%.1f,%.2f\n", names[kind], least, ratio(kind, GET, runs));
    }
    printf("is_still to a generation: %.2f\n", ratio(ASKED, COUNTED, runs));
    asks_beside_a_writer(calls);
    for (int i = 0; i < MOST_THREADS; i++) vbr_map_drop(&maps[i]), vbr_map_drop(&plain[i]);
    vbr_records_close(&records);
    return 0;
}
