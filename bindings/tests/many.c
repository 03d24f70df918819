/* Many callers of one set: a thousand threads with a handle each, all handles in turn, and all at once, on stacks of 64 KiB. As many
   handles as there may be are opened, reported and closed. What opening and closing take is in proportion to the handles: four
   times as many, with the same slots, take less than eight times the processor time, which other work on the machine leaves as it is
   but for some noise. More rounds take that away.

       many [HANDLES] */
#include "client.h"

enum { OPENING = 3, BUCKETS = 1024, STACK = 64 << 10, FEW = 4000, MORE = 4 * FEW, ROUNDS = 5, MOST_ROUNDS = 100 };

static const uint64_t opening[OPENING] = {1000000, 1000001, 1000002};
static vbr_handle handle[VBR_MAX_MANY_HANDLES];
static vbr_answer answer[VBR_MAX_MANY_HANDLES];
static uint64_t keys[2 * VBR_MAX_MANY_HANDLES];
static vbr_report report;
static size_t count = 1000;
static uint32_t slots;
static pthread_barrier_t together;

/* Runs this in a thread with a small stack. */
static void on_a_small_stack(void *(*body)(void *), void *of) {
    pthread_attr_t small;
    pthread_t thread;
    CHECK(!pthread_attr_init(&small) && !pthread_attr_setstacksize(&small, STACK));
    CHECK(!pthread_create(&thread, &small, body, of) && !pthread_join(thread, NULL));
    pthread_attr_destroy(&small);
}

/* Each handle inserts the key of its number, and the next one finds it. */
static void in_turn(uint64_t from) {
    for (size_t i = 0; i < count; i++) CHECK(vbr_insert(&handle[i], from + i) == VBR_YES);
    for (size_t i = 0; i < count; i++) CHECK(vbr_has(&handle[(i + 1) % count], from + i) == VBR_YES);
    for (size_t i = 0; i < count; i++) CHECK(vbr_insert(&handle[(i + 1) % count], from + i) == VBR_NO);
}

/* What is in the set: the opening keys, and these. */
static void holds(uint64_t from, uint64_t to) {
    CHECK(report.live == to - from + OPENING);
    for (uint64_t i = from; i < to; i++) CHECK(keys[i - from] == i);
    for (uint64_t i = 0; i < OPENING; i++) CHECK(keys[to - from + i] == opening[i]);
}

/* All calls that take all handles, and a close of one after another. */
static void *all_calls(void *of) {
    int64_t balance = 0;
    (void)of;
    CHECK(vbr_open_many(handle, count, slots, BUCKETS, VBR_MAX_EPOCH, opening, OPENING) == VBR_OK);
    in_turn(0);
    CHECK(vbr_report_all(handle, count, keys, 2 * VBR_MAX_MANY_HANDLES, &report) == VBR_YES);
    holds(0, count);
    for (size_t i = 0; i < count; i++) balance += vbr_balance(&handle[i]);
    CHECK(balance == (int64_t)(count + OPENING));
    if (count > 1) CHECK(vbr_renew_all(handle, count - 1, slots, BUCKETS, VBR_MAX_EPOCH) == VBR_MISSING);
    CHECK(vbr_renew_all(handle, count, slots, 2 * BUCKETS, VBR_MAX_EPOCH) == VBR_OK);
    for (size_t i = 0; i < count; i++) CHECK(vbr_has(&handle[i], i) == VBR_YES && vbr_buckets(&handle[i]) == 2 * BUCKETS);
    in_turn(count);
    if (count > 1) CHECK(vbr_close_all(handle, count - 1, keys, 2 * VBR_MAX_MANY_HANDLES, &report) == VBR_MISSING);
    CHECK(vbr_close_all(handle, count, keys, 2 * VBR_MAX_MANY_HANDLES, &report) == VBR_YES);
    holds(0, 2 * count);
    CHECK(vbr_insert(&handle[count - 1], 5) == VBR_NO_HANDLE);

    CHECK(vbr_open_many(handle, count, slots, BUCKETS, VBR_MAX_EPOCH, opening, OPENING) == VBR_OK);
    in_turn(0);
    for (size_t i = 0; i + 1 < count; i++) CHECK(vbr_close(&handle[i], keys, 2 * VBR_MAX_MANY_HANDLES, &report) == VBR_NO);
    CHECK(vbr_close(&handle[count - 1], keys, 2 * VBR_MAX_MANY_HANDLES, &report) == VBR_YES);
    holds(0, count);
    return NULL;
}

/* A thread with the handle of its number: it adds its key, and another one that it takes out again. */
static void *work(void *of) {
    vbr_handle *mine = of;
    uint64_t key = (uint64_t)(mine - handle);
    pthread_barrier_wait(&together);
    answer[key] = vbr_insert(mine, key);
    if (answer[key] == VBR_YES) answer[key] = vbr_insert(mine, count + key);
    if (answer[key] == VBR_YES) answer[key] = vbr_remove(mine, count + key);
    return NULL;
}

static void in_threads(void) {
    pthread_attr_t small;
    pthread_t *threads = calloc(count, sizeof *threads);
    CHECK(threads && !pthread_attr_init(&small) && !pthread_attr_setstacksize(&small, STACK));
    CHECK(!pthread_barrier_init(&together, NULL, (unsigned)count));
    CHECK(vbr_open_many(handle, count, slots, BUCKETS, VBR_MAX_EPOCH, opening, OPENING) == VBR_OK);
    for (size_t i = 0; i < count; i++) CHECK(!pthread_create(&threads[i], &small, work, &handle[i]));
    for (size_t i = 0; i < count; i++) CHECK(!pthread_join(threads[i], NULL));
    for (size_t i = 0; i < count; i++) CHECK(answer[i] == VBR_YES);
    CHECK(vbr_close_all(handle, count, keys, 2 * VBR_MAX_MANY_HANDLES, &report) == VBR_YES);
    holds(0, count);
    pthread_barrier_destroy(&together);
    pthread_attr_destroy(&small);
    free(threads);
}

/* The numbers of handles that are refused, and the most that there may be. */
static void *ends(void *of) {
    (void)of;
    CHECK(vbr_open(handle, VBR_MAX_FEW_HANDLES + 1, slots, BUCKETS, VBR_MAX_EPOCH) == VBR_BAD_COUNT);
    CHECK(vbr_open_with(handle, VBR_MAX_FEW_HANDLES + 1, slots, BUCKETS, VBR_MAX_EPOCH, opening, OPENING) == VBR_BAD_COUNT);
    CHECK(vbr_open_many(handle, 0, slots, BUCKETS, VBR_MAX_EPOCH, opening, OPENING) == VBR_BAD_COUNT);
    CHECK(vbr_open_many(handle, VBR_MAX_FEW_HANDLES + 1, slots, BUCKETS, VBR_MAX_EPOCH, keys + 1, 0) == VBR_OK);
    CHECK(vbr_insert(&handle[VBR_MAX_FEW_HANDLES], 5) == VBR_YES && vbr_has(handle, 5) == VBR_YES);
    CHECK(vbr_close_all(handle, VBR_MAX_FEW_HANDLES, keys, 8, &report) == VBR_MISSING);
    CHECK(vbr_close_all(handle, VBR_MAX_FEW_HANDLES + 1, keys, 8, &report) == VBR_YES && report.live == 1 && keys[0] == 5);

    CHECK(vbr_open_many(handle, VBR_MAX_MANY_HANDLES, slots, BUCKETS, VBR_MAX_EPOCH, opening, OPENING) == VBR_OK);
    CHECK(vbr_insert(&handle[VBR_MAX_MANY_HANDLES - 1], 5) == VBR_YES);
    CHECK(vbr_has(&handle[VBR_MAX_MANY_HANDLES / 2], 5) == VBR_YES);
    CHECK(vbr_report_all(handle, VBR_MAX_MANY_HANDLES, keys, 8, &report) == VBR_YES && report.live == 1 + OPENING);
    CHECK(vbr_renew_all(handle, VBR_MAX_MANY_HANDLES, slots, BUCKETS, VBR_MAX_EPOCH) == VBR_OK);
    CHECK(vbr_remove(&handle[VBR_MAX_MANY_HANDLES - 1], 5) == VBR_YES);
    CHECK(vbr_close_all(handle, VBR_MAX_MANY_HANDLES, keys, 8, &report) == VBR_YES && report.live == OPENING);
    return NULL;
}

/* One handle more than there may be, which is refused before any is read. */
static void too_many(void) {
    vbr_handle *more = calloc(VBR_MAX_MANY_HANDLES + 1, sizeof *more);
    CHECK(more);
    CHECK(vbr_open_many(more, VBR_MAX_MANY_HANDLES + 1, slots, BUCKETS, VBR_MAX_EPOCH, opening, OPENING) == VBR_BAD_COUNT);
    free(more);
}

static double worked(void) { return 1e3 * (double)clock() / CLOCKS_PER_SEC; }

/* What an opening and a close of so many handles took, at once or one by one, in ms of processor time; or the least so far, if that is less. */
static void take(double *least, size_t handles, int one_by_one) {
    double from = worked();
    CHECK(vbr_open_many(handle, handles, slots, BUCKETS, VBR_MAX_EPOCH, opening, OPENING) == VBR_OK);
    if (one_by_one) {
        for (size_t i = 0; i < handles; i++) CHECK(vbr_close(&handle[i], keys, 8, &report) == (i + 1 == handles ? VBR_YES : VBR_NO));
    } else {
        CHECK(vbr_close_all(handle, handles, keys, 8, &report) == VBR_YES);
    }
    double ms = worked() - from;
    if (ms < *least) *least = ms;
}

static void in_proportion(int one_by_one) {
    double few = 1e9, more = 1e9;
    for (int round = 0; round < ROUNDS || (more >= 8 * few && round < MOST_ROUNDS); round++) take(&few, FEW, one_by_one), take(&more, MORE, one_by_one);
    printf("opening and closing %s take %.1f ms of %d handles and %.1f of %d\n", one_by_one ? "one by one" : "at once", few, FEW, more, MORE);
    CHECK(more < 8 * few);
}

int main(int words, char **word) {
    if (words > 1) count = (size_t)atol(word[1]);
    CHECK(0 < count && count <= VBR_MAX_MANY_HANDLES);
    slots = (uint32_t)(2 * count + OPENING + 64 * count);
    on_a_small_stack(all_calls, NULL);
    in_threads();
    on_a_small_stack(ends, NULL);
    too_many();
    in_proportion(0), in_proportion(1);
    printf("%zu handles in threads and in turn, and all at once, in C: passed\n", count);
    return 0;
}
