/* Walks over a renewal. Once the set behind a handle is another one than when a walk began, each call of the walk answers VBR_RESHAPED,
   gives nothing and leaves the cursor as it was; a walk that begins anew gives each key once. The set is renewed with more buckets, with
   fewer and with as many, between two calls of one thread and by another thread. What renews nothing refuses no walk. */
#include "client.h"

#include <string.h>

enum { KEYS = 10000, SLOTS = KEYS + 2 * 64, BUCKETS = 4096, PART = 4000, ROUNDS = 60 };

static uint64_t keys[KEYS];

static int opened(vbr_handle *handle) { return vbr_open_with(handle, 2, SLOTS, BUCKETS, VBR_MAX_EPOCH, keys, KEYS) == VBR_OK; }

static int renewed(vbr_handle *handle, uint32_t slots, uint32_t buckets) { return vbr_renew_all(handle, 2, slots, buckets, VBR_MAX_EPOCH) == VBR_OK; }

/* Which keys a walk has given, each once, and how many. */
struct given {
    unsigned char is[KEYS];
    int count;
};

/* Walks until so many keys have been given, each once, or the walk is at its end; each call by the other handle in turn. */
static int goes_on(vbr_handle *handle, vbr_cursor *cursor, struct given *given, int most) {
    uint64_t key = 0;
    vbr_answer told = VBR_YES;
    while (given->count < most && (told = vbr_next(&handle[given->count % 2], cursor, &key)) == VBR_YES) {
        CHECK(key < KEYS && !given->is[key]);
        given->is[key] = 1;
        given->count++;
    }
    CHECK(told == VBR_YES || told == VBR_NO);
    return 0;
}

/* Whether a walk from its beginning gives each key once, and is at its end then. */
static int gives_each(vbr_handle *handle) {
    vbr_cursor cursor = VBR_CURSOR_BEGIN;
    struct given given = {{0}, 0};
    CHECK(!goes_on(handle, &cursor, &given, KEYS + 1) && given.count == KEYS);
    return 0;
}

/* Whether each call of the walk is refused, of whichever handle and budget, and nothing is written. */
static int is_refused(vbr_handle *handle, vbr_cursor *cursor) {
    vbr_cursor before = *cursor;
    for (int i = 0; i < 4; i++) {
        uint64_t key = 77;
        vbr_incarnation at = {78, 79, 80};
        CHECK(vbr_next_within(&handle[i % 2], cursor, &key, i < 2 ? 0 : 1000000) == VBR_RESHAPED && key == 77);
        CHECK(vbr_next_at(&handle[i % 2], cursor, &key, &at) == VBR_RESHAPED && key == 77 && at.birth == 78 && at.value == 79 && at.slot == 80);
        CHECK(!memcmp(cursor, &before, sizeof before));
    }
    return 0;
}

/* Between two calls the set is renewed, once or twice: then the walk is refused wherever it stands, and one from the beginning isn't. */
static int between_calls(uint32_t buckets, int times) {
    static const int stands[] = {1, PART, KEYS, KEYS + 1};
    for (size_t i = 0; i < sizeof stands / sizeof *stands; i++) {
        vbr_handle handle[2] = {{0}};
        vbr_cursor cursor = VBR_CURSOR_BEGIN;
        struct given given = {{0}, 0};
        CHECK(opened(handle) && !goes_on(handle, &cursor, &given, stands[i]));
        for (int j = 0; j < times; j++) CHECK(renewed(handle, 2 * SLOTS, buckets));
        CHECK(!is_refused(handle, &cursor) && !gives_each(handle) && !is_refused(handle, &cursor));
        vbr_end_all(handle, 2);
    }
    return 0;
}

/* A first call that runs out of steps has begun the walk. A walk by `next_at` is as one by `next`. */
static int begins(void) {
    vbr_handle handle[2] = {{0}};
    vbr_cursor cursor = VBR_CURSOR_BEGIN, other = VBR_CURSOR_BEGIN;
    uint64_t key = 77;
    vbr_incarnation at;
    CHECK(opened(handle) && vbr_next_within(&handle[0], &cursor, &key, 0) == VBR_OUT_OF_STEPS && key == 77);
    CHECK(vbr_next_at(&handle[1], &other, &key, &at) == VBR_YES && renewed(handle, SLOTS, BUCKETS));
    CHECK(!is_refused(handle, &cursor) && !is_refused(handle, &other));
    vbr_end_all(handle, 2);
    key = 77;
    CHECK(vbr_next(&handle[0], &cursor, &key) == VBR_NO_HANDLE && key == 77);
    return 0;
}

/* Handles that are closed and opened anew have another set, if one of them had none before, too. */
static int reopened(void) {
    vbr_handle handle[2] = {{0}};
    vbr_cursor cursor = VBR_CURSOR_BEGIN;
    struct given given = {{0}, 0};
    CHECK(opened(handle) && !goes_on(handle, &cursor, &given, PART));
    vbr_end_all(handle, 2);
    handle[1] = handle[0];
    memset(&handle[0], 0, sizeof handle[0]);
    CHECK(opened(handle) && !is_refused(handle, &cursor) && !gives_each(handle));
    vbr_end_all(handle, 2);
    return 0;
}

/* A renewal that is refused renews nothing, and other calls don't either: the walk goes on, and gives each key once. */
static int stays(void) {
    static uint64_t told[SLOTS];
    vbr_handle handle[2] = {{0}};
    vbr_cursor cursor = VBR_CURSOR_BEGIN;
    struct given given = {{0}, 0};
    vbr_report report;
    CHECK(opened(handle) && !goes_on(handle, &cursor, &given, PART));
    CHECK(vbr_renew_all(handle, 2, SLOTS, 0, VBR_MAX_EPOCH) == VBR_BAD_SHAPE && vbr_renew_all(handle, 1, SLOTS, BUCKETS, VBR_MAX_EPOCH) == VBR_MISSING);
    CHECK(vbr_renew_all(handle, 2, KEYS - 1, BUCKETS, VBR_MAX_EPOCH) == VBR_NO_ROOM);
    CHECK(vbr_report_all(handle, 2, told, SLOTS, &report) == VBR_YES && report.live == KEYS);
    CHECK(vbr_insert(&handle[0], KEYS) == VBR_YES && vbr_remove(&handle[1], KEYS) == VBR_YES);
    vbr_reserve(&handle[0], 10);
    vbr_give_slots_back(&handle[0]);
    CHECK(!goes_on(handle, &cursor, &given, KEYS + 1) && given.count == KEYS);
    vbr_end_all(handle, 2);
    return 0;
}

/* What two threads share: one renews, the other walks, and each has the handles for one call after another. */
static struct {
    pthread_mutex_t turn;
    vbr_handle handle[2];
    long renewals, calls;
    int is_over;
} shared = {.turn = PTHREAD_MUTEX_INITIALIZER};

/* Until the other thread has made so many calls. */
static void wait_for_calls(long count) {
    for (long end = -1, now = -2; now < end; sched_yield()) {
        pthread_mutex_lock(&shared.turn);
        now = shared.calls;
        pthread_mutex_unlock(&shared.turn);
        if (end < 0) end = now + count;
    }
}

static void *renews(void *failed) {
    static const uint32_t buckets[] = {4 * BUCKETS, BUCKETS / 64, BUCKETS};
    for (int i = 0; i < ROUNDS; i++) {
        pthread_mutex_lock(&shared.turn);
        if (!renewed(shared.handle, SLOTS, buckets[i % 3])) *(int *)failed = 1;
        shared.renewals++;
        pthread_mutex_unlock(&shared.turn);
        wait_for_calls(i % 2 ? PART : 3 * KEYS);
    }
    pthread_mutex_lock(&shared.turn);
    shared.is_over = 1;
    pthread_mutex_unlock(&shared.turn);
    return NULL;
}

/* A walk that comes to its end met no renewal, and has given each key once. One that met a renewal is refused at the next call. */
static int by_another_thread(void) {
    pthread_t thread;
    int failed = 0, is_over = 0;
    long refused = 0, whole = 0;
    CHECK(opened(shared.handle) && !pthread_create(&thread, NULL, renews, &failed));
    while (!is_over || !whole) {
        vbr_cursor cursor = VBR_CURSOR_BEGIN;
        struct given given = {{0}, 0};
        long at_first = -1, now = 0;
        uint64_t key;
        vbr_answer told;
        do {
            key = KEYS;
            pthread_mutex_lock(&shared.turn);
            told = vbr_next(&shared.handle[0], &cursor, &key);
            shared.calls++;
            now = shared.renewals;
            is_over = shared.is_over;
            pthread_mutex_unlock(&shared.turn);
            if (at_first < 0) at_first = now;
            CHECK((told == VBR_RESHAPED) == (now != at_first));
            if (told == VBR_YES) CHECK(key < KEYS && !given.is[key]++ && ++given.count);
        } while (told == VBR_YES);
        CHECK(told == VBR_RESHAPED || (told == VBR_NO && given.count == KEYS));
        told == VBR_NO ? whole++ : refused++;
    }
    CHECK(!pthread_join(thread, NULL) && !failed && refused > 0 && whole > 0);
    vbr_end_all(shared.handle, 2);
    printf("walks over renewals in C: passed, with %ld that were refused and %ld that were whole\n", refused, whole);
    return 0;
}

int main(void) {
    for (uint64_t i = 0; i < KEYS; i++) keys[i] = i;
    for (int times = 1; times <= 2; times++)
        if (between_calls(4 * BUCKETS, times) || between_calls(BUCKETS / 64, times) || between_calls(BUCKETS, times)) return 1;
    return begins() || reopened() || stays() || by_another_thread();
}
