/* Look-ups in batches, of sets and of maps: rows that are worked by hand, random ones against single calls, and batches while
   other threads change other keys. */
#include "client.h"

enum { MANY = 100, THREADS = 4, RANGE = 4096, BATCHES = 20000 };

static uint64_t keys[MANY];
static vbr_answer answers[MANY];
static vbr_found found[MANY];

/* A handle that is empty, no key, and pointers that are null where there is none. */
static void none(void) {
    vbr_handle empty = {0}, full = {0};
    vbr_map_handle empty_map = {0};
    CHECK(vbr_open(&full, 1, 128, 16, 1000) == VBR_OK);
    for (int i = 0; i < 3; i++) answers[i] = VBR_YES, found[i] = (vbr_found){7, VBR_YES};
    vbr_has_all(&full, NULL, 0, NULL);
    vbr_has_all(&full, keys, 0, answers);
    CHECK(answers[0] == VBR_YES);
    vbr_has_all(&empty, keys, 2, answers);
    CHECK(answers[0] == VBR_NO_HANDLE && answers[1] == VBR_NO_HANDLE && answers[2] == VBR_YES);
    vbr_map_has_all(&empty_map, NULL, 0, NULL);
    vbr_map_has_all(&empty_map, keys, 3, answers);
    CHECK(answers[2] == VBR_NO_HANDLE);
    vbr_map_get_all(&empty_map, NULL, 0, NULL);
    vbr_map_get_all(&empty_map, keys, 2, found);
    CHECK(found[0].answer == VBR_NO_HANDLE && found[1].answer == VBR_NO_HANDLE && found[1].value == 0 && found[2].value == 7);
    vbr_drop(&full);
}

/* The odd keys are there, each of a map with ten times itself. */
static int odd_keys(size_t count) {
    vbr_handle set = {0};
    vbr_map_handle map = {0};
    CHECK(vbr_open(&set, 1, 256, 64, 1000) == VBR_OK && vbr_map_open(&map, 1, 256, 64, 1000) == VBR_OK);
    for (size_t i = 0; i < MANY; i++) keys[i] = i, answers[i] = VBR_OTHER, found[i].answer = VBR_OTHER;
    for (size_t i = 1; i < MANY; i += 2) CHECK(vbr_insert(&set, i) == VBR_YES && vbr_map_insert(&map, i, 10 * i) == VBR_YES);
    vbr_has_all(&set, keys, count, answers);
    for (size_t i = 0; i < MANY; i++) {
        CHECK(answers[i] == (i >= count ? VBR_OTHER : i % 2 ? VBR_YES : VBR_NO));
        answers[i] = VBR_OTHER;
    }
    vbr_map_has_all(&map, keys, count, answers);
    for (size_t i = 0; i < MANY; i++) CHECK(answers[i] == (i >= count ? VBR_OTHER : i % 2 ? VBR_YES : VBR_NO));
    vbr_map_get_all(&map, keys, count, found);
    for (size_t i = 0; i < count; i++) CHECK(found[i].answer == (i % 2 ? VBR_YES : VBR_NO) && found[i].value == (i % 2 ? 10 * i : 0));
    for (size_t i = count; i < MANY; i++) CHECK(found[i].answer == VBR_OTHER);
    vbr_drop(&set);
    vbr_map_drop(&map);
    return 0;
}

/* One bucket. Three steps to start, five for a node, and eight have to be left of the budget: so twenty are enough to look at the
   first node and to answer by it, and not at the second. */
static void refusals(void) {
    static const uint64_t asked[6] = {1, 2, 0, 3, 1, 1};
    static const vbr_answer told[6] = {VBR_YES, VBR_OUT_OF_STEPS, VBR_NO, VBR_OUT_OF_STEPS, VBR_YES, VBR_YES};
    vbr_handle set = {0};
    vbr_map_handle map = {0};
    CHECK(vbr_open(&set, 1, 128, 1, 1000) == VBR_OK && vbr_map_open(&map, 1, 128, 1, 1000) == VBR_OK);
    for (uint64_t key = 1; key <= 3; key++) CHECK(vbr_insert(&set, key) == VBR_YES && vbr_map_insert(&map, key, 70 + key) == VBR_YES);
    vbr_has_all_within(&set, asked, 6, answers, 20);
    for (int i = 0; i < 6; i++) CHECK(answers[i] == told[i]);
    vbr_map_has_all_within(&map, asked, 6, answers, 20);
    vbr_map_get_all_within(&map, asked, 6, found, 20);
    for (int i = 0; i < 6; i++) CHECK(answers[i] == told[i] && found[i].answer == told[i] && found[i].value == (told[i] == VBR_YES ? 71 : 0));
    vbr_drop(&set);
    vbr_map_drop(&map);
}

static uint64_t drawn(uint64_t *state, uint64_t below) {
    *state = *state * 6364136223846793005u + 1442695040888963407u;
    return (*state >> 33) % below;
}

static vbr_map_handle maps[THREADS];
static _Atomic int failed, done;

/* Keys of each thread: those that are 4i + who. A thread puts its own in and takes them out, and looks all keys up in batches:
   what it has itself put in is there with its value, and no other of its keys is. */
static int change_and_look(uint64_t who) {
    static _Thread_local uint64_t values[RANGE];
    uint64_t state = who + 1, mine[MANY];
    vbr_answer told[MANY];
    vbr_found given[MANY];
    for (int batch = 0; batch < BATCHES; batch++) {
        uint64_t key = THREADS * drawn(&state, RANGE / THREADS) + who;
        size_t count = (size_t)drawn(&state, MANY + 1);
        if (values[key]) {
            CHECK(vbr_map_remove(&maps[who], key, &(uint64_t){0}) == VBR_YES);
            values[key] = 0;
        } else {
            values[key] = key + RANGE * (uint64_t)batch + 1;
            CHECK(vbr_map_insert(&maps[who], key, values[key]) == VBR_YES);
        }
        for (size_t i = 0; i < count; i++) mine[i] = drawn(&state, 4) ? drawn(&state, RANGE) : key;
        vbr_map_has_all(&maps[who], mine, count, told);
        vbr_map_get_all(&maps[who], mine, count, given);
        for (size_t i = 0; i < count; i++) {
            CHECK(told[i] >= 0 && given[i].answer >= 0 && (given[i].answer == VBR_YES || given[i].value == 0));
            CHECK(given[i].answer == VBR_NO || given[i].value % RANGE == (mine[i] + 1) % RANGE);
            if (mine[i] % THREADS != who) continue;
            CHECK(told[i] == given[i].answer && given[i].value == values[mine[i]]);
            CHECK(vbr_map_has(&maps[who], mine[i]) == told[i]);
        }
    }
    return 0;
}

static void *run(void *who) {
    if (change_and_look((uint64_t)(uintptr_t)who)) failed = 1;
    done++;
    return NULL;
}

static void threads(void) {
    pthread_t thread[THREADS];
    CHECK(vbr_map_open(maps, THREADS, RANGE + 64 * THREADS, RANGE / 4, VBR_MAX_EPOCH) == VBR_OK);
    for (uintptr_t i = 0; i < THREADS; i++) CHECK(pthread_create(&thread[i], NULL, run, (void *)i) == 0);
    for (int i = 0; i < THREADS; i++) CHECK(pthread_join(thread[i], NULL) == 0);
    for (int i = 0; i < THREADS; i++) vbr_map_drop(&maps[i]);
    CHECK(!failed && done == THREADS);
}

int main(void) {
    static const size_t counts[9] = {0, 1, 2, 15, 16, 17, 33, 99, 100};
    none(), refusals();
    for (int i = 0; i < 9; i++)
        if (odd_keys(counts[i])) return 1;
    threads();
    puts("look-ups in batches, of sets and of maps, alone and on four threads: passed");
    return 0;
}
