/* Seeds: keys that were chosen against a seed that is known, and the same keys with one that is drawn; which seed a set has, which it
   keeps, and which it is given; and what an opening draws where the system has no random number. Link with -Wl,--wrap=getrandom. */
#include "client.h"

#include <sys/types.h>

/* Seed 0 has keys multiplied by the first number; the second is its inverse. */
static const uint64_t MIXER = 0x9E3779B97F4A7C15u, INVERSE = 0xF1DE83E19937733Du;

enum { BUCKETS = 1 << 16, CHOSEN = 45000, SLOTS = BUCKETS + 64, ORDERED = 200 };

static uint64_t chosen[CHOSEN + 1], ordered[ORDERED], given[ORDERED], others[ORDERED];

ssize_t __real_getrandom(void *bytes, size_t count, unsigned flags);
ssize_t __wrap_getrandom(void *bytes, size_t count, unsigned flags);
static int system_refuses;
static unsigned draws;
ssize_t __wrap_getrandom(void *bytes, size_t count, unsigned flags) {
    draws++;
    return system_refuses ? -1 : __real_getrandom(bytes, count, flags);
}

static int by_number(const void *a, const void *b) {
    uint64_t x = *(const uint64_t *)a, y = *(const uint64_t *)b;
    return x < y ? -1 : x > y;
}

/* The keys whose products with the first number have no bit among the upper 16: one bucket of 2^16 has them all. */
static void choose_keys(void) {
    uint64_t random = 88172645463325252u;
    CHECK(MIXER * INVERSE == 1);
    for (int i = 0; i <= CHOSEN; i++) {
        next(&random);
        chosen[i] = (random >> 16) * INVERSE;
    }
    qsort(chosen, CHOSEN + 1, sizeof chosen[0], by_number);
    for (int i = 0; i < CHOSEN; i++) CHECK(chosen[i] < chosen[i + 1]);
}

/* With the known seed a look-up of the last key passes all others, five steps for each, and nothing more can be inserted there. */
static void chosen_against_the_known_seed(void) {
    vbr_handle one = {0};
    CHECK(vbr_open_seeded(&one, 1, SLOTS, BUCKETS, VBR_MAX_EPOCH, 0, chosen, CHOSEN) == VBR_OK);
    CHECK(vbr_has_within(&one, chosen[CHOSEN - 1], 5 * (CHOSEN - 1)) == VBR_OUT_OF_STEPS);
    CHECK(vbr_has_within(&one, chosen[CHOSEN - 1], 5 * CHOSEN + 11) == VBR_YES);
    CHECK(vbr_insert(&one, chosen[CHOSEN]) == VBR_OUT_OF_STEPS);
    vbr_drop(&one);
}

/* With a drawn one each key is found among few: 64 keys in one bucket of 2^16 are more than chance ever has. */
static void the_same_keys_with_a_drawn_seed(void) {
    vbr_handle one = {0};
    CHECK(vbr_open_with(&one, 1, SLOTS, BUCKETS, VBR_MAX_EPOCH, chosen, CHOSEN) == VBR_OK);
    for (int i = 0; i < CHOSEN; i++) CHECK(vbr_has_within(&one, chosen[i], 5 * 64 + 11) == VBR_YES);
    CHECK(vbr_insert(&one, chosen[CHOSEN]) == VBR_YES);
    vbr_drop(&one);
}

/* The keys in the order of a walk: that of their buckets. */
static int walk(vbr_handle *handle, uint64_t *to) {
    vbr_cursor cursor = VBR_CURSOR_BEGIN;
    for (int i = 0; i < ORDERED; i++) CHECK(vbr_next(handle, &cursor, &to[i]) == VBR_YES);
    return 0;
}

static int are_same(const uint64_t *a, const uint64_t *b) {
    for (int i = 0; i < ORDERED; i++)
        if (a[i] != b[i]) return 0;
    return 1;
}

/* Whether the keys are in the buckets that a seed gives them: the upper half of a product tells which part of the buckets it is. */
static int are_spread_by(uint64_t seed, uint32_t buckets, const uint64_t *keys) {
    uint64_t multiplier = (2 * seed + 1) * MIXER, last = 0;
    for (int i = 0; i < ORDERED; i++) {
        uint64_t bucket = (keys[i] * multiplier >> 32) * buckets >> 32;
        if (bucket < last || (i > 0 && bucket == last && keys[i] <= keys[i - 1])) return 0;
        last = bucket;
    }
    return 1;
}

static void given_seeds(void) {
    static const uint64_t seeds[] = {0, 1, 7, 1ull << 62, (1ull << 63) - 1, 1ull << 63, UINT64_MAX};
    for (size_t i = 0; i < sizeof seeds / sizeof seeds[0]; i++) {
        vbr_handle two[2] = {{0}};
        CHECK(vbr_open_seeded(two, 2, SLOTS, 1000, VBR_MAX_EPOCH, seeds[i], ordered, ORDERED) == VBR_OK);
        CHECK(vbr_seed(&two[0]) == seeds[i] % (1ull << 63) && vbr_seed(&two[1]) == vbr_seed(&two[0]));
        CHECK(!walk(&two[1], given) && are_spread_by(seeds[i], 1000, given));
        CHECK(vbr_renew_all(two, 2, SLOTS, 500, VBR_MAX_EPOCH) == VBR_OK); /* it keeps its seed */
        CHECK(vbr_seed(&two[0]) == seeds[i] % (1ull << 63) && !walk(&two[0], given) && are_spread_by(seeds[i], 500, given));
        CHECK(vbr_renew_all_seeded(two, 2, SLOTS, 500, VBR_MAX_EPOCH, 12345) == VBR_OK);
        CHECK(vbr_seed(&two[0]) == 12345 && !walk(&two[0], others) && are_spread_by(12345, 500, others) && !are_same(given, others));
        for (int h = 0; h < 2; h++) vbr_drop(&two[h]);
    }
}

/* What is refused: as without a seed, in the same order. */
static void refused(void) {
    vbr_handle two[2] = {{0}};
    uint64_t unsorted[2] = {7, 3};
    CHECK(vbr_seed(&two[0]) == 0);
    CHECK(vbr_open_seeded(two, 2, 8, 0, 1000, 7, ordered, 3) == VBR_BAD_SHAPE);
    CHECK(vbr_open_seeded(two, 0, 8, 8, 1000, 7, ordered, 3) == VBR_BAD_COUNT);
    CHECK(vbr_open_seeded(two, 2, 8, 8, 1000, 7, unsorted, 2) == VBR_BAD_KEYS);
    CHECK(vbr_open_seeded(two, 2, 2, 8, 1000, 7, ordered, 3) == VBR_BAD_KEYS);
    CHECK(vbr_open_seeded(two, 2, 8, 8, 1000, 7, ordered, 3) == VBR_OK);
    CHECK(vbr_open_seeded(two, 2, 8, 8, 1000, 9, ordered, 3) == VBR_IN_USE && vbr_seed(&two[0]) == 7);
    CHECK(vbr_renew_all_seeded(two, 2, 8, 0, 1000, 9) == VBR_BAD_SHAPE && vbr_renew_all_seeded(two, 1, 8, 8, 1000, 9) == VBR_MISSING);
    CHECK(vbr_renew_all_seeded(two, 2, 2, 8, 1000, 9) == VBR_NO_ROOM && vbr_renew_all(two, 0, 8, 8, 1000) == VBR_MISSING);
    CHECK(vbr_seed(&two[1]) == 7 && vbr_has(&two[1], ordered[2]) == VBR_YES);
    for (int i = 0; i < 2; i++) vbr_drop(&two[i]);
}

/* Each opening draws a seed of its own, also where the system refuses. */
static void drawn_seeds(void) {
    vbr_handle one = {0}, other = {0};
    draws = 0;
    CHECK(vbr_open(&one, 1, SLOTS, 1000, VBR_MAX_EPOCH) == VBR_OK);
    CHECK(vbr_open_with(&other, 1, SLOTS, 1000, VBR_MAX_EPOCH, ordered, ORDERED) == VBR_OK);
    CHECK(draws == 2 && vbr_seed(&one) != vbr_seed(&other));
    CHECK(!walk(&other, given) && are_spread_by(vbr_seed(&other), 1000, given));
    uint64_t seed = vbr_seed(&other);
    CHECK(vbr_renew_all(&other, 1, SLOTS, 1000, VBR_MAX_EPOCH) == VBR_OK && draws == 2 && vbr_seed(&other) == seed);
    CHECK(vbr_renew_all_seeded(&other, 1, SLOTS, 1000, VBR_MAX_EPOCH, vbr_random_seed()) == VBR_OK);
    CHECK(draws == 3 && vbr_seed(&other) != seed && !walk(&other, others) && !are_same(given, others));
    vbr_drop(&one);
    vbr_drop(&other);
}

/* A set whose keys have the same buckets as those of another. */
static int opened_alike(void) {
    static const uint64_t some[3] = {2, 5, 9};
    static const vbr_entry some_entries[3] = {{2, 20}, {5, 50}, {9, 90}};
    vbr_handle handle[2] = {{0}};
    vbr_map_handle map[2] = {{0}};
    uint64_t value = 0;
    {
        if (vbr_open_seeded(handle, 2, 1024 + 2 * 64, 1024, VBR_MAX_EPOCH, 7, some, 3) != VBR_OK) return 1;
        uint64_t seed = vbr_seed(&handle[0]); // opens a set whose keys have the same buckets
        vbr_answer renewed = vbr_renew_all_seeded(handle, 2, 2048 + 2 * 64, 2048, VBR_MAX_EPOCH, vbr_random_seed());
        CHECK(seed == 7 && renewed == VBR_OK && vbr_has(&handle[1], 9) == VBR_YES);
    }
    {
        if (vbr_map_open_seeded(map, 2, 1024 + 2 * 64, 1024, VBR_MAX_EPOCH, 7, some_entries, 3) != VBR_OK) return 1;
        uint64_t seed = vbr_map_seed(&map[0]); // opens a map whose keys have the same buckets
        vbr_answer renewed = vbr_map_renew_all_seeded(map, 2, 2048 + 2 * 64, 2048, VBR_MAX_EPOCH, vbr_random_seed());
        CHECK(seed == 7 && renewed == VBR_OK && vbr_map_get(&map[1], 9, &value) == VBR_YES && value == 90);
    }
    for (int i = 0; i < 2; i++) vbr_drop(&handle[i]), vbr_map_drop(&map[i]);
    return 0;
}

/* A thousand handles, by a given seed and by a drawn one. */
static int many_alike(void) {
    static const uint64_t some[3] = {2, 5, 9};
    static const vbr_entry some_entries[3] = {{2, 20}, {5, 50}, {9, 90}};
    static vbr_handle seeded[1000];
    static vbr_map_handle seeded_maps[1000];
    uint64_t value = 0;
    if (vbr_open_many_seeded(seeded, 1000, 1024 + 1000 * 64, 1024, VBR_MAX_EPOCH, 7, some, 3) != VBR_OK) return 1;
    if (vbr_map_open_many_seeded(seeded_maps, 1000, 1024 + 1000 * 64, 1024, VBR_MAX_EPOCH, 7, some_entries, 3) != VBR_OK) return 1;
    CHECK(vbr_seed(&seeded[999]) == 7 && vbr_has(&seeded[999], 9) == VBR_YES);
    CHECK(vbr_map_seed(&seeded_maps[64]) == 7 && vbr_map_get(&seeded_maps[64], 9, &value) == VBR_YES && value == 90);
    for (int i = 0; i < 1000; i++) vbr_drop(&seeded[i]), vbr_map_drop(&seeded_maps[i]);
    draws = 0;
    CHECK(vbr_open_many(seeded, 100, 1024 + 100 * 64, 1024, VBR_MAX_EPOCH, some, 3) == VBR_OK);
    CHECK(vbr_map_open_many(seeded_maps, 100, 1024 + 100 * 64, 1024, VBR_MAX_EPOCH, some_entries, 3) == VBR_OK && draws == 2);
    CHECK(vbr_seed(&seeded[0]) == vbr_seed(&seeded[99]) && vbr_seed(&seeded[0]) != vbr_map_seed(&seeded_maps[0]));
    for (int i = 0; i < 100; i++) vbr_drop(&seeded[i]), vbr_map_drop(&seeded_maps[i]);
    return 0;
}

int main(void) {
    for (int i = 0; i < ORDERED; i++) ordered[i] = (uint64_t)i * 4096;
    choose_keys(), chosen_against_the_known_seed(), given_seeds(), refused();
    if (opened_alike() || many_alike()) return 1;
    for (system_refuses = 0; system_refuses < 2; system_refuses++)
        the_same_keys_with_a_drawn_seed(), drawn_seeds();
    puts("seeds in C: passed");
    return 0;
}
