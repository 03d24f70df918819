/* Sets with many buckets: full to the last slot, more buckets than slots, and keys that share a bucket. */
#include "client.h"

static uint64_t keys[1000];
static vbr_report report;

/* Each slot holds a key in the end, whatever was removed in between, and one key more finds none. */
static void full_to_the_last_slot(void) {
    vbr_handle one = {0};
    CHECK(vbr_open(&one, 1, 1000, 1u << 20, VBR_MAX_EPOCH) == VBR_OK);
    for (uint64_t key = 0; key < 1000; key++) CHECK(vbr_insert(&one, 4096 * key) == VBR_YES);
    for (int again = 0; again < 3; again++) CHECK(vbr_insert(&one, 7) == VBR_NO_SLOT);
    for (uint64_t key = 0; key < 1000; key += 7) CHECK(vbr_remove(&one, 4096 * key) == VBR_YES);
    for (uint64_t key = 0; key < 1000; key += 7) CHECK(vbr_insert(&one, 4096 * key + 1) == VBR_YES);
    CHECK(vbr_insert(&one, 7) == VBR_NO_SLOT);
    CHECK(vbr_close(&one, keys, 1000, &report) == VBR_YES);
    CHECK(report.live == 1000 && report.free == 0);
    for (int i = 0; i < 1000; i++) CHECK(keys[i] == 4096 * (uint64_t)i + (i % 7 == 0));
}

/* A handle whose last look for a slot was far behind finds what another gave back to the first words. */
static void given_back_ahead_of_the_search(void) {
    vbr_handle two[2] = {{0}};
    CHECK(vbr_open(two, 2, 1000, 4, VBR_MAX_EPOCH) == VBR_OK);
    for (uint64_t key = 0; key < 500; key++) CHECK(vbr_insert(&two[0], key) == VBR_YES);
    CHECK(vbr_give_slots_back(&two[0]) >= 28); /* its reserve: there are as many slots as keys, and none beyond them */
    for (uint64_t key = 500; key < 1000; key++) CHECK(vbr_insert(&two[1], key) == VBR_YES);
    for (uint64_t key = 0; key < 500; key++) CHECK(vbr_remove(&two[0], key) == VBR_YES);
    uint64_t found = 0;
    while (vbr_insert(&two[1], 1000 + found) == VBR_YES) found++;
    CHECK(found >= 500 - 64);
    CHECK(vbr_insert(&two[1], 5000) == VBR_NO_SLOT);
    CHECK(vbr_close(&two[0], keys, 0, &report) == VBR_NO);
    CHECK(vbr_close(&two[1], keys, 1000, &report) == VBR_YES && report.live == 500 + found);
}

/* All keys of one bucket: with seed 0 the first of two has the keys whose product with this number has no highest bit. */
static void keys_of_one_bucket(void) {
    vbr_handle one = {0};
    uint64_t key = 0;
    CHECK(vbr_open_seeded(&one, 1, 400, 2, VBR_MAX_EPOCH, 0, keys, 0) == VBR_OK);
    for (int i = 0; i < 400; i++, key++) {
        while (key * 0x9E3779B97F4A7C15 >> 63) key++;
        CHECK(vbr_insert(&one, key) == VBR_YES && vbr_insert(&one, key) == VBR_NO);
    }
    CHECK(vbr_has_within(&one, key - 1, 1000) == VBR_OUT_OF_STEPS);
    CHECK(vbr_has_within(&one, key - 1, 5 * 400 + 11) == VBR_YES);
    CHECK(vbr_close(&one, keys, 400, &report) == VBR_YES && report.live == 400);
    for (int i = 1; i < 400; i++) CHECK(keys[i - 1] < keys[i]);
}

int main(void) {
    full_to_the_last_slot(), given_back_ahead_of_the_search(), keys_of_one_bucket();
    puts("many buckets in C: passed");
    return 0;
}
