/* Balances, which add up to the number of keys, and sets and maps that are reported and renewed by all their handles: each answer
   of these calls, in one thread. */
#include "client.h"

static vbr_report report;

/* What is counted: calls that are answered VBR_YES, and no others. */
static void counts(void) {
    static const uint64_t some[3] = {2, 5, 9};
    vbr_handle handle[2] = {{0}}, none = {0};
    CHECK(vbr_balance(&none) == 0);
    CHECK(vbr_open_with(handle, 2, 64, 8, 1000, some, 3) == VBR_OK);
    CHECK(vbr_balance(&handle[0]) == 3 && vbr_balance(&handle[1]) == 0);
    CHECK(vbr_insert(&handle[1], 5) == VBR_NO && vbr_insert(&handle[1], 6) == VBR_YES);
    CHECK(vbr_insert_within(&handle[1], 7, 1) == VBR_OUT_OF_STEPS && vbr_has(&handle[1], 6) == VBR_YES);
    CHECK(vbr_balance(&handle[1]) == 1);
    CHECK(vbr_remove(&handle[1], 7) == VBR_NO && vbr_remove(&handle[1], 2) == VBR_YES);
    CHECK(vbr_remove(&handle[1], 5) == VBR_YES && vbr_balance(&handle[1]) == -1);
    int64_t keys = vbr_balance(&handle[0]) + vbr_balance(&handle[1]); // no call is under way
    CHECK(keys == 2);
    for (int i = 0; i < 2; i++) vbr_drop(&handle[i]);
}

/* A report that leaves the handles open, and each refusal of it. */
static void reports(void) {
    vbr_handle handle[2] = {{0}}, other = {0};
    uint64_t keys[8] = {0};
    CHECK(vbr_open(handle, 2, 1024 + 2 * 64, 1024, VBR_MAX_EPOCH) == VBR_OK);
    CHECK(vbr_insert(&handle[0], 5) == VBR_YES && vbr_insert(&handle[1], 2) == VBR_YES);
    vbr_answer told = vbr_report_all(handle, 2, keys, 8, &report); // VBR_YES: report.live keys are in front of keys
    CHECK(told == VBR_YES && report.live == 2 && report.epoch == 1 && keys[0] == 2 && keys[1] == 5 && keys[2] == 0);
    CHECK(vbr_remove(&handle[0], 2) == VBR_YES && vbr_balance(&handle[0]) == 0 && vbr_balance(&handle[1]) == 1);
    keys[0] = 77, report.live = 77;
    CHECK(vbr_report_all(handle, 2, keys, 0, &report) == VBR_NO_ROOM && report.live == 1 && keys[0] == 77);
    report.live = 77;
    CHECK(vbr_report_all(handle, 1, keys, 8, &report) == VBR_MISSING && vbr_report_all(handle, 0, keys, 8, &report) == VBR_MISSING);
    vbr_handle mixed[2] = {handle[0], {0}};
    CHECK(vbr_report_all(mixed, 2, keys, 8, &report) == VBR_NO_HANDLE);
    CHECK(vbr_open(&other, 1, 8, 8, 1000) == VBR_OK);
    mixed[1] = other;
    CHECK(vbr_report_all(mixed, 2, keys, 8, &report) == VBR_MIXED && report.live == 77 && keys[0] == 77);
    other = mixed[1], handle[0] = mixed[0];
    CHECK(vbr_report_all(handle, 2, keys, 8, &report) == VBR_YES && report.live == 1 && keys[0] == 5);
    CHECK(vbr_close_all(handle, 2, keys, 8, &report) == VBR_YES && report.live == 1 && keys[0] == 5);
    vbr_drop(&other);
}

/* Handles that go on over a fresh set of another shape, and each refusal, after which they go on as they were. */
static void renewals(void) {
    vbr_handle handle[2] = {{0}}, other = {0};
    uint64_t keys[8] = {0};
    CHECK(vbr_open(handle, 2, 4, 1, 3) == VBR_OK);
    for (uint64_t key = 5; key < 7; key++) CHECK(vbr_insert(&handle[0], key) == VBR_YES);
    CHECK(vbr_remove(&handle[1], 6) == VBR_YES && vbr_insert(&handle[1], 2) == VBR_YES);
    CHECK(vbr_renew_all(handle, 2, 0, 8, 1000) == VBR_BAD_SHAPE && vbr_renew_all(handle, 1, 8, 8, 1000) == VBR_MISSING);
    CHECK(vbr_renew_all(handle, 0, 8, 8, 1000) == VBR_MISSING && vbr_renew_all(handle, 2, 1, 1, 1000) == VBR_NO_ROOM);
    vbr_handle mixed[2] = {handle[0], {0}};
    CHECK(vbr_renew_all(mixed, 2, 8, 8, 1000) == VBR_NO_HANDLE);
    CHECK(vbr_open(&other, 1, 8, 8, 1000) == VBR_OK);
    mixed[1] = other;
    CHECK(vbr_renew_all(mixed, 2, 8, 8, 1000) == VBR_MIXED);
    other = mixed[1], handle[0] = mixed[0];
    CHECK(vbr_slots(&handle[0]) == 4 && vbr_balance(&handle[0]) == 2 && vbr_balance(&handle[1]) == 0);
    vbr_answer renewed = vbr_renew_all(handle, 2, 2048 + 2 * 64, 2048, VBR_MAX_EPOCH); // VBR_OK: twice as large
    CHECK(renewed == VBR_OK && vbr_slots(&handle[1]) == 2048 + 2 * 64 && vbr_buckets(&handle[0]) == 2048);
    CHECK(vbr_epoch(&handle[0]) == 1 && vbr_last_epoch(&handle[1]) == VBR_MAX_EPOCH);
    CHECK(vbr_balance(&handle[0]) == 2 && vbr_balance(&handle[1]) == 0);
    CHECK(vbr_remove(&handle[1], 5) == VBR_YES && vbr_insert(&handle[0], 2) == VBR_NO);
    CHECK(vbr_insert(&handle[1], 9) == VBR_YES);
    CHECK(vbr_close_all(handle, 2, keys, 8, &report) == VBR_YES && report.live == 2 && keys[0] == 2 && keys[1] == 9);
    vbr_drop(&other);
}

/* The same of a map, whose values go along. */
static void of_maps(void) {
    static const vbr_entry some[2] = {{2, 20}, {5, 50}};
    vbr_map_handle map[2] = {{0}};
    vbr_entry entries[8] = {{0}};
    uint64_t value = 0;
    CHECK(vbr_map_open_with(map, 2, 8 + 2 * 64, 8, 1000, some, 2) == VBR_OK);
    CHECK(vbr_map_insert(&map[1], 9, 90) == VBR_YES && vbr_map_remove(&map[1], 2, &value) == VBR_YES);
    CHECK(vbr_map_put(&map[1], 5, 51, &value) == VBR_YES && vbr_map_put(&map[1], 6, 60, NULL) == VBR_NO);
    CHECK(vbr_map_replace(&map[0], 9, 91, &value) == VBR_YES && vbr_map_replace(&map[0], 1, 10, &value) == VBR_NO);
    CHECK(vbr_map_get_or_insert(&map[0], 7, 70, NULL) == VBR_NO && vbr_map_get_or_insert(&map[0], 7, 71, NULL) == VBR_YES);
    CHECK(vbr_map_compare_exchange(&map[0], 7, 70, 72, &value) == VBR_YES);
    CHECK(vbr_map_remove_if(&map[0], 7, 70, &value) == VBR_OTHER && vbr_map_remove_if(&map[0], 6, 60, &value) == VBR_YES);
    CHECK(vbr_map_balance(&map[0]) == 2 && vbr_map_balance(&map[1]) == 1);
    int64_t entered = vbr_map_balance(&map[0]) + vbr_map_balance(&map[1]); // no call is under way
    vbr_answer told = vbr_map_report_all(map, 2, entries, 8, &report); // VBR_YES: report.live entries are in front of entries
    CHECK(told == VBR_YES && report.live == 3 && entered == 3 && entries[0].key == 5 && entries[0].value == 51);
    CHECK(vbr_map_renew_all(map, 2, 2, 8, 1000) == VBR_NO_ROOM && vbr_map_renew_all(map, 1, 8, 8, 1000) == VBR_MISSING);
    vbr_answer renewed = vbr_map_renew_all(map, 2, 2048 + 2 * 64, 2048, VBR_MAX_EPOCH); // VBR_OK: twice as large
    CHECK(renewed == VBR_OK && vbr_map_balance(&map[0]) == 3 && vbr_map_balance(&map[1]) == 0);
    CHECK(vbr_map_get(&map[1], 9, &value) == VBR_YES && value == 91 && vbr_map_slots(&map[0]) == 2048 + 2 * 64);
    CHECK(vbr_map_close_all(map, 2, entries, 8, &report) == VBR_YES && report.live == 3);
    CHECK(entries[0].value == 51 && entries[1].key == 7 && entries[1].value == 72 && entries[2].value == 91);
}

int main(void) {
    counts(), reports(), renewals(), of_maps();
    puts("balances that add up, reports and renewals by all handles, of sets and maps");
    return 0;
}
