/* The headers in C99 to C23 and C++11 to C++23, with every warning: each name of them is used once, and the program runs.
   tools/interface makes it of bindings/interface/headers.c.in. */
#include "vbr.h"
#include "vbr_lend.h"
#include "vbr_records.h"
#include "vbr_shared.h"

#include <stdio.h>

#define CHECK(x) do { if (!(x)) { fprintf(stderr, "headers.c:%d: %s\n", __LINE__, #x); return 1; } } while (0)

/* What is empty, and an array of such; and that calls don't throw. */
#ifdef __cplusplus
#define EMPTY {}
#define EMPTY_EACH {}
#define THROWS_NONE(call, other) static_assert(noexcept(call) && noexcept(other), "no call throws")
#else
#define EMPTY {0}
#define EMPTY_EACH {{0}}
#define THROWS_NONE(call, other) ((void)0)
#endif

enum { KEYS = 8, HANDLES = 2, SLOTS = KEYS + HANDLES * 64 };

/* Each answer once: a compiler that knows the enum warns if one is missing. */
static const char *text_of(vbr_answer answer) {
    switch (answer) {
    case VBR_NO: case VBR_YES: case VBR_OTHER: case VBR_OUT_OF_STEPS: case VBR_NO_SLOT: case VBR_EPOCH_SPENT: case VBR_NO_HANDLE:
    case VBR_IN_USE: case VBR_BAD_SHAPE: case VBR_BAD_COUNT: case VBR_NO_MEMORY: case VBR_LOST: case VBR_BAD_KEYS:
    case VBR_NO_ROOM: case VBR_MISSING: case VBR_MIXED: case VBR_HELD: case VBR_RESHAPED: return vbr_answer_text(answer);
    }
    return "another";
}

static int check(void) {
    static const uint64_t opening[2] = {3, 4};
    uint64_t keys[KEYS] = {0}, given = 0;
    uint64_t key = 5;
    vbr_handle handle[HANDLES] = EMPTY_EACH, none = EMPTY;
    vbr_report report = EMPTY;
    vbr_lender lender = EMPTY;
    vbr_answer answers[1];
    vbr_cursor cursor = VBR_CURSOR_BEGIN;
    THROWS_NONE(vbr_has_within(&none, 1, 8), vbr_drop(&none));
    CHECK(sizeof(vbr_handle) == 24 && offsetof(vbr_handle, in_call) == 12 && offsetof(vbr_handle, opening) == 16);
    CHECK(sizeof(vbr_cursor) == 16 && offsetof(vbr_cursor, opening) == 4 && sizeof(vbr_answer) == 4 && sizeof(vbr_entry) == 16 && sizeof(vbr_report) == 24);
    CHECK(VBR_VERSION == 1000000 * VBR_VERSION_MAJOR + 1000 * VBR_VERSION_MINOR + VBR_VERSION_PATCH && vbr_version() == VBR_VERSION);
    CHECK(VBR_AMPLE_STEPS >= 100000 + (1 << 24) / 64);
    CHECK(VBR_MAX_FEW_HANDLES == 64 && VBR_MAX_SLOTS == 2147483647 && VBR_MAX_BUCKETS == 2147483648 && VBR_MAX_EPOCH == (UINT64_C(1) << 39) - 1);
    CHECK(vbr_max_epoch(1) == UINT64_MAX >> 2 && vbr_max_epoch((1u << 24) - 1) == VBR_MAX_EPOCH && vbr_max_epoch(1u << 24) == VBR_MAX_EPOCH / 2);
    CHECK(vbr_max_epoch(VBR_MAX_SLOTS) == UINT32_MAX && vbr_max_epoch(0) == 0 && vbr_max_epoch(VBR_MAX_SLOTS + 1) == 0);
    CHECK(vbr_open(handle, HANDLES, SLOTS, KEYS, VBR_MAX_EPOCH) == VBR_OK);
    CHECK(vbr_epoch(&handle[0]) == 1 && vbr_last_epoch(&handle[0]) == VBR_MAX_EPOCH);
    CHECK(vbr_slots(&handle[0]) == SLOTS && vbr_buckets(&handle[0]) == KEYS && vbr_steps_of(&handle[0]) == VBR_AMPLE_STEPS);
    CHECK(vbr_open_with(handle, HANDLES, SLOTS, KEYS, VBR_MAX_EPOCH, opening, 2) == VBR_IN_USE);
    vbr_lender_init(&lender, handle, HANDLES);
    vbr_handle *mine = vbr_lend(&lender);
    CHECK(mine == &handle[0]);
    vbr_answer added = vbr_insert(mine, 5);
    CHECK(added == VBR_YES && text_of(added)[0] == 'y' && text_of(vbr_has(&none, 5))[3] == 'h');
    CHECK(vbr_lender_on_loan(&lender) == 1 && vbr_lender_count_about(&lender) == 0);
    vbr_give_back(&lender, mine);
    vbr_lender_recount(&lender);
    CHECK(vbr_lender_on_loan(&lender) == 0 && vbr_lender_count_about(&lender) == 1);
    VBR_IGNORE(vbr_has(&none, 5));
    CHECK(vbr_has(&handle[1], 5) == VBR_YES && vbr_remove(&handle[1], 6) == VBR_NO);
    CHECK(vbr_next(&handle[1], &cursor, &given) == VBR_YES && given == 5);
    CHECK(vbr_next(&handle[1], &cursor, &given) == VBR_NO && vbr_next(&none, &cursor, &given) == VBR_NO_HANDLE);
    vbr_has_all(&handle[0], &key, 1, answers);
    CHECK(answers[0] == VBR_YES);
    vbr_has_all_within(&handle[0], &key, 1, answers, 8);
    CHECK(answers[0] == VBR_OUT_OF_STEPS && vbr_answer_text(answers[0])[0] == 'o');
    CHECK(vbr_insert_within(&handle[0], 5, 1000) == VBR_NO && vbr_has_within(&handle[0], 5, 1000) == VBR_YES);
    CHECK(vbr_remove_within(&handle[0], 6, 1000) == VBR_NO && vbr_next_within(&handle[1], &cursor, &given, 1000) == VBR_NO);
    CHECK(vbr_close_all(handle, HANDLES, keys, 0, &report) == VBR_NO_ROOM && report.live == 1);
    CHECK(vbr_close(&handle[0], keys, KEYS, &report) == VBR_NO && vbr_close(&handle[1], keys, KEYS, &report) == VBR_YES);
    CHECK(report.live == 1 && keys[0] == 5);
    vbr_drop(&none), vbr_end_all(handle, HANDLES);
    return 0;
}

static int check_slots(void) {
    static vbr_handle handle[HANDLES], none;
    static uint64_t block[SLOTS];
    uint32_t slot = SLOTS, slots[KEYS] = {0};
    uint64_t key = 0, mine = 70, seen = 0;
    uint64_t keys[KEYS] = {0};
    vbr_incarnation at = {0, 0, 0};
    vbr_cursor cursor = VBR_CURSOR_BEGIN, again = VBR_CURSOR_BEGIN;
    vbr_records records = EMPTY;
    vbr_report report = EMPTY;
    THROWS_NONE(vbr_hold(&none, &slot), vbr_records_read(&none, &records, 5, &seen, &at));
    CHECK(sizeof(vbr_incarnation) == 24 && vbr_open(handle, HANDLES, SLOTS, KEYS, VBR_MAX_EPOCH) == VBR_OK);
    CHECK(vbr_records_size(SLOTS, sizeof mine) == sizeof block && vbr_records_open(&records, SLOTS, sizeof mine, block) == VBR_OK);
    CHECK(vbr_hold(&handle[0], &slot) == VBR_YES && text_of(vbr_hold_within(&handle[0], &slot, 500))[0] == 'a' && slot < SLOTS);
    CHECK(vbr_let_go(&handle[0]) == VBR_YES && vbr_hold_within(&handle[0], &slot, 500) == VBR_YES);
    vbr_records_write(&records, slot, &mine);
    CHECK(vbr_insert_held(&handle[0], 5) == VBR_YES && vbr_insert_held_within(&handle[0], 6, 500) == VBR_HELD);
    CHECK(vbr_get_entry(&handle[1], 5, &at) == VBR_YES && vbr_get_entry_within(&handle[1], 6, &at, 500) == VBR_NO);
    CHECK(at.slot == slot && at.value == 0);
    vbr_records_copy(&records, at.slot, &seen);
    CHECK(vbr_is_still(&handle[1], &at) == VBR_YES && seen == 70 && vbr_is_still(&none, &at) == VBR_NO_HANDLE);
    CHECK(vbr_records_read(&handle[1], &records, 5, &seen, &at) == VBR_YES && vbr_records_read(&none, &records, 5, &seen, &at) == VBR_NO_HANDLE);
    CHECK(seen == 0 && vbr_next_at(&handle[1], &cursor, &key, &at) == VBR_YES && key == 5);
    CHECK(vbr_next_at_within(&handle[1], &cursor, &key, &at, 500) == VBR_NO);
    CHECK(vbr_records_next(&handle[1], &again, &records, &key, &seen, &at) == VBR_YES && key == 5 && seen == 70);
    CHECK(vbr_report_slots(handle, HANDLES, keys, slots, KEYS, &report) == VBR_YES && slots[0] == slot && keys[0] == 5);
    CHECK(vbr_records_renew_all(handle, HANDLES, SLOTS, KEYS, VBR_MAX_EPOCH, &records, NULL) == VBR_OK && records.words != block);
    CHECK(vbr_records_read(&handle[0], &records, 5, &seen, &at) == VBR_YES && seen == 70);
    CHECK(vbr_remove_entry(&handle[1], 5, &at) == VBR_YES && vbr_remove_entry_within(&handle[1], 5, &at, 500) == VBR_NO);
    vbr_end_all(handle, HANDLES), vbr_records_close(&records);
    return 0;
}

static int check_maps(void) {
    static const vbr_entry opening[2] = {{3, 30}, {4, 40}};
    vbr_entry entries[KEYS] = {{0, 0}}, given = {0, 0};
    uint64_t value = 0;
    vbr_found found[1];
    uint64_t key = 5;
    vbr_map_handle map[HANDLES] = EMPTY_EACH, none = EMPTY;
    vbr_report report = EMPTY;
    vbr_map_lender lender = EMPTY;
    vbr_answer answers[1];
    vbr_cursor cursor = VBR_CURSOR_BEGIN;
    THROWS_NONE(vbr_map_has_within(&none, 1, 8), vbr_map_drop(&none));
    CHECK(sizeof(vbr_map_handle) == 24 && offsetof(vbr_map_handle, in_call) == 12 && offsetof(vbr_map_handle, opening) == 16);
    CHECK(vbr_map_open(map, HANDLES, SLOTS, KEYS, VBR_MAX_EPOCH) == VBR_OK);
    CHECK(vbr_map_epoch(&map[0]) == 1 && vbr_map_last_epoch(&map[0]) == VBR_MAX_EPOCH);
    CHECK(vbr_map_slots(&map[0]) == SLOTS && vbr_map_buckets(&map[0]) == KEYS && vbr_map_steps_of(&map[0]) == VBR_AMPLE_STEPS);
    CHECK(vbr_map_open_with(map, HANDLES, SLOTS, KEYS, VBR_MAX_EPOCH, opening, 2) == VBR_IN_USE);
    vbr_map_lender_init(&lender, map, HANDLES);
    vbr_map_handle *mine = vbr_map_lend(&lender);
    CHECK(mine == &map[0]);
    vbr_answer added = vbr_map_insert(mine, 5, 50);
    CHECK(added == VBR_YES && text_of(added)[0] == 'y' && text_of(vbr_map_has(&none, 5))[3] == 'h');
    CHECK(vbr_map_lender_on_loan(&lender) == 1 && vbr_map_lender_count_about(&lender) == 0);
    vbr_map_give_back(&lender, mine);
    vbr_map_lender_recount(&lender);
    CHECK(vbr_map_lender_on_loan(&lender) == 0 && vbr_map_lender_count_about(&lender) == 1);
    VBR_IGNORE(vbr_map_has(&none, 5));
    CHECK(vbr_map_has(&map[1], 5) == VBR_YES && vbr_map_remove(&map[1], 6, &value) == VBR_NO);
    CHECK(vbr_map_get(&map[1], 5, &value) == VBR_YES && value == 50);
    CHECK(vbr_map_replace(&map[0], 5, 51, &value) == VBR_YES && value == 50);
    CHECK(vbr_map_put(&map[0], 5, 52, &value) == VBR_YES && value == 51);
    CHECK(vbr_map_get_or_insert(&map[0], 5, 53, &value) == VBR_YES && value == 52);
    CHECK(text_of(vbr_map_remove_if(&map[0], 5, 53, &value))[1] == 'n' && value == 52);
    CHECK(vbr_map_fetch_add(&map[0], 5, 2, &value) == VBR_YES && vbr_map_fetch_add(&map[0], 5, UINT64_MAX - 1, &value) == VBR_YES && value == 54);
    CHECK(vbr_map_compare_exchange(&map[0], 5, 52, 50, &value) == VBR_YES && value == 52);
    CHECK(vbr_map_next(&map[1], &cursor, &given) == VBR_YES && given.key == 5 && given.value == 50);
    CHECK(vbr_map_next(&map[1], &cursor, &given) == VBR_NO && vbr_map_next(&none, &cursor, &given) == VBR_NO_HANDLE);
    vbr_map_has_all(&map[0], &key, 1, answers), vbr_map_get_all(&map[0], &key, 1, found);
    CHECK(answers[0] == VBR_YES && found[0].answer == VBR_YES && found[0].value == 50);
    vbr_map_has_all_within(&map[0], &key, 1, answers, 8), vbr_map_get_all_within(&map[0], &key, 1, found, 8);
    CHECK(answers[0] == VBR_OUT_OF_STEPS && found[0].answer == VBR_OUT_OF_STEPS && found[0].value == 0);
    CHECK(vbr_map_insert_within(&map[0], 5, 1, 1000) == VBR_NO && vbr_map_has_within(&map[0], 5, 1000) == VBR_YES);
    CHECK(vbr_map_remove_within(&map[0], 6, NULL, 1000) == VBR_NO && vbr_map_next_within(&map[1], &cursor, &given, 1000) == VBR_NO);
    CHECK(vbr_map_get_within(&map[0], 5, NULL, 1000) == VBR_YES && vbr_map_replace_within(&map[0], 6, 1, NULL, 1000) == VBR_NO);
    CHECK(vbr_map_put_within(&map[0], 5, 50, NULL, 1000) == VBR_YES && vbr_map_remove_if_within(&map[0], 6, 1, NULL, 1000) == VBR_NO);
    CHECK(vbr_map_get_or_insert_within(&map[0], 5, 1, &value, 1000) == VBR_YES && value == 50);
    CHECK(vbr_map_compare_exchange_within(&map[0], 5, 1, 2, NULL, 1000) == VBR_OTHER && vbr_map_fetch_add_within(&map[0], 5, 0, NULL, 1000) == VBR_YES);
    CHECK(vbr_map_close_all(map, HANDLES, entries, 0, &report) == VBR_NO_ROOM && report.live == 1);
    CHECK(vbr_map_close(&map[0], entries, KEYS, &report) == VBR_NO && vbr_map_close(&map[1], entries, KEYS, &report) == VBR_YES);
    CHECK(report.live == 1 && entries[0].key == 5 && entries[0].value == 50);
    vbr_map_drop(&none), vbr_map_end_all(map, HANDLES);
    return 0;
}

static int check_map_slots(void) {
    static vbr_map_handle map[HANDLES], none;
    static uint64_t block[SLOTS];
    uint32_t slot = SLOTS, slots[KEYS] = {0};
    uint64_t key = 0, mine = 70, seen = 0;
    uint64_t value = 0;
    vbr_entry entries[KEYS] = {{0, 0}};
    vbr_incarnation at = {0, 0, 0};
    vbr_cursor cursor = VBR_CURSOR_BEGIN, again = VBR_CURSOR_BEGIN;
    vbr_records records = EMPTY;
    vbr_report report = EMPTY;
    THROWS_NONE(vbr_map_hold(&none, &slot), vbr_map_records_read(&none, &records, 5, &seen, &at));
    CHECK(sizeof(vbr_incarnation) == 24 && vbr_map_open(map, HANDLES, SLOTS, KEYS, VBR_MAX_EPOCH) == VBR_OK);
    CHECK(vbr_records_size(SLOTS, sizeof mine) == sizeof block && vbr_records_open(&records, SLOTS, sizeof mine, block) == VBR_OK);
    CHECK(vbr_map_hold(&map[0], &slot) == VBR_YES && text_of(vbr_map_hold_within(&map[0], &slot, 500))[0] == 'a' && slot < SLOTS);
    CHECK(vbr_map_let_go(&map[0]) == VBR_YES && vbr_map_hold_within(&map[0], &slot, 500) == VBR_YES);
    vbr_records_write(&records, slot, &mine);
    CHECK(vbr_map_insert_held(&map[0], 5, 50) == VBR_YES && vbr_map_insert_held_within(&map[0], 6, 60, 500) == VBR_HELD);
    CHECK(vbr_map_get_entry(&map[1], 5, &at) == VBR_YES && vbr_map_get_entry_within(&map[1], 6, &at, 500) == VBR_NO);
    CHECK(at.slot == slot && at.value == 50);
    vbr_records_copy(&records, at.slot, &seen);
    CHECK(vbr_map_is_still(&map[1], &at) == VBR_YES && seen == 70 && vbr_map_is_still(&none, &at) == VBR_NO_HANDLE);
    CHECK(vbr_map_replace_held(&map[0], 5, &at, 51) == VBR_HELD && vbr_map_replace_held_within(&map[0], 5, &at, 51, 500) == VBR_HELD);
    CHECK(vbr_map_put_held(&map[0], 5, 51, &value) == VBR_HELD && vbr_map_put_held_within(&map[0], 5, 51, NULL, 500) == VBR_HELD && value == 0);
    CHECK(vbr_map_records_read(&map[1], &records, 5, &seen, &at) == VBR_YES && vbr_map_records_read(&none, &records, 5, &seen, &at) == VBR_NO_HANDLE);
    CHECK(seen == 0 && vbr_map_next_at(&map[1], &cursor, &key, &at) == VBR_YES && key == 5);
    CHECK(vbr_map_next_at_within(&map[1], &cursor, &key, &at, 500) == VBR_NO);
    CHECK(vbr_map_records_next(&map[1], &again, &records, &key, &seen, &at) == VBR_YES && key == 5 && seen == 70);
    CHECK(vbr_map_report_slots(map, HANDLES, entries, slots, KEYS, &report) == VBR_YES && slots[0] == slot && entries[0].value == 50);
    CHECK(vbr_map_records_renew_all(map, HANDLES, SLOTS, KEYS, VBR_MAX_EPOCH, &records, NULL) == VBR_OK && records.words != block);
    CHECK(vbr_map_records_read(&map[0], &records, 5, &seen, &at) == VBR_YES && seen == 70);
    CHECK(vbr_map_remove_entry(&map[1], 5, &at) == VBR_YES && vbr_map_remove_entry_within(&map[1], 5, &at, 500) == VBR_NO);
    vbr_map_end_all(map, HANDLES), vbr_records_close(&records);
    return 0;
}

static int check_shared(void) {
    static const uint64_t opening[2] = {3, 4};
    static const vbr_entry entries[2] = {{3, 30}, {4, 40}};
    static vbr_shared_handle none; /* of no mapping */
    vbr_shared_handle *set = &none, *map = &none;
    vbr_report report = EMPTY;
    vbr_entry given = {0, 0};
    THROWS_NONE(vbr_inherit(&none), vbr_begin(&none));
    CHECK(sizeof(vbr_shared_handle) == 128 && vbr_shared_size(HANDLES, SLOTS, KEYS) > 8u * (KEYS + 5 * SLOTS));
    CHECK(vbr_open_shared(&set, HANDLES, SLOTS, KEYS, VBR_MAX_EPOCH, opening, 2) == VBR_OK && set != &none);
    CHECK(vbr_map_open_shared(&map, 1, SLOTS, KEYS, VBR_MAX_EPOCH, entries, 2) == VBR_OK && map != set);
    CHECK(vbr_open_shared_in(-1, &set, HANDLES, SLOTS, KEYS, VBR_MAX_EPOCH, opening, 2) == VBR_NO_MEMORY);
    CHECK(vbr_map_open_shared_in(-1, &map, 1, SLOTS, KEYS, VBR_MAX_EPOCH, entries, 2) == VBR_NO_MEMORY);
    vbr_begin(&set[1]);
    CHECK(vbr_has(&set[1].set, 3) == VBR_YES && vbr_insert(&set[1].set, 5) == VBR_YES && set[1].both.in_call == 1);
    vbr_end(&set[1]);
    CHECK(vbr_inherit(&set[1]) == VBR_YES && vbr_inherit(&none) == VBR_NO_HANDLE);
    CHECK(vbr_renew_shared(set, SLOTS, KEYS, VBR_MAX_EPOCH) == VBR_OK && vbr_balance(&set[0].set) == 3);
    CHECK(vbr_map_has(&map[0].map, 3) == VBR_YES && !vbr_gather(map) && !vbr_map_gather(set));
    CHECK(vbr_map_close_all(vbr_map_gather(map), 1, &given, 0, &report) == VBR_NO_ROOM && report.live == 2);
    vbr_spread(map);
    CHECK(vbr_map_remove(&map[0].map, 3, NULL) == VBR_YES);
    CHECK(vbr_map_close(&map[0].map, &given, 1, &report) == VBR_YES && given.key == 4 && given.value == 40);
    vbr_end_all(vbr_gather(set), HANDLES);
    vbr_unmap_shared(set), vbr_unmap_shared(map);
    return 0;
}

int main(void) {
    if (check() || check_maps() || check_slots() || check_map_slots() || check_shared()) return 1;
    puts("each name of the headers: passed");
    return 0;
}
