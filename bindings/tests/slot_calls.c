/* Each call on slots in hand, and on records beside them, as the example in its comment has it: tests/pages and bindings/headers see
   that these lines are those. And what each of them answers if it isn't done. tools/interface makes it of
   bindings/interface/slot_calls.c.in. */
#define _GNU_SOURCE
#include "client.h"
#include "vbr_records.h"
#include "vbr_shared.h"

#include <sys/mman.h>
#include <sys/wait.h>
#include <unistd.h>

enum { SLOTS = 1024 + 2 * 64 };

static uint64_t beside[SLOTS];

static void of_a_set(void) {
    int added = 0, there = 0, copied = 0, taken = 0, let_go = 0;
    uint32_t slot = 0;
    vbr_handle handle[2] = {{0}};
    vbr_answer told;
    vbr_incarnation at = {0, 0, 0}; // what a call that finds the key writes
    vbr_incarnation before = at, nowhere = {1, 0, SLOTS};
    CHECK(vbr_open(handle, 2, SLOTS, 1024, VBR_MAX_EPOCH) == VBR_OK);
    CHECK(vbr_let_go(&handle[0]) == VBR_HELD && vbr_insert_held(&handle[0], 5) == VBR_HELD);
    if (vbr_hold(&handle[0], &slot) == VBR_YES) beside[slot] = 7; // nobody else writes there
    CHECK(slot < SLOTS && vbr_hold(&handle[0], &slot) == VBR_HELD && vbr_insert(&handle[0], 6) == VBR_HELD);
    CHECK(vbr_has(&handle[0], 5) == VBR_NO && vbr_remove(&handle[0], 5) == VBR_NO && vbr_insert(&handle[1], 6) == VBR_YES);
    CHECK(vbr_insert_held(&handle[0], 6) == VBR_NO);
    if (vbr_insert_held(&handle[0], 5) == VBR_YES) added++; // 5 stands in this slot, with what was written beside it
    if (vbr_get_entry(&handle[1], 5, &at) == VBR_YES) there++; // 5 stood in at.slot during the call
    CHECK(added == 1 && there == 1 && at.slot == slot && at.value == 0 && beside[at.slot] == 7);
    if (vbr_is_still(&handle[1], &at) == VBR_YES) copied++; // what was copied since at was found is of this entry
    CHECK(copied == 1 && vbr_get_entry(&handle[1], 8, &at) == VBR_NO);
    CHECK(vbr_hold(&handle[0], &slot) == VBR_YES && slot != at.slot);
    before = at; // and then 5 is taken out and added anew
    CHECK(vbr_remove(&handle[1], 5) == VBR_YES && vbr_insert(&handle[1], 5) == VBR_YES && vbr_get_entry(&handle[1], 5, &at) == VBR_YES);
    CHECK(vbr_remove_entry(&handle[0], 5, &before) == VBR_NO && vbr_remove_entry(&handle[0], 6, &at) == VBR_NO); // while a slot is held, too
    CHECK(vbr_remove_entry(&handle[0], 5, &nowhere) == VBR_NO && vbr_has(&handle[1], 5) == VBR_YES && vbr_has(&handle[1], 6) == VBR_YES);
    if (vbr_remove_entry(&handle[0], 5, &at) == VBR_YES) taken++; // 5 stood in at.slot all the while since it was found
    CHECK(taken == 1 && vbr_has(&handle[1], 5) == VBR_NO && vbr_remove_entry(&handle[0], 5, &at) == VBR_NO);
    if (vbr_let_go(&handle[0]) == VBR_YES) let_go++; // and its record isn't written any more
    CHECK(let_go == 1 && vbr_insert(&handle[0], 8) == VBR_YES);
    told = vbr_hold_within(&handle[0], &slot, 500); // at most 500 steps
    CHECK(told == VBR_YES);
    told = vbr_insert_held_within(&handle[0], 7, 500); // at most 500 steps
    CHECK(told == VBR_YES);
    told = vbr_get_entry_within(&handle[1], 7, &at, 500); // at most 500 steps
    CHECK(told == VBR_YES && at.slot == slot && at.value == 0);
    CHECK(vbr_hold_within(&handle[0], &slot, 1) == VBR_OUT_OF_STEPS && vbr_get_entry_within(&handle[1], 7, &at, 1) == VBR_OUT_OF_STEPS);
    CHECK(vbr_remove_entry_within(&handle[0], 7, &at, 1) == VBR_OUT_OF_STEPS);
    told = vbr_remove_entry_within(&handle[0], 7, &at, 500); // at most 500 steps
    CHECK(told == VBR_YES && vbr_has(&handle[1], 7) == VBR_NO && vbr_balance(&handle[0]) == 1 && vbr_balance(&handle[1]) == 1); // 8 and 6
    vbr_end_all(handle, 2);
    CHECK(vbr_hold(&handle[0], &slot) == VBR_NO_HANDLE && vbr_is_still(&handle[0], &at) == VBR_NO_HANDLE);
    CHECK(vbr_remove_entry(&handle[0], 7, &at) == VBR_NO_HANDLE);
}

/* A slot that was handed out anew isn't the entry's, and an entry that left is so until then: the only slot has the key again, with another
   birth. */
static void handed_out_anew(void) {
    uint32_t slot = 1;
    vbr_handle handle[1] = {{0}};
    vbr_incarnation before = {0, 0, 0}, at = {0, 0, 0};
    CHECK(vbr_open(handle, 1, 1, 1, VBR_MAX_EPOCH) == VBR_OK);
    CHECK(vbr_insert(&handle[0], 5) == VBR_YES && vbr_get_entry(&handle[0], 5, &before) == VBR_YES && before.slot == 0);
    CHECK(vbr_hold(&handle[0], &slot) == VBR_NO_SLOT);
    CHECK(vbr_remove(&handle[0], 5) == VBR_YES && vbr_is_still(&handle[0], &before) == VBR_YES);
    CHECK(vbr_remove_entry(&handle[0], 5, &before) == VBR_NO); // it has left
    CHECK(vbr_hold(&handle[0], &slot) == VBR_YES && slot == 0 && vbr_is_still(&handle[0], &before) == VBR_NO);
    CHECK(vbr_insert_held(&handle[0], 5) == VBR_YES && vbr_is_still(&handle[0], &before) == VBR_NO);
    CHECK(vbr_remove_entry(&handle[0], 5, &before) == VBR_NO && vbr_get_entry(&handle[0], 5, &at) == VBR_YES);
    CHECK(at.slot == 0 && at.birth != before.birth && vbr_remove_entry(&handle[0], 5, &at) == VBR_YES && vbr_has(&handle[0], 5) == VBR_NO);
    vbr_drop(&handle[0]);
}

/* A walk over the keys 1, 4, 7 and so on, of which number i stands in slot i, as in each set that opens with keys. */
static void walked(void) {
    enum { KEYS = 40 };
    vbr_handle handle[2] = {{0}};
    vbr_answer told;
    uint64_t some[KEYS];
    uint64_t walked = 0, key = 0;
    vbr_incarnation at = {0, 0, 0}, same = {0, 0, 0};
    for (uint64_t i = 0; i < KEYS; i++) some[i] = 3 * i + 1;
    CHECK(vbr_open_with(handle, 2, SLOTS, 1024, VBR_MAX_EPOCH, some, KEYS) == VBR_OK);
    vbr_cursor cursor = VBR_CURSOR_BEGIN; // before the first key
    do {
        told = vbr_next_at(&handle[0], &cursor, &key, &at);
        if (told == VBR_YES) walked += key; // the key stood in at.slot
    } while (told == VBR_YES || told == VBR_OUT_OF_STEPS); // at the end it is VBR_NO
    CHECK(told == VBR_NO && walked == 2380);
    key = 77, at.birth = 78, at.slot = 79;
    CHECK(vbr_next_at(&handle[0], &cursor, &key, &at) == VBR_NO && key == 77 && at.birth == 78 && at.slot == 79);
    vbr_cursor again = VBR_CURSOR_BEGIN;
    CHECK(vbr_next_at_within(&handle[0], &again, &key, &at, 1) == VBR_OUT_OF_STEPS && key == 77 && at.birth == 78 && at.slot == 79);
    cursor = again;
    told = vbr_next_at_within(&handle[0], &cursor, &key, &at, 5000); // at most 5000 steps
    for (int i = 0; i < KEYS; i++, told = vbr_next_at(&handle[0], &cursor, &key, &at)) {
        CHECK(told == VBR_YES && key == 3 * at.slot + 1 && at.value == 0 && vbr_is_still(&handle[1], &at) == VBR_YES);
        CHECK(vbr_get_entry(&handle[1], key, &same) == VBR_YES && same.slot == at.slot && same.birth == at.birth && same.value == at.value);
        CHECK(vbr_remove_entry(&handle[1], key, &at) == VBR_YES); // and so it isn't given again
    }
    CHECK(told == VBR_NO && vbr_balance(&handle[1]) == -KEYS);
    vbr_end_all(handle, 2);
    CHECK(vbr_next_at(&handle[0], &cursor, &key, &at) == VBR_NO_HANDLE);
}

/* Where keys stand, before a renewal and after it. */
static void reported(void) {
    static const uint64_t some[2] = {2, 9};
    uint64_t keys[8] = {0};
    uint32_t slots[8] = {0}, slot = 0;
    vbr_handle handle[2] = {{0}};
    vbr_report report = {0};
    vbr_incarnation at = {0, 0, 0};
    CHECK(vbr_open_with(handle, 2, SLOTS, 1024, VBR_MAX_EPOCH, some, 2) == VBR_OK);
    CHECK(vbr_hold(&handle[1], &slot) == VBR_YES && vbr_insert_held(&handle[1], 5) == VBR_YES);
    vbr_answer told = vbr_report_slots(handle, 2, keys, slots, 8, &report); // VBR_YES: keys[i] stands in slots[i]
    CHECK(told == VBR_YES && report.live == 3 && keys[1] == 5 && slots[1] == slot && slots[0] == 0 && slots[2] == 1);
    CHECK(vbr_report_slots(handle, 2, keys, slots, 2, &report) == VBR_NO_ROOM && report.live == 3);
    CHECK(vbr_hold(&handle[1], &slot) == VBR_YES && vbr_renew_all(handle, 2, SLOTS, 1024, VBR_MAX_EPOCH) == VBR_OK);
    CHECK(vbr_let_go(&handle[1]) == VBR_HELD); // the renewal has put it back
    for (uint32_t i = 0; i < 3; i++) CHECK(vbr_get_entry(&handle[0], keys[i], &at) == VBR_YES && at.slot == i);
    vbr_end_all(handle, 2);
}

static void of_a_map(void) {
    int added = 0, there = 0, copied = 0, changed = 0, taken = 0, let_go = 0;
    uint32_t slot = 0;
    vbr_map_handle map[2] = {{0}};
    vbr_answer told;
    vbr_incarnation at = {0, 0, 0}; // what a call that finds the key writes
    vbr_incarnation before = at, nowhere = {1, 0, SLOTS};
    uint64_t value = 0, found = 0;
    CHECK(vbr_map_open(map, 2, SLOTS, 1024, VBR_MAX_EPOCH) == VBR_OK);
    CHECK(vbr_map_let_go(&map[0]) == VBR_HELD && vbr_map_insert_held(&map[0], 5, 70) == VBR_HELD);
    if (vbr_map_hold(&map[0], &slot) == VBR_YES) beside[slot] = 7; // nobody else writes there
    CHECK(slot < SLOTS && vbr_map_hold(&map[0], &slot) == VBR_HELD && vbr_map_insert(&map[0], 6, 60) == VBR_HELD);
    CHECK(vbr_map_has(&map[0], 5) == VBR_NO && vbr_map_remove(&map[0], 5, NULL) == VBR_NO && vbr_map_insert(&map[1], 6, 60) == VBR_YES);
    CHECK(vbr_map_put(&map[0], 5, 1, NULL) == VBR_HELD && vbr_map_get_or_insert(&map[0], 5, 1, NULL) == VBR_HELD);
    CHECK(vbr_map_replace(&map[0], 6, 1, NULL) == VBR_HELD && vbr_map_compare_exchange(&map[0], 6, 60, 2, NULL) == VBR_HELD);
    CHECK(vbr_map_insert_held(&map[0], 6, 61) == VBR_NO);
    if (vbr_map_insert_held(&map[0], 5, 70) == VBR_YES) added++; // 5 stands in this slot, with what was written beside it
    if (vbr_map_get_entry(&map[1], 5, &at) == VBR_YES) there++; // 5 stood in at.slot, and had at.value
    CHECK(added == 1 && there == 1 && at.slot == slot && at.value == 70 && beside[at.slot] == 7);
    if (vbr_map_is_still(&map[1], &at) == VBR_YES) copied++; // what was copied since at was found is of this entry
    CHECK(copied == 1 && vbr_map_get_entry(&map[1], 8, &at) == VBR_NO);
    CHECK(vbr_map_hold(&map[0], &slot) == VBR_YES && slot != at.slot);
    before = at; // and then 5 is taken out and added anew
    CHECK(vbr_map_remove(&map[1], 5, NULL) == VBR_YES && vbr_map_insert(&map[1], 5, 70) == VBR_YES && vbr_map_get_entry(&map[1], 5, &at) == VBR_YES);
    CHECK(vbr_map_remove_entry(&map[0], 5, &before) == VBR_NO && vbr_map_remove_entry(&map[0], 6, &at) == VBR_NO); // while a slot is held, too
    CHECK(vbr_map_remove_entry(&map[0], 5, &nowhere) == VBR_NO && vbr_map_has(&map[1], 5) == VBR_YES && vbr_map_has(&map[1], 6) == VBR_YES);
    CHECK(vbr_map_replace_held(&map[0], 5, &before, 72) == VBR_NO);
    if (vbr_map_replace_held(&map[0], 5, &at, 71) == VBR_YES) changed++; // nobody had changed 5 since it was found
    CHECK(changed == 1 && vbr_map_get_entry(&map[0], 5, &at) == VBR_YES && at.slot == slot && at.value == 71);
    CHECK(vbr_map_put_held(&map[0], 6, 60, NULL) == VBR_HELD && vbr_map_replace_held(&map[0], 5, &at, 72) == VBR_HELD);
    CHECK(vbr_map_remove(&map[1], 6, NULL) == VBR_YES && vbr_map_hold(&map[0], &slot) == VBR_YES);
    if (vbr_map_put_held(&map[0], 6, 60, NULL) == VBR_NO) added++; // 6 was absent; either way it stands in this slot
    CHECK(added == 2 && vbr_map_hold(&map[0], &slot) == VBR_YES && vbr_map_put_held(&map[0], 6, 61, &found) == VBR_YES && found == 60);
    CHECK(vbr_map_hold(&map[0], &slot) == VBR_YES);
    if (vbr_map_remove_entry(&map[0], 5, &at) == VBR_YES) taken++; // nobody had changed 5 since it was found
    CHECK(taken == 1 && vbr_map_has(&map[1], 5) == VBR_NO && vbr_map_remove_entry(&map[0], 5, &at) == VBR_NO);
    if (vbr_map_let_go(&map[0]) == VBR_YES) let_go++; // and its record isn't written any more
    CHECK(let_go == 1 && vbr_map_insert(&map[0], 8, 80) == VBR_YES);
    told = vbr_map_hold_within(&map[0], &slot, 500); // at most 500 steps
    CHECK(told == VBR_YES);
    told = vbr_map_insert_held_within(&map[0], 7, 71, 500); // at most 500 steps
    CHECK(told == VBR_YES);
    told = vbr_map_get_entry_within(&map[1], 7, &at, 500); // at most 500 steps
    CHECK(told == VBR_YES && at.slot == slot && at.value == 71);
    CHECK(vbr_map_hold_within(&map[0], &slot, 1) == VBR_OUT_OF_STEPS && vbr_map_get_entry_within(&map[1], 7, &at, 1) == VBR_OUT_OF_STEPS);
    CHECK(vbr_map_remove_entry_within(&map[0], 7, &at, 1) == VBR_OUT_OF_STEPS);
    CHECK(vbr_map_hold(&map[0], &slot) == VBR_YES);
    told = vbr_map_replace_held_within(&map[0], 7, &at, 72, 500); // at most 500 steps
    CHECK(told == VBR_YES && vbr_map_hold(&map[0], &slot) == VBR_YES);
    told = vbr_map_put_held_within(&map[0], 7, 73, &value, 500); // at most 500 steps
    CHECK(told == VBR_YES && value == 72 && vbr_map_get_entry(&map[1], 7, &at) == VBR_YES && at.slot == slot);
    told = vbr_map_remove_entry_within(&map[0], 7, &at, 500); // at most 500 steps
    CHECK(told == VBR_YES && vbr_map_has(&map[1], 7) == VBR_NO && vbr_map_balance(&map[0]) == 2 && vbr_map_balance(&map[1]) == 0); // 8 and 6
    vbr_map_end_all(map, 2);
    CHECK(vbr_map_hold(&map[0], &slot) == VBR_NO_HANDLE && vbr_map_is_still(&map[0], &at) == VBR_NO_HANDLE);
    CHECK(vbr_map_remove_entry(&map[0], 7, &at) == VBR_NO_HANDLE);
}

/* A slot that was handed out anew isn't the entry's, and an entry that left is so until then: the only slot has the key again, with another
   birth. */
static void map_handed_out_anew(void) {
    uint32_t slot = 1;
    vbr_map_handle map[1] = {{0}};
    vbr_incarnation before = {0, 0, 0}, at = {0, 0, 0};
    CHECK(vbr_map_open(map, 1, 1, 1, VBR_MAX_EPOCH) == VBR_OK);
    CHECK(vbr_map_insert(&map[0], 5, 70) == VBR_YES && vbr_map_get_entry(&map[0], 5, &before) == VBR_YES && before.slot == 0);
    CHECK(vbr_map_hold(&map[0], &slot) == VBR_NO_SLOT);
    CHECK(vbr_map_remove(&map[0], 5, NULL) == VBR_YES && vbr_map_is_still(&map[0], &before) == VBR_YES);
    CHECK(vbr_map_remove_entry(&map[0], 5, &before) == VBR_NO); // it has left
    CHECK(vbr_map_hold(&map[0], &slot) == VBR_YES && slot == 0 && vbr_map_is_still(&map[0], &before) == VBR_NO);
    CHECK(vbr_map_insert_held(&map[0], 5, 70) == VBR_YES && vbr_map_is_still(&map[0], &before) == VBR_NO);
    CHECK(vbr_map_remove_entry(&map[0], 5, &before) == VBR_NO && vbr_map_get_entry(&map[0], 5, &at) == VBR_YES);
    CHECK(at.slot == 0 && at.birth != before.birth && vbr_map_remove_entry(&map[0], 5, &at) == VBR_YES && vbr_map_has(&map[0], 5) == VBR_NO);
    vbr_map_drop(&map[0]);
}

/* A walk over the keys 1, 4, 7 and so on, of which number i stands in slot i, as in each map that opens with entries. */
static void map_walked(void) {
    enum { KEYS = 40 };
    vbr_map_handle map[2] = {{0}};
    vbr_answer told;
    vbr_entry some[KEYS];
    uint64_t sum = 0, key = 0;
    vbr_incarnation at = {0, 0, 0}, same = {0, 0, 0};
    for (uint64_t i = 0; i < KEYS; i++) some[i].key = 3 * i + 1, some[i].value = 10 * i;
    CHECK(vbr_map_open_with(map, 2, SLOTS, 1024, VBR_MAX_EPOCH, some, KEYS) == VBR_OK);
    vbr_cursor cursor = VBR_CURSOR_BEGIN; // before the first key
    do {
        told = vbr_map_next_at(&map[0], &cursor, &key, &at);
        if (told == VBR_YES) sum += at.value; // the key stood in at.slot, and had this value
    } while (told == VBR_YES || told == VBR_OUT_OF_STEPS); // at the end it is VBR_NO
    CHECK(told == VBR_NO && sum == 7800);
    key = 77, at.birth = 78, at.slot = 79;
    CHECK(vbr_map_next_at(&map[0], &cursor, &key, &at) == VBR_NO && key == 77 && at.birth == 78 && at.slot == 79);
    vbr_cursor again = VBR_CURSOR_BEGIN;
    CHECK(vbr_map_next_at_within(&map[0], &again, &key, &at, 1) == VBR_OUT_OF_STEPS && key == 77 && at.birth == 78 && at.slot == 79);
    cursor = again;
    told = vbr_map_next_at_within(&map[0], &cursor, &key, &at, 5000); // at most 5000 steps
    for (int i = 0; i < KEYS; i++, told = vbr_map_next_at(&map[0], &cursor, &key, &at)) {
        CHECK(told == VBR_YES && key == 3 * at.slot + 1 && at.value == 10 * at.slot && vbr_map_is_still(&map[1], &at) == VBR_YES);
        CHECK(vbr_map_get_entry(&map[1], key, &same) == VBR_YES && same.slot == at.slot && same.birth == at.birth && same.value == at.value);
        CHECK(vbr_map_remove_entry(&map[1], key, &at) == VBR_YES); // and so it isn't given again
    }
    CHECK(told == VBR_NO && vbr_map_balance(&map[1]) == -KEYS);
    vbr_map_end_all(map, 2);
    CHECK(vbr_map_next_at(&map[0], &cursor, &key, &at) == VBR_NO_HANDLE);
}

/* Where keys stand, before a renewal and after it. */
static void map_reported(void) {
    static const vbr_entry some[2] = {{2, 20}, {9, 90}};
    vbr_entry entries[8] = {{0, 0}};
    uint32_t slots[8] = {0}, slot = 0;
    vbr_map_handle map[2] = {{0}};
    vbr_report report = {0};
    vbr_incarnation at = {0, 0, 0};
    CHECK(vbr_map_open_with(map, 2, SLOTS, 1024, VBR_MAX_EPOCH, some, 2) == VBR_OK);
    CHECK(vbr_map_hold(&map[1], &slot) == VBR_YES && vbr_map_insert_held(&map[1], 5, 50) == VBR_YES);
    vbr_answer told = vbr_map_report_slots(map, 2, entries, slots, 8, &report); // VBR_YES: entries[i] stands in slots[i]
    CHECK(told == VBR_YES && report.live == 3 && entries[1].value == 50 && slots[1] == slot && slots[0] == 0 && slots[2] == 1);
    CHECK(vbr_map_report_slots(map, 2, entries, slots, 2, &report) == VBR_NO_ROOM && report.live == 3);
    CHECK(vbr_map_hold(&map[1], &slot) == VBR_YES && vbr_map_renew_all(map, 2, SLOTS, 1024, VBR_MAX_EPOCH) == VBR_OK);
    CHECK(vbr_map_let_go(&map[1]) == VBR_HELD); // the renewal has put it back
    for (uint32_t i = 0; i < 3; i++) CHECK(vbr_map_get_entry(&map[0], entries[i].key, &at) == VBR_YES && at.slot == i);
    vbr_map_end_all(map, 2);
}

struct account { char owner[32]; uint64_t balance; };

/* Records of a map, which go along with its entries over a renewal. */
static int beside_a_map(void) {
    int copied = 0;
    uint32_t slot = 0;
    uint64_t key = 0, sum = 0;
    vbr_map_handle map[2] = {{0}};
    vbr_incarnation at = {0, 0, 0};
    struct account mine = {"somebody", 100}, seen = {"", 0};
    static vbr_records accounts;
    if (vbr_map_open(map, 2, SLOTS, 1024, VBR_MAX_EPOCH) != VBR_OK) return 1;
    if (vbr_records_open(&accounts, vbr_map_slots(&map[0]), sizeof(struct account), NULL) != VBR_OK) return 1;
    size_t size = vbr_records_size(vbr_map_slots(&map[0]), sizeof(struct account));
    CHECK(size == SLOTS * sizeof(struct account) && vbr_records_open(&accounts, 8, 8, NULL) == VBR_IN_USE);
    if (vbr_map_hold(&map[0], &slot) != VBR_YES) return 1;   // the slot is this handle's alone
    vbr_records_write(&accounts, slot, &mine);
    vbr_answer added = vbr_map_insert_held(&map[0], 5, 0);   // VBR_YES: both are those of key 5
    vbr_answer there = vbr_map_records_read(&map[1], &accounts, 5, &seen, &at); // VBR_YES: seen is that record, whole
    CHECK(added == VBR_YES && there == VBR_YES && at.slot == slot && seen.balance == 100 && seen.owner[7] == 'y');
    CHECK(vbr_map_records_read(&map[1], &accounts, 6, &seen, &at) == VBR_NO);

    CHECK(vbr_map_get_entry(&map[1], 5, &at) == VBR_YES);
    vbr_records_copy(&accounts, at.slot, &seen);
    if (vbr_map_is_still(&map[1], &at) == VBR_YES) copied++; // else it was changed meanwhile: find the key again
    CHECK(copied == 1 && vbr_map_hold(&map[0], &slot) == VBR_YES && slot != at.slot);
    seen.balance += 50;
    vbr_records_write(&accounts, slot, &seen);
    CHECK(vbr_map_replace_held(&map[0], 5, &at, 1) == VBR_YES);
    for (uint64_t other = 20; other < 30; other++) {
        mine.balance = other;
        CHECK(vbr_map_hold(&map[other % 2], &slot) == VBR_YES);
        vbr_records_write(&accounts, slot, &mine);
        CHECK(vbr_map_insert_held(&map[other % 2], other, other) == VBR_YES);
    }
    CHECK(vbr_map_records_renew_all(map, 2, 0, 2048, VBR_MAX_EPOCH, &accounts, NULL) == VBR_BAD_SHAPE);
    CHECK(vbr_map_records_renew_all(map, 2, 10, 2048, VBR_MAX_EPOCH, &accounts, NULL) == VBR_NO_ROOM && accounts.slots == SLOTS);
    CHECK(vbr_map_records_renew_all(map, 1, SLOTS, 2048, VBR_MAX_EPOCH, &accounts, NULL) == VBR_MISSING);
    vbr_answer renewed = vbr_map_records_renew_all(map, 2, 2048 + 2 * 64, 2048, VBR_MAX_EPOCH, &accounts, NULL); // VBR_OK: twice as large
    CHECK(renewed == VBR_OK && accounts.slots == 2048 + 2 * 64 && vbr_map_slots(&map[1]) == accounts.slots);
    CHECK(vbr_map_records_read(&map[1], &accounts, 5, &seen, &at) == VBR_YES && seen.balance == 150 && at.value == 1);

    vbr_answer told;
    vbr_cursor cursor = VBR_CURSOR_BEGIN;
    do {
        told = vbr_map_records_next(&map[0], &cursor, &accounts, &key, &seen, &at);
        if (told == VBR_YES) sum += seen.balance; // the key had this record during the call
    } while (told == VBR_YES || told == VBR_OUT_OF_STEPS); // at the end it is VBR_NO
    CHECK(sum == 150 + 245);
    vbr_map_end_all(map, 2);
    vbr_records_close(&accounts);
    CHECK(!accounts.words);
    return 0;
}

/* Records of a set, of any size, in a block of the program's. */
static void beside_a_set(void) {
    static uint64_t block[32 * SLOTS], larger[32 * (2048 + 2 * 64)];
    uint32_t slot = 0;
    vbr_incarnation at = {0, 0, 0};
    vbr_records accounts = {0};
    CHECK(vbr_records_open(&accounts, 0, 8, NULL) == VBR_BAD_SHAPE && vbr_records_open(&accounts, 8, 0, NULL) == VBR_BAD_SHAPE);
    CHECK(vbr_records_size(SLOTS, SIZE_MAX) == SIZE_MAX && vbr_records_open(&accounts, SLOTS, SIZE_MAX, NULL) == VBR_NO_MEMORY);
    for (size_t bytes = 1; bytes <= 256; bytes += bytes < 20 ? 1 : 59) {
        unsigned char mine[256], seen[256] = {0};
        vbr_handle handle[2] = {{0}};
        CHECK(vbr_open(handle, 2, SLOTS, 1024, VBR_MAX_EPOCH) == VBR_OK);
        for (size_t i = 0; i < sizeof mine; i++) mine[i] = (unsigned char)(bytes + i);
        CHECK(vbr_records_size(SLOTS, bytes) <= sizeof block && vbr_records_open(&accounts, SLOTS, bytes, block) == VBR_OK);
        CHECK(vbr_hold(&handle[0], &slot) == VBR_YES);
        vbr_records_write(&accounts, slot, mine);
        CHECK(vbr_insert_held(&handle[0], 5) == VBR_YES);
        vbr_answer there = vbr_records_read(&handle[1], &accounts, 5, &seen, &at); // VBR_YES: seen is that record, whole
        CHECK(there == VBR_YES && !memcmp(mine, seen, bytes) && (bytes == 256 || !seen[bytes]));
        vbr_records given = accounts;
        vbr_answer renewed = vbr_records_renew_all(handle, 2, 2048 + 2 * 64, 2048, VBR_MAX_EPOCH, &accounts, NULL); // VBR_OK: twice as large
        CHECK(renewed == VBR_OK && accounts.words != given.words);
        renewed = vbr_records_renew_all(handle, 2, 2048 + 2 * 64, 2048, VBR_MAX_EPOCH, &accounts, larger);
        memset(seen, 0, sizeof seen);
        CHECK(renewed == VBR_OK && accounts.words == larger && vbr_records_read(&handle[0], &accounts, 5, &seen, &at) == VBR_YES);
        CHECK(!memcmp(mine, seen, bytes) && at.slot == 0);
        vbr_end_all(handle, 2);
        vbr_records_close(&accounts);
    }
}

/* A walk over the records of a set. */
static void walked_beside_a_set(void) {
    uint32_t slot = 0;
    uint64_t key = 0, sum = 0;
    vbr_handle handle[2] = {{0}};
    vbr_incarnation at = {0, 0, 0};
    struct account mine = {"somebody", 0}, seen = {"", 0};
    static vbr_records accounts;
    CHECK(vbr_open(handle, 2, SLOTS, 1024, VBR_MAX_EPOCH) == VBR_OK);
    CHECK(vbr_records_open(&accounts, vbr_slots(&handle[0]), sizeof(struct account), NULL) == VBR_OK);
    for (uint64_t other = 20; other < 30; other++) {
        mine.balance = 3 * other;
        CHECK(vbr_hold(&handle[other % 2], &slot) == VBR_YES);
        vbr_records_write(&accounts, slot, &mine);
        CHECK(vbr_insert_held(&handle[other % 2], other) == VBR_YES);
    }
    vbr_answer told;
    vbr_cursor cursor = VBR_CURSOR_BEGIN, again = VBR_CURSOR_BEGIN;
    do {
        told = vbr_records_next(&handle[0], &cursor, &accounts, &key, &seen, &at);
        if (told == VBR_YES) sum += seen.balance; // the key had this record during the call
    } while (told == VBR_YES || told == VBR_OUT_OF_STEPS); // at the end it is VBR_NO
    CHECK(told == VBR_NO && sum == 3 * 245 && seen.balance == 0 && seen.owner[0] == 0);
    for (int i = 0; i < 10; i++) {
        CHECK(vbr_records_next(&handle[1], &again, &accounts, &key, &seen, &at) == VBR_YES && seen.balance == 3 * key && seen.owner[7] == 'y');
        CHECK(vbr_remove_entry(&handle[1], key, &at) == VBR_YES);
    }
    CHECK(vbr_records_next(&handle[1], &again, &accounts, &key, &seen, &at) == VBR_NO);
    vbr_end_all(handle, 2);
    CHECK(vbr_records_next(&handle[1], &again, &accounts, &key, &seen, &at) == VBR_NO_HANDLE && seen.balance == 0);
    vbr_records_close(&accounts);
}

/* Walks over four keys of a set, and of a map, while another thread takes them out and adds them anew, each time with a record of another
   round, in six slots: each record that a walk gives is whole, and of its key. */
enum { ROUNDS = 100000, WORDS = 32 };

static int is_over;

static vbr_handle both[2];
static vbr_records rounds;

static void *write_rounds(void *none) {
    for (uint64_t round = 0; round < ROUNDS; round++) {
        uint64_t key = round % 4, words[WORDS];
        uint32_t slot = 0;
        vbr_incarnation at = {0, 0, 0};
        for (int i = 0; i < WORDS; i++) words[i] = 4 * round + key;
        CHECK(round < 4 || (vbr_get_entry(&both[0], key, &at) == VBR_YES && vbr_remove_entry(&both[0], key, &at) == VBR_YES));
        CHECK(vbr_hold(&both[0], &slot) == VBR_YES);
        vbr_records_write(&rounds, slot, words);
        CHECK(vbr_insert_held(&both[0], key) == VBR_YES);
    }
    __atomic_store_n(&is_over, 1, __ATOMIC_RELAXED);
    return none;
}

static void walks_meanwhile(void) {
    pthread_t writer;
    uint64_t words[WORDS], key = 0;
    vbr_incarnation at = {0, 0, 0};
    CHECK(vbr_open(both, 2, 6, 4, VBR_MAX_EPOCH) == VBR_OK);
    CHECK(vbr_records_open(&rounds, 6, sizeof words, NULL) == VBR_OK);
    __atomic_store_n(&is_over, 0, __ATOMIC_RELAXED);
    CHECK(!pthread_create(&writer, NULL, write_rounds, NULL));
    while (!__atomic_load_n(&is_over, __ATOMIC_RELAXED)) {
        vbr_cursor cursor = VBR_CURSOR_BEGIN;
        vbr_answer told;
        while ((told = vbr_records_next(&both[1], &cursor, &rounds, &key, words, &at)) == VBR_YES)
            for (int i = 0; i < WORDS; i++) CHECK(key < 4 && words[i] % 4 == key && words[i] == words[0]);
        CHECK(told == VBR_NO);
    }
    CHECK(!pthread_join(writer, NULL));
    vbr_end_all(both, 2);
    vbr_records_close(&rounds);
}

static vbr_map_handle map_both[2];
static vbr_records map_rounds;

static void *map_write_rounds(void *none) {
    for (uint64_t round = 0; round < ROUNDS; round++) {
        uint64_t key = round % 4, words[WORDS];
        uint32_t slot = 0;
        vbr_incarnation at = {0, 0, 0};
        for (int i = 0; i < WORDS; i++) words[i] = 4 * round + key;
        CHECK(round < 4 || (vbr_map_get_entry(&map_both[0], key, &at) == VBR_YES && vbr_map_remove_entry(&map_both[0], key, &at) == VBR_YES));
        CHECK(vbr_map_hold(&map_both[0], &slot) == VBR_YES);
        vbr_records_write(&map_rounds, slot, words);
        CHECK(vbr_map_insert_held(&map_both[0], key, round) == VBR_YES);
    }
    __atomic_store_n(&is_over, 1, __ATOMIC_RELAXED);
    return none;
}

static void map_walks_meanwhile(void) {
    pthread_t writer;
    uint64_t words[WORDS], key = 0;
    vbr_incarnation at = {0, 0, 0};
    CHECK(vbr_map_open(map_both, 2, 6, 4, VBR_MAX_EPOCH) == VBR_OK);
    CHECK(vbr_records_open(&map_rounds, 6, sizeof words, NULL) == VBR_OK);
    __atomic_store_n(&is_over, 0, __ATOMIC_RELAXED);
    CHECK(!pthread_create(&writer, NULL, map_write_rounds, NULL));
    while (!__atomic_load_n(&is_over, __ATOMIC_RELAXED)) {
        vbr_cursor cursor = VBR_CURSOR_BEGIN;
        vbr_answer told;
        while ((told = vbr_map_records_next(&map_both[1], &cursor, &map_rounds, &key, words, &at)) == VBR_YES)
            for (int i = 0; i < WORDS; i++) CHECK(key < 4 && words[i] % 4 == key && words[i] == words[0]);
        CHECK(told == VBR_NO);
    }
    CHECK(!pthread_join(writer, NULL));
    vbr_map_end_all(map_both, 2);
    vbr_records_close(&map_rounds);
}

/* Records in memory that processes share: one of them writes a record, and ends with another slot in hand. */
static void between_processes(void) {
    vbr_shared_handle *handle = NULL;
    vbr_records accounts = {0};
    vbr_incarnation at = {0, 0, 0};
    struct account seen = {"", 0};
    int status = 1;
    size_t size = vbr_records_size(SLOTS, sizeof seen);
    void *block = mmap(NULL, size, PROT_READ | PROT_WRITE, MAP_SHARED | MAP_ANONYMOUS, -1, 0);
    CHECK(block != MAP_FAILED && vbr_map_open_shared(&handle, 2, SLOTS, 1024, VBR_MAX_EPOCH, NULL, 0) == VBR_OK);
    CHECK(vbr_records_open(&accounts, SLOTS, sizeof seen, block) == VBR_OK);
    pid_t child = fork();
    if (child == 0) {
        uint32_t slot = 0;
        struct account mine = {"a child", 7};
        vbr_begin(&handle[1]);
        int held = vbr_map_hold(&handle[1].map, &slot) == VBR_YES;
        vbr_records_write(&accounts, slot, &mine);
        held &= vbr_map_insert_held(&handle[1].map, 5, 0) == VBR_YES && vbr_map_hold(&handle[1].map, &slot) == VBR_YES;
        vbr_end(&handle[1]);
        _exit(!held);
    }
    CHECK(child > 0 && waitpid(child, &status, 0) == child && status == 0);
    CHECK(vbr_inherit(&handle[1]) == VBR_YES && vbr_map_let_go(&handle[1].map) == VBR_YES && vbr_map_let_go(&handle[1].map) == VBR_HELD);
    CHECK(vbr_map_records_read(&handle[0].map, &accounts, 5, &seen, &at) == VBR_YES && seen.balance == 7 && seen.owner[6] == 'd');
    vbr_map_end_all(vbr_map_gather(handle), 2);
    vbr_unmap_shared(handle);
    vbr_records_close(&accounts);
    CHECK(munmap(block, size) == 0);
}

int main(void) {
    of_a_set(), of_a_map(), handed_out_anew(), map_handed_out_anew(), walked(), map_walked(), reported(), map_reported();
    if (beside_a_map()) return 1;
    beside_a_set(), walked_beside_a_set(), walks_meanwhile(), map_walks_meanwhile(), between_processes();
    puts("examples of each call on slots in hand and records in C: passed");
    return 0;
}
