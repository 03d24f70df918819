/* Each call on maps of the headers, and each of their types, as the example in its comment has it: tests/pages and
   bindings/headers see that these lines are those. tools/interface makes it of bindings/interface/calls.c.in. */
#include "client.h"
#include "vbr_lend.h"

static vbr_entry entries[8];

static int one_by_one(void) {
    int added = 0, there = 0, taken = 0;
    vbr_report report = {0};
    uint64_t value = 0;
    vbr_map_handle map[2] = {{0}};
    if (vbr_map_open(map, 2, 1024 + 2 * 64, 1024, VBR_MAX_EPOCH) != VBR_OK) return 1;
    if (vbr_map_insert(&map[0], 5, 70) == VBR_YES) added++; // this call stored 70 for 5
    if (vbr_map_insert(&map[0], 6, 71) == VBR_YES) added++;
    if (vbr_map_get(&map[1], 5, &value) == VBR_YES) there++; // 5 had this value during the call
    CHECK(value == 70);
    value = 0;
    if (vbr_map_has(&map[0], 5) == VBR_YES) there++; // 5 was there during the call
    if (vbr_map_remove(&map[1], 5, &value) == VBR_YES) taken++; // this call took 5 out, with its value
    CHECK(value == 70 && added == 2 && there == 2 && taken == 1);
    vbr_answer first = vbr_map_close(&map[0], entries, 8, &report); // VBR_NO: the other handle is open
    vbr_answer last = vbr_map_close(&map[1], entries, 8, &report);  // VBR_YES: report.live entries are in front of entries
    CHECK(first == VBR_NO && last == VBR_YES && report.live == 1 && entries[0].key == 6 && entries[0].value == 71);
    return 0;
}

static int changed_by_what_is_there(void) {
    int added = 0, there = 0, changed = 0, kept = 0, counted = 0;
    vbr_report report = {0};
    uint64_t found = 0, seen = 0, before = 0;
    vbr_map_handle map[2] = {{0}};
    if (vbr_map_open(map, 2, 1024 + 2 * 64, 1024, VBR_MAX_EPOCH) != VBR_OK) return 1;
    CHECK(vbr_map_insert(&map[0], 5, 70) == VBR_YES);
    if (vbr_map_replace(&map[0], 5, 72, &found) == VBR_YES) changed++; // 5 had the value found, and has 72
    CHECK(found == 70 && changed == 1);
    if (vbr_map_put(&map[1], 6, 60, NULL) == VBR_NO) added++; // 6 was absent; either way it has 60
    if (vbr_map_get_or_insert(&map[0], 5, 1, &found) == VBR_YES) there++; // 5 had the value found, and keeps it
    CHECK(added == 1 && there == 1 && found == 72);
    vbr_answer told = vbr_map_get(&map[0], 5, &seen) == VBR_YES ? VBR_OTHER : VBR_NO;
    while (told == VBR_OTHER) // until nobody else has changed it since it was seen
        told = vbr_map_compare_exchange(&map[0], 5, seen, seen + 1, &seen);
    CHECK(told == VBR_YES && seen == 72);
    if (vbr_map_remove_if(&map[0], 6, 61, &found) == VBR_OTHER) kept++; // 6 has the value found, and is still there
    CHECK(kept == 1 && found == 60);
    if (vbr_map_fetch_add(&map[0], 6, 1, &before) == VBR_YES) counted++; // 6 had the value before, and has one more
    CHECK(counted == 1 && before == 60);
    CHECK(vbr_map_close_all(map, 2, entries, 8, &report) == VBR_YES && report.live == 2);
    CHECK(entries[0].key == 5 && entries[0].value == 73 && entries[1].key == 6 && entries[1].value == 61);
    return 0;
}

static int all_at_once(void) {
    vbr_map_handle map[2] = {{0}};
    vbr_report report = {0};
    static const vbr_entry some[3] = {{2, 20}, {5, 50}, {9, 90}};
    if (vbr_map_open_with(map, 2, 1024 + 2 * 64, 1024, VBR_MAX_EPOCH, some, 3) != VBR_OK) return 1;
    int is_near = vbr_map_epoch(&map[0]) + 1000 >= vbr_map_last_epoch(&map[0]); // then renew the map
    uint64_t left = vbr_map_last_epoch(&map[0]) - vbr_map_epoch(&map[0]);
    uint32_t most = vbr_map_slots(&map[0]) - 2 * 64; // so many keys have room for certain
    uint32_t steps = vbr_map_steps_of(&map[0]); // VBR_AMPLE_STEPS, unless map[0].steps is another
    int is_crowded = 3 > 2 * vbr_map_buckets(&map[0]); // three keys, and more than two for each bucket
    CHECK(!is_near && left == VBR_MAX_EPOCH - 1 && most == 1024 && steps == VBR_AMPLE_STEPS && !is_crowded);
    uint64_t removed = 0;
    CHECK(vbr_map_insert(&map[0], 7, 70) == VBR_YES && vbr_map_remove(&map[0], 7, &removed) == VBR_YES && removed == 70);
    uint32_t spared = vbr_map_give_slots_back(&map[0]); // map[1] can have them now
    uint32_t reserved = vbr_map_reserve(&map[0], 32); // for its next inserts
    CHECK(spared == 31 && reserved == 32); // its reserve: of 32 tries at the opening one met the slot of a key
    vbr_answer closed = vbr_map_close_all(map, 2, entries, 8, &report); // VBR_YES: three entries, {2, 20} the first of them
    CHECK(closed == VBR_YES && report.live == 3);
    for (int i = 0; i < 3; i++) CHECK(entries[i].key == some[i].key && entries[i].value == some[i].value);
    return 0;
}

static int many_handles(void) {
    vbr_report report = {0};
    static const vbr_entry some[3] = {{2, 20}, {5, 50}, {9, 90}};
    vbr_entry entry = {0, 0};
    static vbr_map_handle many[1000];
    static vbr_map_handle other_maps[1000]; // which are to open without entries
    if (vbr_map_open_many(many, 1000, 1024 + 1000 * 64, 1024, VBR_MAX_EPOCH, some, 3) != VBR_OK) return 1;
    if (vbr_map_open_many(other_maps, 1000, 1024 + 1000 * 64, 1024, VBR_MAX_EPOCH, &entry, 0) != VBR_OK) return 1; // it is empty
    CHECK(vbr_map_report_all(other_maps, 1000, entries, 8, &report) == VBR_YES && report.live == 0);
    CHECK(vbr_map_has(&other_maps[999], some[0].key) == VBR_NO);
    vbr_map_end_all(other_maps, 1000);
    CHECK(vbr_map_insert(&many[999], 7, 70) == VBR_YES && vbr_map_has(&many[64], 7) == VBR_YES);
    static vbr_map_lender of_many;
    static vbr_lend_word many_words[1000];
    if (vbr_map_lender_init_many(&of_many, many, 1000, many_words) != VBR_OK) return 1;
    for (int i = 0; i < 1000; i++) CHECK(vbr_map_lend(&of_many) == &many[i]);
    CHECK(!vbr_map_lend(&of_many));
    CHECK(vbr_map_close_all(many, 1000, entries, 8, &report) == VBR_YES && report.live == 4 && entries[2].value == 70);
    return 0;
}

static int looked_up_in_turn(void) {
    int there = 0;
    vbr_map_handle map[2] = {{0}};
    vbr_answer answers[3];
    static const uint64_t wanted[3] = {5, 7, 2};
    static const vbr_entry some[3] = {{2, 20}, {5, 50}, {9, 90}};
    if (vbr_map_open_with(map, 2, 1024 + 2 * 64, 1024, VBR_MAX_EPOCH, some, 3) != VBR_OK) return 1;
    vbr_map_has_all(&map[0], wanted, 3, answers);
    for (int i = 0; i < 3; i++) there += answers[i] == VBR_YES; // wanted[i] was there during its call
    CHECK(answers[0] == VBR_YES && answers[1] == VBR_NO && answers[2] == VBR_YES && there == 2);
    uint64_t sum = 0;
    vbr_found given[3];
    vbr_map_get_all(&map[0], wanted, 3, given);
    for (int i = 0; i < 3; i++) sum += given[i].value; // 0 if wanted[i] isn't there
    CHECK(sum == 50 + 20 && given[0].answer == VBR_YES && given[1].answer == VBR_NO);
    for (int i = 0; i < 2; i++) vbr_map_drop(&map[i]);
    return 0;
}

static int walked(void) {
    vbr_map_handle map[2] = {{0}};
    vbr_report report = {0};
    vbr_answer told;
    uint64_t sum = 0;
    vbr_entry entry = {0, 0};
    static const vbr_entry some[3] = {{2, 20}, {5, 50}, {9, 90}};
    if (vbr_map_open_with(map, 2, 1024 + 2 * 64, 1024, VBR_MAX_EPOCH, some, 3) != VBR_OK) return 1;
    vbr_cursor cursor = VBR_CURSOR_BEGIN; // before the first key
    do {
        told = vbr_map_next(&map[0], &cursor, &entry);
        if (told == VBR_YES) sum += entry.value; // the key had this value during the call
    } while (told == VBR_YES || told == VBR_OUT_OF_STEPS); // at the end it is VBR_NO
    CHECK(told == VBR_NO && sum == 20 + 50 + 90);
    CHECK(vbr_map_close_all(map, 2, entries, 8, &report) == VBR_YES && report.live == 3);
    return 0;
}

/* The budget of a handle, which no call writes, and the budgets of calls. */
static int budgets(void) {
    vbr_map_handle map[2] = {{0}};
    vbr_answer told, answers[3];
    static const uint64_t wanted[3] = {5, 7, 2};
    vbr_cursor cursor = VBR_CURSOR_BEGIN;
    vbr_entry entry = {0, 0};
    vbr_found given[3];
    uint64_t value = 0;
    map[1].steps = 5000;
    if (vbr_map_open(map, 2, 1024 + 2 * 64, 1024, VBR_MAX_EPOCH) != VBR_OK) return 1;
    CHECK(vbr_map_steps_of(&map[1]) == 5000);
    told = vbr_map_insert_within(&map[0], 7, 70, 500); // at most 500 steps
    CHECK(told == VBR_YES);
    told = vbr_map_has_within(&map[0], 7, 500); // at most 500 steps
    CHECK(told == VBR_YES);
    told = vbr_map_get_within(&map[0], 7, &value, 500); // at most 500 steps
    CHECK(told == VBR_YES && value == 70);
    told = vbr_map_replace_within(&map[0], 7, 71, &value, 500); // at most 500 steps
    CHECK(told == VBR_YES && value == 70);
    told = vbr_map_put_within(&map[0], 7, 72, NULL, 500); // at most 500 steps
    CHECK(told == VBR_YES);
    told = vbr_map_get_or_insert_within(&map[0], 7, 73, &value, 500); // at most 500 steps
    CHECK(told == VBR_YES && value == 72);
    told = vbr_map_compare_exchange_within(&map[0], 7, 72, 74, NULL, 500); // at most 500 steps
    CHECK(told == VBR_YES);
    told = vbr_map_remove_if_within(&map[0], 7, 75, &value, 500); // at most 500 steps
    CHECK(told == VBR_OTHER && value == 74);
    vbr_map_has_all_within(&map[0], wanted, 3, answers, 500); // at most 500 steps for each key
    CHECK(answers[0] == VBR_NO && answers[1] == VBR_YES && answers[2] == VBR_NO);
    vbr_map_get_all_within(&map[0], wanted, 3, given, 500); // at most 500 steps for each key
    CHECK(given[1].answer == VBR_YES && given[1].value == 74);
    told = vbr_map_next_within(&map[0], &cursor, &entry, 5000); // at most 5000 steps
    CHECK(told == VBR_YES && entry.key == 7 && entry.value == 74);
    told = vbr_map_fetch_add_within(&map[0], 7, 2, &value, 500); // at most 500 steps
    CHECK(told == VBR_YES && value == 74);
    told = vbr_map_remove_within(&map[0], 7, NULL, 500); // at most 500 steps; whatever value it had
    CHECK(told == VBR_YES && vbr_map_has(&map[0], 7) == VBR_NO);
    map[1].steps = 1;
    CHECK(vbr_map_insert(&map[1], 8, 80) == VBR_OUT_OF_STEPS && vbr_map_insert_within(&map[1], 8, 80, VBR_AMPLE_STEPS) == VBR_YES);
    vbr_map_end_all(map, 2); // nothing is reported, and the memory of the map is freed
    CHECK(!map[0].owned && !map[1].owned && map[1].steps == 1);
    return 0;
}

static int given_up(void) {
    vbr_report report = {0};
    vbr_map_handle map[2] = {{0}};
    if (vbr_map_open(map, 2, 1024 + 2 * 64, 1024, VBR_MAX_EPOCH) != VBR_OK) return 1;
    vbr_map_drop(&map[0]); // the close of map[1] gets the report
    CHECK(vbr_map_close(&map[1], entries, 8, &report) == VBR_YES && report.live == 0);
    return 0;
}

static int lent(void) {
    vbr_report report = {0};
    vbr_map_handle map[2] = {{0}};
    if (vbr_map_open(map, 2, 1024 + 2 * 64, 1024, VBR_MAX_EPOCH) != VBR_OK) return 1;
    vbr_map_lender lender = {0};
    if (vbr_map_lender_init(&lender, map, 2) != VBR_OK) return 1;
    vbr_map_handle *mine = vbr_map_lend(&lender); // NULL: both are lent
    size_t out = vbr_map_lender_on_loan(&lender); // 1: mine
    if (mine) {
        vbr_answer added = vbr_map_insert(mine, 5, 70);
        vbr_answer renewed = vbr_map_lender_renew(&lender, 2048 + 2 * 64, 2048, VBR_MAX_EPOCH); // VBR_IN_USE: a handle is on loan
        CHECK(renewed == VBR_IN_USE && !vbr_map_lend(&lender));
        vbr_map_lender_lend_on(&lender); // and the renewal isn't made
        vbr_map_give_back(&lender, mine); // and mine isn't used any more
        int64_t about = vbr_map_lender_count_about(&lender);
        CHECK(vbr_map_lender_renew(&lender, 2048 + 2 * 64, 2048, VBR_MAX_EPOCH) == VBR_OK);
        CHECK(added == VBR_YES && about == 1 && out == 1 && vbr_map_lender_on_loan(&lender) == 0);
    }
    vbr_map_handle *all[2] = {vbr_map_lend(&lender), vbr_map_lend(&lender)};
    CHECK(vbr_map_insert(all[0], 6, 71) == VBR_YES && vbr_map_renew_all(map, 2, 1024 + 2 * 64, 1024, VBR_MAX_EPOCH) == VBR_OK);
    CHECK(vbr_map_remove(all[1], 6, NULL) == VBR_YES);
    vbr_map_lender_recount(&lender); // all handles are on loan to this thread
    for (int i = 0; i < 2; i++) vbr_map_give_back(&lender, all[i]);
    CHECK(vbr_map_lender_count_about(&lender) == 1);
    CHECK(vbr_map_close_all(map, 2, entries, 8, &report) == VBR_YES && report.live == 1 && entries[0].value == 70);
    return 0;
}

int main(void) {
    if (one_by_one() || all_at_once() || many_handles() || looked_up_in_turn() || walked() || budgets() || given_up() || lent()) return 1;
    if (changed_by_what_is_there()) return 1;
    puts("examples of each call on maps in C: passed");
    return 0;
}
