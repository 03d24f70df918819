/* Each call of the headers, and each of their types and numbers, as the example in its comment has it: tests/pages and
   bindings/headers see that these lines are those. tools/interface makes it of bindings/interface/calls.c.in. */
#include "client.h"
#include "vbr_lend.h"

static uint64_t keys[8];

static int one_by_one(void) {
    int added = 0, there = 0, taken = 0;
    vbr_report report = {0};
    vbr_handle handle[2] = {{0}};
    if (vbr_open(handle, 2, 1024 + 2 * 64, 1024, VBR_MAX_EPOCH) != VBR_OK) return 1;
    if (vbr_insert(&handle[0], 5) == VBR_YES) added++; // this call added 5
    if (vbr_insert(&handle[0], 6) == VBR_YES) added++;
    if (vbr_has(&handle[1], 5) == VBR_YES) there++; // 5 was there during the call
    if (vbr_remove(&handle[1], 5) == VBR_YES) taken++; // this call took 5 out
    CHECK(added == 2 && there == 1 && taken == 1);
    vbr_answer first = vbr_close(&handle[0], keys, 8, &report); // VBR_NO: the other handle is open
    vbr_answer last = vbr_close(&handle[1], keys, 8, &report);  // VBR_YES: report.live keys are in front of keys
    CHECK(first == VBR_NO && last == VBR_YES && report.live == 1 && keys[0] == 6);
    return 0;
}

static int all_at_once(void) {
    vbr_handle handle[2] = {{0}};
    vbr_report report = {0};
    static const uint64_t some[3] = {2, 5, 9};
    if (vbr_open_with(handle, 2, 1024 + 2 * 64, 1024, VBR_MAX_EPOCH, some, 3) != VBR_OK) return 1;
    if (VBR_VERSION < 3000) return 1; // the header is older than 0.3.0
    if (vbr_version() != VBR_VERSION) return 1; // the library is of another version than the header
    int is_near = vbr_epoch(&handle[0]) + 1000 >= vbr_last_epoch(&handle[0]); // then renew the set
    uint64_t left = vbr_last_epoch(&handle[0]) - vbr_epoch(&handle[0]);
    uint32_t most = vbr_slots(&handle[0]) - 2 * 64; // so many keys have room for certain
    uint32_t steps = vbr_steps_of(&handle[0]); // VBR_AMPLE_STEPS, unless handle[0].steps is another
    int is_crowded = 3 > 2 * vbr_buckets(&handle[0]); // three keys, and more than two for each bucket
    CHECK(!is_near && left == VBR_MAX_EPOCH - 1 && most == 1024 && steps == VBR_AMPLE_STEPS && !is_crowded);
    VBR_IGNORE(vbr_insert(&handle[0], 7)); // whether 7 was absent, there, or refused
    CHECK(vbr_remove(&handle[0], 7) == VBR_YES);
    uint32_t given = vbr_give_slots_back(&handle[0]); // handle[1] can have them now
    uint32_t taken = vbr_reserve(&handle[0], 32); // for its next inserts
    CHECK(given == 31 && taken == 32); // its reserve: of 32 tries at the opening one met the slot of a key
    vbr_answer closed = vbr_close_all(handle, 2, keys, 8, &report); // VBR_YES: report.live is 3, keys are 2, 5, 9
    CHECK(closed == VBR_YES && report.live == 3);
    for (int i = 0; i < 3; i++) CHECK(keys[i] == some[i]);
    return 0;
}

static int many_handles(void) {
    vbr_report report = {0};
    static const uint64_t some[3] = {2, 5, 9};
    uint64_t key = 0;
    if (1000 > VBR_MAX_MANY_HANDLES) return 1; // else vbr_open_many answers VBR_BAD_COUNT
    static vbr_handle many[1000];
    static vbr_handle others[1000]; // which are to open without keys
    if (vbr_open_many(many, 1000, 1024 + 1000 * 64, 1024, VBR_MAX_EPOCH, some, 3) != VBR_OK) return 1;
    if (vbr_open_many(others, 1000, 1024 + 1000 * 64, 1024, VBR_MAX_EPOCH, &key, 0) != VBR_OK) return 1; // it is empty
    CHECK(vbr_report_all(others, 1000, keys, 8, &report) == VBR_YES && report.live == 0);
    CHECK(vbr_has(&others[999], some[0]) == VBR_NO);
    vbr_end_all(others, 1000);
    CHECK(vbr_insert(&many[999], 7) == VBR_YES && vbr_has(&many[64], 7) == VBR_YES);
    static vbr_lender of_many;
    static vbr_lend_word many_words[1000];
    if (vbr_lender_init_many(&of_many, many, 1000, many_words) != VBR_OK) return 1; // of handles that vbr_open_many opened
    for (int i = 0; i < 1000; i++) CHECK(vbr_lend(&of_many) == &many[i]);
    CHECK(!vbr_lend(&of_many));
    CHECK(vbr_close_all(many, 1000, keys, 8, &report) == VBR_YES && report.live == 4 && keys[2] == 7);
    return 0;
}

static int looked_up_in_turn(void) {
    int there = 0;
    vbr_handle handle[2] = {{0}};
    vbr_answer answers[3];
    static const uint64_t wanted[3] = {5, 7, 2};
    static const uint64_t some[3] = {2, 5, 9};
    if (vbr_open_with(handle, 2, 1024 + 2 * 64, 1024, VBR_MAX_EPOCH, some, 3) != VBR_OK) return 1;
    vbr_has_all(&handle[0], wanted, 3, answers);
    for (int i = 0; i < 3; i++) there += answers[i] == VBR_YES; // wanted[i] was there during its call
    CHECK(answers[0] == VBR_YES && answers[1] == VBR_NO && answers[2] == VBR_YES && there == 2);
    for (int i = 0; i < 2; i++) vbr_drop(&handle[i]);
    return 0;
}

static int walked(void) {
    vbr_handle handle[2] = {{0}};
    vbr_report report = {0};
    vbr_answer told;
    uint64_t key = 0, sum = 0;
    static const uint64_t some[3] = {2, 5, 9};
    if (vbr_open_with(handle, 2, 1024 + 2 * 64, 1024, VBR_MAX_EPOCH, some, 3) != VBR_OK) return 1;
    vbr_cursor cursor = VBR_CURSOR_BEGIN; // before the first key
    do {
        told = vbr_next(&handle[0], &cursor, &key);
        if (told == VBR_YES) sum += key; // the key was there during the call
    } while (told == VBR_YES || told == VBR_OUT_OF_STEPS); // at the end it is VBR_NO
    CHECK(told == VBR_NO && sum == 2 + 5 + 9);
    CHECK(vbr_close_all(handle, 2, keys, 8, &report) == VBR_YES && report.live == 3);
    return 0;
}

static int refused(void) {
    vbr_report report = {0};
    vbr_handle handle[2] = {{0}};
    if (vbr_open(handle, 2, 1024 + 2 * 64, 1024, VBR_MAX_EPOCH) != VBR_OK) return 1;
    uint32_t steps = 1;
    vbr_answer told = vbr_insert_within(&handle[0], 5, steps); // one step is too few
    CHECK(told == VBR_OUT_OF_STEPS);
    while (told == VBR_OUT_OF_STEPS && steps < 1u << 30) told = vbr_insert_within(&handle[0], 5, steps *= 2);
    if (told < 0) return 1; // it was refused, and no call was made
    printf("the insert: %s\n", vbr_answer_text(told));
    CHECK(told == VBR_YES && steps > 8 && steps < 1000);
    CHECK(vbr_close_all(handle, 2, keys, 8, &report) == VBR_YES && report.live == 1 && keys[0] == 5);
    return 0;
}

/* The budget of a handle, which no call writes, and the budgets of calls. */
static int budgets(void) {
    vbr_handle handle[2] = {{0}};
    vbr_answer told, answers[3];
    static const uint64_t wanted[3] = {5, 7, 2};
    vbr_cursor cursor = VBR_CURSOR_BEGIN;
    uint64_t key = 0;
    handle[0].steps = VBR_AMPLE_STEPS; // which 0 says too
    handle[1].steps = 5000; // the calls by this handle make at most so many steps
    if (vbr_open(handle, 2, 1024 + 2 * 64, 1024, VBR_MAX_EPOCH) != VBR_OK) return 1;
    CHECK(handle[0].steps == VBR_AMPLE_STEPS && vbr_steps_of(&handle[1]) == 5000);
    told = vbr_insert_within(&handle[0], 7, 500); // at most 500 steps
    CHECK(told == VBR_YES);
    told = vbr_has_within(&handle[1], 7, 500); // at most 500 steps
    CHECK(told == VBR_YES);
    vbr_has_all_within(&handle[0], wanted, 3, answers, 500); // at most 500 steps for each key
    CHECK(answers[0] == VBR_NO && answers[1] == VBR_YES && answers[2] == VBR_NO);
    told = vbr_next_within(&handle[0], &cursor, &key, 5000); // at most 5000 steps
    CHECK(told == VBR_YES && key == 7);
    told = vbr_remove_within(&handle[0], 7, 500); // at most 500 steps
    CHECK(told == VBR_YES && vbr_has(&handle[0], 7) == VBR_NO);
    handle[1].steps = 1;
    CHECK(vbr_insert(&handle[1], 8) == VBR_OUT_OF_STEPS && vbr_insert_within(&handle[1], 8, VBR_AMPLE_STEPS) == VBR_YES);
    vbr_end_all(handle, 2); // nothing is reported, and the memory of the set is freed
    CHECK(!handle[0].owned && !handle[1].owned && handle[1].steps == 1);
    return 0;
}

static int the_most(void) {
    uint32_t slots = 1024 + 64 * VBR_MAX_FEW_HANDLES, buckets = 1024;
    if (slots > VBR_MAX_SLOTS || buckets > VBR_MAX_BUCKETS) return 1; // else vbr_open answers VBR_BAD_SHAPE
    vbr_handle most[VBR_MAX_FEW_HANDLES] = {{0}};
    if (vbr_open(most, VBR_MAX_FEW_HANDLES, slots, buckets, VBR_MAX_EPOCH) != VBR_OK) return 1;
    uint64_t last = vbr_max_epoch(1024 + 2 * 64); // 2^52 - 1, which is more than VBR_MAX_EPOCH
    CHECK(last == (UINT64_C(1) << 52) - 1 && last > VBR_MAX_EPOCH);
    for (unsigned i = 0; i < VBR_MAX_FEW_HANDLES; i++) vbr_drop(&most[i]);
    return 0;
}

static int given_up(void) {
    vbr_report report = {0};
    vbr_handle handle[2] = {{0}};
    if (vbr_open(handle, 2, 1024 + 2 * 64, 1024, VBR_MAX_EPOCH) != VBR_OK) return 1;
    vbr_drop(&handle[0]); // the close of handle[1] gets the report
    CHECK(vbr_close(&handle[1], keys, 8, &report) == VBR_YES && report.live == 0);
    return 0;
}

static int lent(void) {
    vbr_report report = {0};
    if (VBR_LEND_CHECKED) puts("a handle that is given back twice ends this program");
    vbr_handle handle[2] = {{0}};
    if (vbr_open(handle, 2, 1024 + 2 * 64, 1024, VBR_MAX_EPOCH) != VBR_OK) return 1;
    vbr_lender lender = {0};
    if (vbr_lender_init(&lender, handle, 2) != VBR_OK) return 1; // VBR_BAD_COUNT: there are more than 64
    vbr_handle *mine = vbr_lend(&lender); // NULL: both are lent
    size_t out = vbr_lender_on_loan(&lender); // 1: mine
    if (mine) {
        vbr_answer added = vbr_insert(mine, 5), renewed;
        if (vbr_lender_renew(&lender, 1024 + 2 * 64, 1024, VBR_MAX_EPOCH) == VBR_IN_USE) vbr_lender_lend_on(&lender); // not now
        vbr_give_back(&lender, mine); // and mine isn't used any more
        int64_t about = vbr_lender_count_about(&lender); // 1: mine is back, and has added 5
        while ((renewed = vbr_lender_renew(&lender, 2048 + 2 * 64, 2048, VBR_MAX_EPOCH)) == VBR_IN_USE) sched_yield(); // until all are back
        CHECK(renewed == VBR_OK && vbr_slots(&handle[1]) == 2048 + 2 * 64);
        CHECK(added == VBR_YES && about == 1 && out == 1 && vbr_lender_on_loan(&lender) == 0);
    }
    vbr_handle *all[2] = {vbr_lend(&lender), vbr_lend(&lender)};
    CHECK(vbr_insert(all[0], 6) == VBR_YES && vbr_renew_all(handle, 2, 1024 + 2 * 64, 1024, VBR_MAX_EPOCH) == VBR_OK);
    CHECK(vbr_remove(all[1], 6) == VBR_YES);
    vbr_lender_recount(&lender); // all handles are on loan to this thread
    for (int i = 0; i < 2; i++) vbr_give_back(&lender, all[i]);
    CHECK(vbr_lender_count_about(&lender) == 1);
    CHECK(vbr_close_all(handle, 2, keys, 8, &report) == VBR_YES && report.live == 1 && keys[0] == 5);
    return 0;
}

int main(void) {
    if (one_by_one() || all_at_once() || many_handles() || looked_up_in_turn() || walked() || budgets() || given_up() || lent()) return 1;
    if (refused()) return 1;
    if (the_most()) return 1;
    puts("examples of each call in C: passed");
    return 0;
}
