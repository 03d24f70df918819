/* Walks in one thread, with answers and budgets that are worked by hand: in which order keys come, how many steps each takes, how
   far a refused call comes, and what a walk gives whose keys go and come meanwhile.

   With seed 0 a key is in that of four buckets which the first two bits of its product with 0x9E3779B97F4A7C15 tell, modulo 2^64. These products are the
   following parts of 2^64, so the buckets begin at 0, 1/4, 1/2 and 3/4:

       key    0     1     2     3     4     5     6     7     8     9     2^64 - 1
       part   .000  .618  .236  .854  .472  .090  .708  .326  .944  .562  .382
       bucket 0     2     0     3     1     0     2     1     3     2     1

   A call makes three steps for each bucket that it enters, three for a node that is marked, and five for another; what reads a value
   makes two more. Each of these begins where eight steps are left of the budget. So the least budget that gives a key is eight more
   than the steps before its node: the reading of its value is among the eight. After the last key of a bucket the cursor stands
   before the next bucket, unless a marked node is behind that key. */
#include "client.h"

#include <string.h>

enum { KEYS = 11, SLOTS = 2 * KEYS + 2 * 64 };

static const uint64_t all[KEYS] = {0, 1, 2, 3, 4, 5, 6, 7, 8, 9, UINT64_MAX};
static const uint64_t by_bucket[KEYS] = {0, 2, 5, 4, 7, UINT64_MAX, 1, 6, 9, 3, 8};

static int close_both(vbr_handle *handle, uint32_t live) {
    uint64_t keys[SLOTS] = {0};
    vbr_report report = {0};
    return vbr_close_all(handle, 2, keys, SLOTS, &report) == VBR_YES && report.live == live;
}

/* Whether the next key is this one, by a budget and not by one step less. */
static int gives(vbr_handle *handle, vbr_cursor *cursor, uint32_t least, uint64_t wanted) {
    vbr_cursor copy = *cursor;
    uint64_t key = 77;
    CHECK(vbr_next_within(handle, &copy, &key, least - 1) == VBR_OUT_OF_STEPS && key == 77);
    CHECK(vbr_next_within(handle, cursor, &key, least) == VBR_YES && key == wanted);
    return 0;
}

/* Whether no key is left, by a budget and not by one step less, and then by none. */
static int ends(vbr_handle *handle, vbr_cursor *cursor, uint32_t least) {
    vbr_cursor copy = *cursor;
    uint64_t key = 77;
    CHECK(vbr_next_within(handle, &copy, &key, least - 1) == VBR_OUT_OF_STEPS && key == 77);
    CHECK(vbr_next_within(handle, cursor, &key, least) == VBR_NO && key == 77);
    CHECK(vbr_next_within(handle, cursor, &key, 0) == VBR_NO && key == 77);
    return 0;
}

/* Whether a walk gives these keys from a cursor on, and no other, where no call is refused. */
static int gives_all(vbr_handle *handle, vbr_cursor cursor, const uint64_t *wanted, int count) {
    uint64_t key = 77;
    for (int i = 0; i < count; i++) CHECK(vbr_next(handle, &cursor, &key) == VBR_YES && key == wanted[i]);
    key = 77;
    CHECK(vbr_next(handle, &cursor, &key) == VBR_NO && key == 77);
    return 0;
}

static void nothing_to_give(void) {
    vbr_handle handle[2] = {{0}};
    vbr_cursor cursor, as_it_was;
    uint64_t key = 77;
    memset(&cursor, 0x33, sizeof cursor);
    memset(&as_it_was, 0x33, sizeof as_it_was);
    CHECK(vbr_next(&handle[0], &cursor, &key) == VBR_NO_HANDLE && key == 77);
    CHECK(!memcmp(&cursor, &as_it_was, sizeof cursor));
    CHECK(vbr_open_seeded(handle, 2, SLOTS, 4, VBR_MAX_EPOCH, 0, all, 0) == VBR_OK);
    vbr_cursor begin = VBR_CURSOR_BEGIN;
    cursor = begin;
    CHECK(!ends(&handle[0], &cursor, 3 + 3 + 3 + 8)); /* four buckets are entered */
    cursor = begin;
    CHECK(vbr_next_within(&handle[0], &cursor, &key, 3 + 3 + 3 + 7) == VBR_OUT_OF_STEPS && !ends(&handle[0], &cursor, 8)); /* it stood before the last */
    CHECK(close_both(handle, 0));
}

static void bucket_by_bucket(void) {
    /* the steps before the node of each key: its bucket is entered, and the nodes before it are passed */
    static const uint32_t before[KEYS] = {3, 3 + 5, 3 + 10, 3, 3 + 5, 3 + 10, 3, 3 + 5, 3 + 10, 3, 3 + 5};
    vbr_handle handle[2] = {{0}};
    vbr_cursor begin = VBR_CURSOR_BEGIN, cursor = begin;
    CHECK(vbr_open_seeded(handle, 2, SLOTS, 4, VBR_MAX_EPOCH, 0, all, KEYS) == VBR_OK);
    for (int i = 0; i < KEYS; i++) {
        CHECK(!gives(&handle[0], &cursor, before[i] + 8, by_bucket[i]));
        CHECK(!gives_all(&handle[1], cursor, by_bucket + i + 1, KEYS - i - 1)); /* from a copy, by the other handle */
    }
    uint64_t key = 77;
    CHECK(vbr_next_within(&handle[0], &cursor, &key, 0) == VBR_NO && key == 77);
    CHECK(!gives_all(&handle[0], begin, by_bucket, KEYS));
    CHECK(close_both(handle, KEYS));
}

/* A refused call that has come to a later bucket is refused less there; one that hasn't leaves all as it was. */
static void refused(void) {
    vbr_handle handle[2] = {{0}};
    vbr_cursor cursor = VBR_CURSOR_BEGIN, copy;
    uint64_t key = 77;
    CHECK(vbr_open_seeded(handle, 2, SLOTS, 4, VBR_MAX_EPOCH, 0, all, KEYS) == VBR_OK);
    CHECK(vbr_next(&handle[0], &cursor, &key) == VBR_YES && vbr_next(&handle[0], &cursor, &key) == VBR_YES && key == 2);
    for (uint32_t budget = 0; budget < 3 + 10 + 8; budget++) CHECK(vbr_next_within(&handle[0], &cursor, &key, budget) == VBR_OUT_OF_STEPS && key == 2);
    copy = cursor;
    CHECK(!gives(&handle[0], &copy, 3 + 10 + 8, 5)); /* it still stood before the third of its bucket */
    CHECK(vbr_remove(&handle[1], 5) == VBR_YES); /* two are left, and the cursor stands after the second */
    for (uint32_t budget = 0; budget < 3 + 5 + 8; budget++) CHECK(vbr_next_within(&handle[0], &cursor, &key, budget) == VBR_OUT_OF_STEPS);
    for (uint32_t budget = 3 + 5 + 8; budget < 3 + 10 + 3 + 8; budget++) {
        copy = cursor;
        CHECK(vbr_next_within(&handle[0], &copy, &key, budget) == VBR_OUT_OF_STEPS && !gives(&handle[0], &copy, 3 + 8, 4)); /* here it passed the bucket */
    }
    /* with 5n + 11 steps for its bucket, which has two nodes, it comes further, and then each call gives a key */
    CHECK(vbr_next_within(&handle[0], &cursor, &key, 5 * 2 + 11) == VBR_OUT_OF_STEPS);
    for (int i = 3; i < KEYS; i++) CHECK(vbr_next_within(&handle[0], &cursor, &key, 5 * 3 + 11) == VBR_YES && key == by_bucket[i]);
    CHECK(vbr_next_within(&handle[0], &cursor, &key, 0) == VBR_NO);
    CHECK(close_both(handle, KEYS - 1));
}

/* The node of a removed key is passed in three steps while it is in its list: a remove with the least budget leaves it there. Behind
   the last key of a bucket it keeps the cursor in the bucket. */
static void past_removed_nodes(void) {
    static const uint64_t some[3] = {2, 5, 8};
    vbr_handle handle[2] = {{0}};
    vbr_cursor begin = VBR_CURSOR_BEGIN, cursor = begin, copy = begin;
    CHECK(vbr_open_seeded(handle, 2, SLOTS, 4, VBR_MAX_EPOCH, 0, some, 3) == VBR_OK);
    CHECK(vbr_remove_within(&handle[0], 2, 3 + 5 + 7) == VBR_OUT_OF_STEPS && vbr_remove_within(&handle[0], 2, 3 + 5 + 8) == VBR_YES);
    CHECK(!gives(&handle[1], &cursor, 3 + 3 + 8, 5));
    CHECK(!gives(&handle[1], &cursor, 3 + 3 + 3 + 8, 8));
    CHECK(vbr_remove(&handle[0], 2) == VBR_NO); /* this one took the node out */
    CHECK(!gives(&handle[1], &copy, 3 + 8, 5));
    CHECK(vbr_insert(&handle[0], 0) == VBR_YES && vbr_remove_within(&handle[0], 5, 3 + 5 + 5 + 8) == VBR_YES);
    copy = begin;
    CHECK(!gives(&handle[1], &copy, 3 + 8, 0));
    CHECK(!gives(&handle[1], &copy, 3 + 5 + 3 + 3 + 3 + 3 + 8, 8));
    CHECK(close_both(handle, 2));
}

/* Each key is removed as it is given, by this handle or the other one: none is passed over, and none is left. */
static void removed_on_the_way(void) {
    vbr_handle handle[2] = {{0}};
    vbr_cursor cursor = VBR_CURSOR_BEGIN;
    uint64_t key = 77;
    CHECK(vbr_open_seeded(handle, 2, SLOTS, 4, VBR_MAX_EPOCH, 0, all, KEYS) == VBR_OK);
    for (int i = 0; i < KEYS; i++) {
        CHECK(vbr_next(&handle[0], &cursor, &key) == VBR_YES && key == by_bucket[i]);
        CHECK(vbr_remove(&handle[i % 2], key) == VBR_YES);
    }
    CHECK(vbr_next(&handle[0], &cursor, &key) == VBR_NO);
    CHECK(close_both(handle, 0));
}

/* What is inserted before the cursor isn't given, and what is inserted after it is; a key that was given isn't given again. After 2,
   the last key of its bucket, the cursor stands before the next one, so 5 isn't given; after 4 it stands before 7 and 2^64 - 1. */
static void inserted_on_the_way(void) {
    static const uint64_t some[4] = {2, 4, 9, UINT64_MAX}, rest[4] = {7, 1, 9, 8};
    vbr_handle handle[2] = {{0}};
    vbr_cursor cursor = VBR_CURSOR_BEGIN;
    uint64_t key = 77;
    CHECK(vbr_open_seeded(handle, 2, SLOTS, 4, VBR_MAX_EPOCH, 0, some, 4) == VBR_OK);
    CHECK(vbr_next(&handle[0], &cursor, &key) == VBR_YES && key == 2);
    CHECK(vbr_insert(&handle[0], 0) == VBR_YES && vbr_insert(&handle[1], 5) == VBR_YES);
    CHECK(vbr_next(&handle[0], &cursor, &key) == VBR_YES && key == 4);
    CHECK(vbr_remove(&handle[0], 4) == VBR_YES && vbr_insert(&handle[1], 4) == VBR_YES);
    CHECK(vbr_insert(&handle[0], 7) == VBR_YES && vbr_remove(&handle[1], UINT64_MAX) == VBR_YES);
    CHECK(vbr_insert(&handle[1], 1) == VBR_YES && vbr_insert(&handle[1], 8) == VBR_YES);
    CHECK(!gives_all(&handle[0], cursor, rest, 4));
    CHECK(close_both(handle, 8));
}

/* Any bytes are a cursor. With the number of another opening it is refused, as that of a set which is closed by now; without one the walk
   from there gives what is after it. */
static void other_cursors(void) {
    static const uint64_t after[7] = {7, 4, 1, 9, 6, 3, 8}; /* of eight buckets 7 is in the third, 4 in the fourth, 1 and 9 in the fifth, and one is in each of the last */
    vbr_handle handle[2] = {{0}};
    vbr_cursor any, cursor = VBR_CURSOR_BEGIN;
    uint64_t key = 77;
    memset(&any, 0xff, sizeof any);
    CHECK(vbr_open_seeded(handle, 2, SLOTS, 4, VBR_MAX_EPOCH, 0, all, KEYS) == VBR_OK);
    CHECK(vbr_next(&handle[0], &any, &key) == VBR_RESHAPED && key == 77);
    any.opening = 0;
    CHECK(vbr_next(&handle[0], &any, &key) == VBR_NO && vbr_next_within(&handle[0], &any, &key, 0) == VBR_NO && key == 77);
    for (int i = 0; i < 8; i++) CHECK(vbr_next(&handle[0], &cursor, &key) == VBR_YES && key == by_bucket[i]);
    CHECK(close_both(handle, KEYS)); /* the cursor is after 6, in the third bucket */
    CHECK(vbr_open_seeded(handle, 2, SLOTS, 2, VBR_MAX_EPOCH, 0, all, KEYS) == VBR_OK);
    CHECK(vbr_next(&handle[0], &cursor, &key) == VBR_RESHAPED);
    cursor.opening = 0;
    CHECK(!gives_all(&handle[0], cursor, NULL, 0) && close_both(handle, KEYS));
    CHECK(vbr_open_seeded(handle, 2, SLOTS, 8, VBR_MAX_EPOCH, 0, all, KEYS - 1) == VBR_OK);
    CHECK(!gives_all(&handle[0], cursor, after, 7) && close_both(handle, KEYS - 1));
}

/* One handle on two walks at a time: each gives all. */
static void two_walks(void) {
    vbr_handle handle[2] = {{0}};
    vbr_cursor one = VBR_CURSOR_BEGIN, other = one;
    uint64_t key = 77;
    CHECK(vbr_open_seeded(handle, 2, SLOTS, 4, VBR_MAX_EPOCH, 0, all, KEYS) == VBR_OK);
    for (int i = 0; i < KEYS; i++) {
        CHECK(vbr_next(&handle[0], &one, &key) == VBR_YES && key == by_bucket[i]);
        if (i % 2 == 0) CHECK(vbr_next(&handle[0], &other, &key) == VBR_YES && key == by_bucket[i / 2]);
    }
    CHECK(vbr_next(&handle[0], &one, &key) == VBR_NO);
    CHECK(!gives_all(&handle[0], other, by_bucket + (KEYS + 1) / 2, KEYS / 2));
    CHECK(close_both(handle, KEYS));
}

int main(void) {
    nothing_to_give(), bucket_by_bucket(), refused(), past_removed_nodes(), removed_on_the_way(), inserted_on_the_way(), other_cursors(),
        two_walks();
    puts("walks in C: passed");
    return 0;
}
