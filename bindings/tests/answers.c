/* Each answer of the interface once, in one thread. */
#include "client.h"

#include <string.h>

static uint64_t keys[4];
static vbr_report report;

static void empty_handles(void) {
    vbr_handle none = {0};
    CHECK(vbr_insert(&none, 1) == VBR_NO_HANDLE);
    CHECK(vbr_remove(&none, 1) == VBR_NO_HANDLE);
    CHECK(vbr_has(&none, 1) == VBR_NO_HANDLE);
    CHECK(vbr_close(&none, keys, 4, &report) == VBR_NO_HANDLE);
    vbr_drop(&none);
    report.live = keys[0] = 77;
    CHECK(vbr_close(NULL, keys, 4, &report) == VBR_NO_HANDLE && keys[0] == 77 && report.live == 77);
    vbr_drop(NULL);
}

/* Each answer in words, and a number that is none. */
static void words(void) {
    static const char *const texts[] = {"no; of an opening or a renewal, done", "out of steps", "no slot", "the last epoch is spent", "no handle", "a handle is in use",
        "a number is out of range", "too few handles, or too many", "no memory", "the set is lost", "the keys do not ascend, or are too many",
        "no room for the keys, or in the file", "a handle is missing", "handles of different sets"};
    for (int i = VBR_MIXED; i <= VBR_OK; i++) CHECK(!strcmp(vbr_answer_text((vbr_answer)i), texts[-i]));
    CHECK(!strcmp(vbr_answer_text(VBR_YES), "yes") && !strcmp(vbr_answer_text(VBR_OTHER), "another value"));
    CHECK(!strcmp(vbr_answer_text(VBR_HELD), "a slot is in hand, or none is"));
    CHECK(!strcmp(vbr_answer_text(VBR_RESHAPED), "another opening than when the walk began"));
    CHECK(!strcmp(vbr_answer_text((vbr_answer)-16), "no answer of this library"));
}

/* Handles of two sets, and an empty one, given up at once: the one that is left of the second set is the last, and keeps its budget. */
static void ended(void) {
    vbr_handle several[5] = {{0}, {0}, {.steps = 3000}, {0}, {0}}, rest = {0};
    CHECK(vbr_open(several, 2, 8, 8, 1000) == VBR_OK && vbr_open(&several[2], 2, 8, 8, 1000) == VBR_OK);
    CHECK(vbr_insert(&several[0], 5) == VBR_YES && vbr_insert(&several[2], 6) == VBR_YES && several[2].steps == 3000);
    rest = several[2];
    several[2] = (vbr_handle){0};
    vbr_end_all(several, 5);
    for (int i = 0; i < 5; i++) CHECK(vbr_has(&several[i], 5) == VBR_NO_HANDLE);
    CHECK(vbr_has(&rest, 6) == VBR_YES && vbr_close(&rest, keys, 4, &report) == VBR_YES && report.live == 1 && keys[0] == 6 && rest.steps == 3000);
    vbr_end_all(several, 0);
}

static void refused_openings(void) {
    static vbr_handle many[65];
    CHECK(vbr_open(many, 2, 0, 8, 1000) == VBR_BAD_SHAPE);
    CHECK(vbr_open(many, 2, VBR_MAX_SLOTS + 1, 8, 1000) == VBR_BAD_SHAPE);
    CHECK(vbr_open(many, 2, 8, 0, 1000) == VBR_BAD_SHAPE);
    CHECK(vbr_open(many, 2, 8, VBR_MAX_BUCKETS + 1, 1000) == VBR_BAD_SHAPE);
    CHECK(vbr_open(many, 2, 8, 8, 0) == VBR_BAD_SHAPE);
    CHECK(vbr_open(many, 2, 8, 8, vbr_max_epoch(8) + 1) == VBR_BAD_SHAPE);
    CHECK(vbr_open(many, 0, 8, 8, 1000) == VBR_BAD_COUNT);
    CHECK(vbr_open(many, 65, 8, 8, 1000) == VBR_BAD_COUNT);
    for (int i = 0; i < 65; i++) CHECK(vbr_has(&many[i], 1) == VBR_NO_HANDLE);
    CHECK(vbr_open(&many[7], 1, 8, 8, 1000) == VBR_OK);
    CHECK(vbr_open(many, 64, 8, 8, 1000) == VBR_IN_USE);
    CHECK(vbr_has(&many[6], 1) == VBR_NO_HANDLE && vbr_has(&many[7], 1) == VBR_NO);
    CHECK(vbr_close(&many[7], keys, 0, &report) == VBR_YES);
    CHECK(vbr_open(many, 64, (1u << 24) - 1, 1u << 24, VBR_MAX_EPOCH) == VBR_OK && vbr_last_epoch(&many[0]) == VBR_MAX_EPOCH);
    for (int i = 0; i < 63; i++) CHECK(vbr_close(&many[i], keys, 4, &report) == VBR_NO);
    CHECK(vbr_close(&many[63], keys, 4, &report) == VBR_YES && report.free == (1u << 24) - 1);
}

/* Whether a set of so many slots opens with a last epoch, and has the wanted one then. */
static int opens_with(uint32_t slots, uint64_t last_epoch, uint64_t wanted) {
    vbr_handle one = {0};
    if (vbr_open(&one, 1, slots, 1, last_epoch) != VBR_OK) return 0;
    int is_so = vbr_slots(&one) == slots && vbr_last_epoch(&one) == wanted && vbr_insert(&one, 5) == VBR_YES && vbr_has(&one, 5) == VBR_YES;
    vbr_drop(&one);
    return is_so;
}

/* The greatest last epoch of so many slots is taken, and one more is refused; VBR_MAX_EPOCH is taken with any number of slots. That a
   shape is in range is seen without memory: an opening of no handle is then refused for that, which is tested next. */
static void greatest_epochs(void) {
    static const uint32_t some[] = {1, 2, 4095, 4096, (1u << 24) - 1, 1u << 24, 1u << 25, 1u << 30, VBR_MAX_SLOTS};
    vbr_handle none = {0};
    for (size_t i = 0; i < sizeof some / sizeof *some; i++) {
        uint64_t most = vbr_max_epoch(some[i]);
        CHECK(vbr_open(&none, 0, some[i], VBR_MAX_BUCKETS, most) == VBR_BAD_COUNT && vbr_open(&none, 0, some[i], 1, 1) == VBR_BAD_COUNT);
        CHECK(vbr_open(&none, 0, some[i], 1, most + 1) == VBR_BAD_SHAPE && vbr_open(&none, 0, some[i], 1, UINT64_MAX) == VBR_BAD_SHAPE);
        CHECK(vbr_open(&none, 0, some[i], 1, VBR_MAX_EPOCH) == VBR_BAD_COUNT && vbr_open(&none, 0, some[i], 1, 0) == VBR_BAD_SHAPE);
    }
    CHECK(vbr_open(&none, 0, 1u << 31, 1, 1) == VBR_BAD_SHAPE && vbr_open(&none, 0, 1u << 31, 1, VBR_MAX_EPOCH) == VBR_BAD_SHAPE);
    CHECK(opens_with(8, VBR_MAX_EPOCH, VBR_MAX_EPOCH) && opens_with(8, vbr_max_epoch(8), (UINT64_C(1) << 59) - 1));
    CHECK(opens_with(1u << 24, VBR_MAX_EPOCH, (UINT64_C(1) << 38) - 1));
#ifndef OF_VALUES /* of a map, 2.7 GB */
    CHECK(opens_with(1u << 25, vbr_max_epoch(1u << 25), (UINT64_C(1) << 37) - 1));
#endif
}

static void calls_and_closes(void) {
    vbr_handle two[2] = {{0}};
    CHECK(vbr_open(two, 2, 2, 1, 3) == VBR_OK);
    CHECK(vbr_insert(&two[0], 7) == VBR_YES && vbr_insert(&two[1], 7) == VBR_NO);
    CHECK(vbr_has(&two[1], 7) == VBR_YES && vbr_has(&two[0], 9) == VBR_NO);
    CHECK(vbr_remove(&two[1], 9) == VBR_NO && vbr_insert(&two[1], 5) == VBR_YES);
    CHECK(vbr_insert(&two[1], 9) == VBR_NO_SLOT && vbr_has_within(&two[0], 7, 1) == VBR_OUT_OF_STEPS);
    CHECK(vbr_insert_within(&two[0], 9, 1) == VBR_OUT_OF_STEPS && vbr_remove_within(&two[0], 9, 1) == VBR_OUT_OF_STEPS);
    keys[0] = keys[1] = 99;
    CHECK(vbr_close(&two[0], keys, 4, &report) == VBR_NO && keys[0] == 99);
    CHECK(vbr_close(&two[0], keys, 4, &report) == VBR_NO_HANDLE && keys[0] == 99);
    report.live = 77;
    CHECK(vbr_close(&two[1], keys, 1, &report) == VBR_NO_ROOM && keys[0] == 99 && keys[1] == 99);
    CHECK(report.live == 2 && report.marked == 0 && report.free == 0 && report.epoch == 1);
    CHECK(vbr_close(&two[1], keys, 0, &report) == VBR_NO_ROOM && vbr_has(&two[1], 5) == VBR_YES);
    keys[2] = 98;
    CHECK(vbr_close(&two[1], keys, report.live, &report) == VBR_YES && keys[0] == 5 && keys[1] == 7 && keys[2] == 98);
    CHECK(report.live == 2 && report.marked == 0 && report.free == 0 && report.epoch == 1);
}

static void refused_keys(void) {
    static const uint64_t some[3] = {2, 5, 9}, equal[2] = {5, 5}, falling[3] = {5, 9, 2};
    static vbr_handle many[65];
    CHECK(vbr_open_with(many, 2, 0, 2, 10, some, 3) == VBR_BAD_SHAPE);
    CHECK(vbr_open_with(many, 0, 4, 2, 10, some, 3) == VBR_BAD_COUNT);
    CHECK(vbr_open_with(many, 65, 4, 2, 10, equal, 2) == VBR_BAD_COUNT);
    CHECK(vbr_open_with(many, 64, 4, 2, 10, equal, 2) == VBR_BAD_KEYS);
    CHECK(vbr_open_with(many, 2, 4, 2, 10, falling, 3) == VBR_BAD_KEYS);
    CHECK(vbr_open_with(many, 2, 2, 2, 10, some, 3) == VBR_BAD_KEYS);
    for (int i = 0; i < 65; i++) CHECK(vbr_has(&many[i], 5) == VBR_NO_HANDLE);
}

static void opened_with_keys(void) {
    static const uint64_t some[3] = {2, 5, 9}, ends[2] = {0, UINT64_MAX}, equal[2] = {5, 5};
    vbr_handle two[2] = {{0}};
    CHECK(vbr_open_with(two, 2, 4, 2, 10, some, 3) == VBR_OK);
    CHECK(vbr_open_with(two, 2, 4, 2, 10, equal, 2) == VBR_IN_USE);
    for (int i = 0; i < 3; i++) CHECK(vbr_has(&two[i % 2], some[i]) == VBR_YES);
    CHECK(vbr_has(&two[0], 3) == VBR_NO && vbr_insert(&two[0], 5) == VBR_NO);
    CHECK(vbr_insert(&two[0], 7) == VBR_YES && vbr_insert(&two[0], 8) == VBR_NO_SLOT);
    CHECK(vbr_remove(&two[1], 9) == VBR_YES);
    CHECK(vbr_close(&two[1], keys, 4, &report) == VBR_NO && vbr_close(&two[0], keys, 4, &report) == VBR_YES);
    CHECK(report.live == 3 && report.epoch == 1 && keys[0] == 2 && keys[1] == 5 && keys[2] == 7);
    CHECK(vbr_open_with(two, 1, 2, 1, 1, ends, 2) == VBR_OK);
    CHECK(vbr_close(&two[0], keys, 4, &report) == VBR_YES && report.live == 2 && report.free == 0);
    CHECK(keys[0] == 0 && keys[1] == UINT64_MAX);
    CHECK(vbr_open_with(two, 1, 2, 1, 1, some, 0) == VBR_OK);
    CHECK(vbr_close(&two[0], keys, 4, &report) == VBR_YES && report.live == 0 && report.free == 2);
}

static void spent_epoch(void) {
    vbr_handle one = {0};
    CHECK(vbr_open(&one, 1, 1, 1, 1) == VBR_OK);
    int32_t code = vbr_insert(&one, 1);
    for (int i = 0; i < 10 && code == VBR_YES; i++) {
        CHECK(vbr_remove(&one, 1) == VBR_YES);
        code = vbr_insert(&one, 1);
    }
    CHECK(code == VBR_EPOCH_SPENT && vbr_remove(&one, 1) == VBR_NO);
    for (int i = 0; i < 2; i++) CHECK(vbr_has(&one, 1) == VBR_NO);
    CHECK(vbr_close(&one, keys, 0, &report) == VBR_YES && report.live == 0);
}

static void shown_numbers(void) {
    vbr_handle two[2] = {{0}};
    CHECK(vbr_version() == VBR_VERSION);
    CHECK(vbr_epoch(&two[0]) == 0 && vbr_last_epoch(&two[0]) == 0);
    CHECK(vbr_slots(&two[0]) == 0 && vbr_buckets(&two[0]) == 0);
    CHECK(vbr_open(two, 2, 3, 4, 9) == VBR_OK);
    for (int i = 0; i < 2; i++) {
        CHECK(vbr_epoch(&two[i]) == 1 && vbr_last_epoch(&two[i]) == 9);
        CHECK(vbr_slots(&two[i]) == 3 && vbr_buckets(&two[i]) == 4);
    }
    for (uint64_t key = 0; key < 4; key++) {
        CHECK(vbr_insert(&two[0], key) == VBR_YES && vbr_remove(&two[0], key) == VBR_YES);
    }
    CHECK(vbr_epoch(&two[0]) > 1 && vbr_epoch(&two[1]) == 1);
    CHECK(vbr_has(&two[1], 0) == VBR_NO && vbr_epoch(&two[1]) == vbr_epoch(&two[0]));
    CHECK(vbr_close(&two[0], keys, 4, &report) == VBR_NO && vbr_epoch(&two[0]) == 0 && vbr_slots(&two[0]) == 0);
    uint64_t epoch = vbr_epoch(&two[1]);
    CHECK(vbr_close(&two[1], keys, 4, &report) == VBR_YES && report.epoch == epoch);
}

static void dropped_handles(void) {
    vbr_handle three[3] = {{0}};
    CHECK(vbr_open(three, 3, 8, 2, 100) == VBR_OK);
    CHECK(vbr_insert(&three[0], 3) == VBR_YES);
    vbr_drop(&three[0]);
    CHECK(vbr_has(&three[0], 3) == VBR_NO_HANDLE && vbr_remove(&three[0], 3) == VBR_NO_HANDLE);
    for (int i = 0; i < 2; i++) CHECK(vbr_has(&three[1], 3) == VBR_YES);
    CHECK(vbr_insert(&three[1], 4) == VBR_YES);
    vbr_drop(&three[1]);
    CHECK(vbr_insert(&three[2], 5) == VBR_YES);
    CHECK(vbr_close(&three[2], keys, 4, &report) == VBR_YES && report.live == 3);
    CHECK(keys[0] == 3 && keys[1] == 4 && keys[2] == 5);
    CHECK(vbr_close(&three[2], keys, 4, &report) == VBR_NO_HANDLE);
    CHECK(vbr_open(three, 3, 8, 2, 100) == VBR_OK);
    for (int i = 0; i < 3; i++) vbr_drop(&three[i]);
}

/* A handle that a program forgets: its pass isn't lost, and the set stays open, so no other close is the last. */
static void forgotten_handle(void) {
    vbr_handle two[2] = {{0}};
    CHECK(vbr_open(two, 2, 8, 2, 100) == VBR_OK && vbr_insert(&two[0], 5) == VBR_YES);
    vbr_handle forgotten = two[0];
    report.live = 77;
    CHECK(vbr_close_all(&two[1], 1, keys, 4, &report) == VBR_MISSING);
    CHECK(vbr_close(&two[1], keys, 4, &report) == VBR_NO && report.live == 77);
    vbr_drop(&forgotten); /* the set ends here, and not before */
}

static void closed_at_once(void) {
    vbr_handle three[3] = {{0}}, other[2] = {{0}};
    CHECK(vbr_close_all(three, 0, keys, 4, &report) == VBR_MISSING);
    CHECK(vbr_close_all(three, 3, keys, 4, &report) == VBR_NO_HANDLE);
    CHECK(vbr_open(three, 3, 8, 2, 100) == VBR_OK && vbr_open(other, 2, 8, 2, 100) == VBR_OK);
    for (uint64_t i = 0; i < 3; i++) CHECK(vbr_insert(&three[i], i + 6) == VBR_YES);
    keys[0] = keys[2] = report.live = 77;
    CHECK(vbr_close_all(three, 2, keys, 4, &report) == VBR_MISSING && report.live == 77);
    vbr_handle mixed[3] = {three[0], other[1], three[2]};
    CHECK(vbr_close_all(mixed, 3, keys, 4, &report) == VBR_MIXED && report.live == 77);
    CHECK(vbr_close_all(three, 3, keys, 2, &report) == VBR_NO_ROOM && report.live == 3 && keys[0] == 77);
    CHECK(vbr_remove(&three[2], 6) == VBR_YES);
    CHECK(vbr_close_all(three, 3, keys, 4, &report) == VBR_YES);
    CHECK(report.live == 2 && keys[0] == 7 && keys[1] == 8 && keys[2] == 77);
    for (int i = 0; i < 3; i++) CHECK(vbr_has(&three[i], 7) == VBR_NO_HANDLE);
    vbr_handle turned[2] = {other[1], other[0]};
    CHECK(vbr_insert(&turned[1], 9) == VBR_YES);
    CHECK(vbr_close_all(turned, 2, keys, 1, &report) == VBR_YES && report.live == 1 && keys[0] == 9);
    CHECK(vbr_open(turned, 1, 8, 2, 100) == VBR_OK && vbr_close_all(turned, 1, keys, 0, &report) == VBR_YES);
    CHECK(vbr_open(turned, 2, 8, 2, 100) == VBR_OK && vbr_close(&turned[0], keys, 4, &report) == VBR_NO);
    CHECK(vbr_close_all(&turned[1], 1, keys, 4, &report) == VBR_MISSING);
    CHECK(vbr_close(&turned[1], keys, 4, &report) == VBR_YES && report.live == 0);
}

int main(void) {
    words(), ended(), empty_handles(), refused_openings(), greatest_epochs(), refused_keys(), opened_with_keys(), calls_and_closes(),
        spent_epoch(), shown_numbers(), dropped_handles(), forgotten_handle(), closed_at_once();
    puts("answers in C: passed");
    return 0;
}
