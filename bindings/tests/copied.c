/* What a program may do only by mistake, and the library refuses: a handle that was copied stands twice in place of all, and an opening
   is given a count or a shape that is out of range, with handles that are in use or aren't there. Nothing is freed or changed, and the
   handles go on. */
#include "client.h"

enum { MANY = 9000, KEYS = 8 };

static uint64_t keys[KEYS];
static vbr_report report;
static vbr_handle many[MANY], other_order[MANY];

static vbr_answer report_slots(vbr_handle *handles, size_t count) {
    uint32_t slots[KEYS];
#ifdef OF_VALUES
    vbr_entry entries[KEYS];
    return vbr_map_report_slots(handles, count, entries, slots, KEYS, &report);
#else
    return vbr_report_slots(handles, count, keys, slots, KEYS, &report);
#endif
}

/* Each call of all handles refuses these, and writes nothing. */
static void are_refused(vbr_handle *handles, size_t count) {
    report.live = 77, keys[0] = 77;
    CHECK(vbr_report_all(handles, count, keys, KEYS, &report) == VBR_MISSING && report_slots(handles, count) == VBR_MISSING);
    CHECK(vbr_renew_all(handles, count, 2048 + 64 * MANY, 2048, VBR_MAX_EPOCH) == VBR_MISSING);
    CHECK(vbr_renew_all_seeded(handles, count, 2048 + 64 * MANY, 2048, VBR_MAX_EPOCH, 7) == VBR_MISSING);
    CHECK(vbr_close_all(handles, count, keys, KEYS, &report) == VBR_MISSING && report.live == 77 && keys[0] == 77);
}

/* One of two handles stands twice, or the two and one of them. */
static void one_of_two(void) {
    vbr_handle handle[2] = {{0}};
    CHECK(vbr_open(handle, 2, 1024 + 2 * 64, 1024, VBR_MAX_EPOCH) == VBR_OK);
    CHECK(vbr_insert(&handle[0], 5) == VBR_YES && vbr_insert(&handle[1], 2) == VBR_YES);
    for (int i = 0; i < 2; i++) {
        vbr_handle copies[3] = {handle[i], handle[i], handle[1 - i]};
        are_refused(copies, 2);
        are_refused(copies, 3);
        are_refused(&copies[1], 1);
        CHECK(vbr_has(&handle[0], 2) == VBR_YES && vbr_has(&handle[1], 5) == VBR_YES);
        CHECK(vbr_balance(&handle[0]) == 1 && vbr_balance(&handle[1]) == 1);
    }
    CHECK(vbr_report_all(handle, 2, keys, KEYS, &report) == VBR_YES && report.live == 2 && keys[0] == 2 && keys[1] == 5);
    CHECK(vbr_renew_all(handle, 2, 2048 + 2 * 64, 2048, VBR_MAX_EPOCH) == VBR_OK && vbr_slots(&handle[1]) == 2048 + 2 * 64);
    CHECK(vbr_insert(&handle[1], 9) == VBR_YES && vbr_remove(&handle[0], 5) == VBR_YES);
    vbr_handle copies[2] = {handle[1], handle[1]};
    are_refused(copies, 2);
    CHECK(vbr_close_all(handle, 2, keys, KEYS, &report) == VBR_YES && report.live == 2 && keys[0] == 2 && keys[1] == 9);
}

/* One of many handles stands in the place of another, wherever the two are, and in whatever order the others stand. */
static void one_of_many(void) {
    static const size_t places[][2] = {{0, 1}, {0, MANY - 1}, {17, 4000}, {17, 5000}, {4095, 4096}, {MANY - 2, MANY - 1}};
    CHECK(vbr_open_many(many, MANY, 1024 + 64 * MANY, 1024, VBR_MAX_EPOCH, keys, 0) == VBR_OK);
    CHECK(vbr_insert(&many[MANY - 1], 5) == VBR_YES && vbr_insert(&many[0], 2) == VBR_YES);
    for (size_t i = 0; i < sizeof places / sizeof *places; i++) {
        size_t one = places[i][0], other = places[i][1];
        for (size_t at = 0; at < MANY; at++) other_order[at] = many[at * 7 % MANY]; /* MANY has no factor 7 */
        CHECK(vbr_report_all(other_order, MANY, keys, KEYS, &report) == VBR_YES && report.live == 2 && keys[0] == 2 && keys[1] == 5);
        other_order[one] = other_order[other];
        are_refused(other_order, MANY);
        vbr_handle kept = many[other];
        many[other] = many[one];
        are_refused(many, MANY);
        many[other] = kept;
    }
    CHECK(vbr_renew_all(many, MANY, 2048 + 64 * MANY, 2048, VBR_MAX_EPOCH) == VBR_OK && vbr_has(&many[17], 5) == VBR_YES);
    for (size_t at = 0; at < MANY; at++) other_order[at] = many[MANY - 1 - at / 2]; /* half of them, each twice */
    vbr_end_all(other_order, MANY);
    for (size_t at = 0; at < MANY / 2; at++) many[MANY - 1 - at].owned = NULL;
    for (size_t at = 0; at < MANY; at++) CHECK(!other_order[at].owned);
    CHECK(vbr_has(&many[17], 5) == VBR_YES);
    vbr_end_all(many, MANY);
    for (size_t at = 0; at < MANY; at++) CHECK(!many[at].owned);
}

/* A handle that stands twice where handles are ended, of one set and another, is given up once. */
static void ended_twice(void) {
    vbr_handle handle[2] = {{0}}, other[3] = {{0}};
    CHECK(vbr_open(handle, 2, 1024 + 2 * 64, 1024, VBR_MAX_EPOCH) == VBR_OK && vbr_open(other, 3, 1024 + 3 * 64, 1024, VBR_MAX_EPOCH) == VBR_OK);
    CHECK(vbr_insert(&handle[0], 5) == VBR_YES && vbr_insert(&other[0], 6) == VBR_YES);
    vbr_handle ended[7] = {other[0], handle[0], {0}, other[0], handle[0], other[2], handle[0]};
    ended[2].steps = 3000;
    vbr_end_all(ended, 7);
    for (int i = 0; i < 7; i++) CHECK(!ended[i].owned && ended[i].steps == (i == 2 ? 3000u : 0u));
    CHECK(vbr_close(&handle[1], keys, KEYS, &report) == VBR_YES && report.live == 1 && keys[0] == 5);
    CHECK(vbr_has(&other[1], 6) == VBR_YES && vbr_close(&other[1], keys, KEYS, &report) == VBR_YES && report.live == 1 && keys[0] == 6);
    vbr_handle one = {0};
    CHECK(vbr_open(&one, 1, 8, 8, 1000) == VBR_OK);
    vbr_handle alone[2] = {one, one};
    vbr_end_all(alone, 2);
    CHECK(!alone[0].owned && !alone[1].owned);
}

/* The count and the shape are tested before a handle is read, and the handles before the keys. */
static void refused_openings(vbr_handle *handle, vbr_answer next) {
    static const uint64_t some[2] = {2, 5}, falling[2] = {5, 2};
    static const size_t counts[] = {0, (size_t)-1, (size_t)-1 / 16, VBR_MAX_MANY_HANDLES + 1};
    for (size_t i = 0; i < sizeof counts / sizeof *counts; i++) {
        size_t count = counts[i];
        CHECK(vbr_open(handle, count, 8, 8, 1000) == VBR_BAD_COUNT && vbr_open_with(handle, count, 8, 8, 1000, falling, 2) == VBR_BAD_COUNT);
        CHECK(vbr_open_seeded(handle, count, 8, 8, 1000, 7, some, 2) == VBR_BAD_COUNT);
        CHECK(vbr_open_many(handle, count, 8, 8, 1000, some, 2) == VBR_BAD_COUNT);
        CHECK(vbr_open_many_seeded(handle, count, 8, 8, 1000, 7, falling, 2) == VBR_BAD_COUNT);
        CHECK(vbr_open(handle, count, 0, 8, 1000) == VBR_BAD_SHAPE && vbr_open_with(handle, count, 8, 0, 1000, falling, 2) == VBR_BAD_SHAPE);
        CHECK(vbr_open_seeded(handle, count, 8, 8, 0, 7, some, 2) == VBR_BAD_SHAPE);
        CHECK(vbr_open_many(handle, count, 0, 8, 1000, some, 2) == VBR_BAD_SHAPE);
        CHECK(vbr_open_many_seeded(handle, count, 8, 0, 1000, 7, some, 2) == VBR_BAD_SHAPE);
    }
    CHECK(vbr_open(handle, VBR_MAX_FEW_HANDLES + 1, 8, 8, 1000) == VBR_BAD_COUNT);
    CHECK(vbr_open(handle, 2, 0, 8, 1000) == VBR_BAD_SHAPE && vbr_open_many(handle, 2, 8, 0, 1000, falling, 2) == VBR_BAD_SHAPE);
    CHECK(vbr_open_with(handle, 2, 8, 8, 1000, falling, 2) == next && vbr_open_many(handle, 2, 8, 8, 1000, falling, 2) == next);
}

static void openings(void) {
    vbr_handle handle[2] = {{0}};
    CHECK(vbr_open(&handle[1], 1, 8, 8, 1000) == VBR_OK && vbr_insert(&handle[1], 5) == VBR_YES);
    refused_openings(handle, VBR_IN_USE);
    CHECK(vbr_open(handle, 2, 8, 8, 1000) == VBR_IN_USE && vbr_has(&handle[0], 5) == VBR_NO_HANDLE);
    CHECK(vbr_close(&handle[1], keys, KEYS, &report) == VBR_YES && report.live == 1 && keys[0] == 5);
    refused_openings(handle, VBR_BAD_KEYS);
}

int main(void) {
    one_of_two();
    one_of_many();
    ended_twice();
    openings();
    puts("handles in C that stand twice, and counts that are none: passed");
    return 0;
}
