/* Each allocation is refused in turn, and then all from some allocation on; nothing is lost or leaked.
   Link with -Wl,--wrap=malloc,--wrap=calloc,--wrap=realloc,--wrap=free. */
#include "client.h"
#ifndef OF_VALUES
#include "vbr_records.h"
#endif

void *__real_malloc(size_t size);
void *__real_calloc(size_t count, size_t size);
void *__real_realloc(void *block, size_t size);
void __real_free(void *block);

static long allowed = -1; /* how many allocations are granted before one is refused; below 0: all are */
static int stays_short;   /* whether those after it are refused too */
static long blocks;       /* how many blocks are allocated */

static int refuses(void) {
    if (allowed < 0) return 0;
    if (allowed > 0) return allowed--, 0;
    if (!stays_short) allowed = -1;
    return 1;
}

void *__wrap_malloc(size_t size) {
    void *block = refuses() ? NULL : __real_malloc(size);
    if (block) blocks++;
    return block;
}

void *__wrap_calloc(size_t count, size_t size) {
    void *block = refuses() ? NULL : __real_calloc(count, size);
    if (block) blocks++;
    return block;
}

void *__wrap_realloc(void *old, size_t size) {
    void *block = refuses() ? NULL : __real_realloc(old, size);
    if (block && !old) blocks++;
    return block;
}

void __wrap_free(void *block) {
    if (block) blocks--;
    __real_free(block);
}

static int keyed;   /* whether the set is opened with its keys */
static int at_once; /* whether it is closed by all its handles at once */
static long failed_opens, failed_closes, failed_renewals;

static int32_t close_rest(vbr_handle *handle, uint64_t *keys, vbr_report *report) {
    return at_once ? vbr_close_all(handle, 3, keys, 8, report) : vbr_close(&handle[1], keys, 8, report);
}

/* How many keys a walk gives, or -1. */
static int walked(vbr_handle *handle) {
    vbr_cursor cursor = VBR_CURSOR_BEGIN;
    uint64_t key = 0;
    int count = 0;
    vbr_answer told;
    while ((told = vbr_next(handle, &cursor, &key)) == VBR_YES) count++;
    return told == VBR_NO ? count : -1;
}

/* A set is opened, used and closed while the nth allocation is refused. 1: none was, 0: one was. */
static int round_with(long n, int *done) {
    vbr_handle handle[3] = {{0}};
    vbr_report report = {0, 0, 0, 0};
    static const uint64_t opening[2] = {6, 7};
    uint64_t keys[8] = {0};
    *done = 0;
    allowed = n;
    int32_t code = keyed ? vbr_open_with(handle, 3, 8, 2, 100, opening, 2) : vbr_open(handle, 3, 8, 2, 100);
    if (code != VBR_OK) {
        allowed = -1;
        CHECK(code == VBR_NO_MEMORY && blocks == 0);
        for (int i = 0; i < 3; i++) CHECK(vbr_has(&handle[i], 7) == VBR_NO_HANDLE);
        failed_opens++;
        return 0;
    }
    int32_t added = keyed ? VBR_NO : VBR_YES;
    CHECK(vbr_insert(&handle[1], 7) == added && vbr_insert(&handle[0], 6) == added);
    if (!at_once) {
        CHECK(vbr_close(&handle[0], keys, 8, &report) == VBR_NO);
        vbr_drop(&handle[2]);
    }
    code = close_rest(handle, keys, &report);
    if (code == VBR_NO_MEMORY) {
        failed_closes++;
        CHECK(keys[0] == 0 && close_rest(handle, keys, &report) == (stays_short ? VBR_NO_MEMORY : VBR_YES));
        if (stays_short) { /* the handles are full: they make calls, and are closed once there is memory */
            CHECK(vbr_has(&handle[1], 7) == VBR_YES && vbr_remove(&handle[1], 6) == VBR_YES);
            CHECK(!at_once || vbr_has(&handle[0], 6) == VBR_NO);
            CHECK(walked(&handle[1]) == 1 && vbr_insert(&handle[1], 6) == VBR_YES && walked(&handle[1]) == 2);
            allowed = -1;
            CHECK(close_rest(handle, keys, &report) == VBR_YES);
        }
    } else {
        CHECK(code == VBR_YES);
        *done = allowed >= 0;
    }
    allowed = -1;
    CHECK(report.live == 2 && keys[0] == 6 && keys[1] == 7 && blocks == 0);
    CHECK(vbr_has(&handle[1], 7) == VBR_NO_HANDLE);
    return 0;
}

/* A set of two keys is reported and renewed by all its handles while the nth allocation is refused; they go on. */
static int renewed_with(long n, int *done) {
    vbr_handle handle[2] = {{0}};
    vbr_report report = {0, 0, 0, 0};
    uint64_t keys[8] = {0};
    CHECK(vbr_open(handle, 2, 8, 2, 100) == VBR_OK);
    CHECK(vbr_insert(&handle[1], 7) == VBR_YES && vbr_insert(&handle[0], 6) == VBR_YES);
    allowed = n;
    CHECK(vbr_renew_all(handle, 2, 1, 4, 1000) == VBR_NO_ROOM && vbr_slots(&handle[0]) == 8); /* whatever memory there is */
    allowed = n;
    vbr_answer told = vbr_report_all(handle, 2, keys, 8, &report);
    CHECK(told == VBR_YES || (told == VBR_NO_MEMORY && report.live == 0 && keys[0] == 0));
    vbr_answer renewed = vbr_renew_all(handle, 2, 16, 4, 1000);
    *done = renewed == VBR_OK && allowed >= 0;
    CHECK(renewed == VBR_OK || (renewed == VBR_NO_MEMORY && vbr_slots(&handle[0]) == 8 && vbr_balance(&handle[1]) == 1));
    if (told != VBR_YES || renewed != VBR_OK) failed_renewals++;
    allowed = -1;
    CHECK(walked(&handle[0]) == 2 && vbr_remove(&handle[0], 7) == VBR_YES && vbr_insert(&handle[1], 5) == VBR_YES);
    CHECK(vbr_balance(&handle[0]) + vbr_balance(&handle[1]) == 2 && vbr_renew_all(handle, 2, 16, 4, 1000) == VBR_OK);
    CHECK(vbr_slots(&handle[1]) == 16 && vbr_balance(&handle[0]) == 2 && vbr_has(&handle[1], 6) == VBR_YES);
    CHECK(vbr_close_all(handle, 2, keys, 8, &report) == VBR_YES && report.live == 2 && keys[0] == 5 && keys[1] == 6 && blocks == 0);
    return 0;
}

#ifndef OF_VALUES
/* Records are carried over a renewal while the nth allocation is refused: both are done, or neither. */
static int carried_with(long n, int *done) {
    vbr_map_handle map[2] = {{0}};
    vbr_records records = {0};
    uint64_t seen[3] = {0};
    vbr_incarnation at = {0, 0, 0};
    CHECK(vbr_map_open(map, 2, 8, 2, 100) == VBR_OK && vbr_records_open(&records, 8, sizeof seen, NULL) == VBR_OK);
    for (uint64_t key = 6; key < 8; key++) {
        uint32_t slot = 0;
        uint64_t mine[3] = {key, key, key};
        CHECK(vbr_map_hold(&map[1], &slot) == VBR_YES);
        vbr_records_write(&records, slot, mine);
        CHECK(vbr_map_insert_held(&map[1], 13 - key, key) == VBR_YES); /* so they change places */
    }
    allowed = n;
    vbr_answer told = vbr_map_records_renew_all(map, 2, 16, 4, 1000, &records, NULL);
    *done = told == VBR_OK && allowed >= 0;
    allowed = -1;
    CHECK(told == VBR_OK || told == VBR_NO_MEMORY);
    CHECK(records.slots == (told == VBR_OK ? 16 : 8) && vbr_map_slots(&map[0]) == records.slots);
    for (uint64_t key = 6; key < 8; key++) {
        CHECK(vbr_map_records_read(&map[0], &records, 13 - key, seen, &at) == VBR_YES && at.value == key);
        CHECK(seen[0] == key && seen[1] == key && seen[2] == key);
    }
    vbr_map_end_all(map, 2);
    vbr_records_close(&records);
    CHECK(blocks == 0);
    return 0;
}
#else
static int carried_with(long n, int *done) { return *done = n >= 0, 0; }
#endif

/* A set whose handles are given up asks for no memory, and frees all. */
static void ended(void) {
    vbr_handle handle[3] = {{0}};
    static const uint64_t opening[2] = {6, 7};
    CHECK(vbr_open_with(handle, 3, 8, 2, 100, opening, 2) == VBR_OK && blocks > 0);
    allowed = 0, stays_short = 1;
    vbr_end_all(handle, 3);
    CHECK(allowed == 0 && blocks == 0);
    allowed = -1;
}

int main(void) {
    ended();
    for (stays_short = 0; stays_short < 2; stays_short++) {
        int done = 0;
        for (long n = 0; !done; n++)
            if (renewed_with(n, &done)) return 1;
        done = 0;
        for (long n = 0; !done; n++)
            if (carried_with(n, &done)) return 1;
    }
    for (int turn = 0; turn < 8; turn++) {
        int done = 0;
        stays_short = turn % 2;
        keyed = turn / 2 % 2;
        at_once = turn / 4;
        for (long n = 0; !done; n++)
            if (round_with(n, &done)) return 1;
    }
    CHECK(failed_opens > 0 && failed_closes > 0 && failed_renewals > 0);
    printf("refused allocations in C: passed, %ld opens and %ld closes found no memory\n", failed_opens, failed_closes);
    return 0;
}
