/* How calls are answered, counted by vbr_stats.h: numbers that are worked by hand, those of four threads, and those of more handles than
   it has lines for. It wants VBR_STATS. */
#include "client.h"
#include "vbr_lend.h"

enum { THREADS = 4, ROUNDS = 20000, CROWD = 2000 };

static int are(vbr_stats told, uint64_t yes, uint64_t no, uint64_t other, uint64_t out_of_steps, uint64_t no_slot, uint64_t epoch_spent, uint64_t held,
               uint64_t no_handle) {
    return told.yes == yes && told.no == no && told.other == other && told.out_of_steps == out_of_steps && told.no_slot == no_slot &&
           told.epoch_spent == epoch_spent && told.held == held && told.reshaped == 0 && told.no_handle == no_handle;
}

static int of_sets(void) {
    static vbr_handle handle[2], none, moved;
    static const uint64_t wanted[3] = {1, 2, 3};
    vbr_answer answers[3];
    vbr_cursor cursor = VBR_CURSOR_BEGIN;
    uint64_t key = 0;
    uint32_t slot = 0;
    CHECK(are(vbr_stats_of(handle, 2), 0, 0, 0, 0, 0, 0, 0, 0) && vbr_open(handle, 2, 2, 1, 2) == VBR_OK);
    CHECK(vbr_insert(&handle[0], 1) == VBR_YES && vbr_insert(&handle[0], 1) == VBR_NO && vbr_insert(&handle[0], 2) == VBR_YES);
    CHECK(vbr_insert(&handle[0], 3) == VBR_NO_SLOT && vbr_insert_within(&handle[0], 3, 1) == VBR_OUT_OF_STEPS);
    CHECK(are(vbr_stats_of(handle, 1), 2, 1, 0, 1, 1, 0, 0, 0) && are(vbr_stats_of(&handle[1], 1), 0, 0, 0, 0, 0, 0, 0, 0));
    vbr_has_all(&handle[1], wanted, 3, answers);
    CHECK(answers[2] == VBR_NO && are(vbr_stats_of(&handle[1], 1), 2, 1, 0, 0, 0, 0, 0, 0));
    CHECK(vbr_next(&handle[1], &cursor, &key) == VBR_YES && vbr_has(&none, 1) == VBR_NO_HANDLE);
    vbr_stats told = vbr_stats_of(handle, 2); // of both handles
    uint64_t calls = told.yes + told.no, refused = told.out_of_steps + told.no_slot;
    CHECK(are(told, 5, 2, 0, 1, 1, 0, 0, 0) && calls == 7 && refused == 2 && are(vbr_stats_of(&none, 1), 0, 0, 0, 0, 0, 0, 0, 1));
    CHECK(vbr_remove(&handle[0], 1) == VBR_YES && vbr_hold(&handle[0], &slot) == VBR_YES && vbr_hold(&handle[0], &slot) == VBR_HELD);
    CHECK(vbr_let_go(&handle[0]) == VBR_YES && are(vbr_stats_of(&handle[0], 1), 4, 1, 0, 1, 1, 0, 1, 0));
    moved = handle[1], handle[1].owned = NULL;
    CHECK(vbr_has(&moved, 2) == VBR_YES && are(vbr_stats_of(&moved, 1), 1, 0, 0, 0, 0, 0, 0, 0));
    vbr_stats all = vbr_stats_of_all(); // of sets and maps
    CHECK(are(all, 8, 2, 0, 1, 1, 0, 1, 1));
    vbr_drop(&moved), vbr_drop(&handle[0]);
    CHECK(vbr_open(handle, 2, 1, 1, 9) == VBR_OK && vbr_insert(&handle[0], 1) == VBR_YES && vbr_remove(&handle[0], 1) == VBR_YES);
    CHECK(vbr_insert(&handle[1], 2) == VBR_NO_SLOT && vbr_give_slots_back(&handle[0]) == 1 && vbr_insert(&handle[0], 2) == VBR_YES);
    vbr_stats seen = vbr_stats_seen_by(&handle[0], handle, 2); // seen.free_about slots lie in the shared pool
    CHECK(seen.advances == 1 && seen.restarts == 0 && seen.helps == 0 && seen.free_about == 0 && vbr_epoch(&handle[0]) == 2);
    vbr_end_all(handle, 2);
    return 0;
}

static int of_maps(void) {
    static vbr_map_handle map[1];
    static const uint64_t wanted[2] = {1, 2};
    vbr_found found[2];
    vbr_cursor cursor = VBR_CURSOR_BEGIN;
    vbr_entry entry;
    CHECK(vbr_map_open(map, 1, 1, 1, 1) == VBR_OK && vbr_map_insert(&map[0], 1, 10) == VBR_YES);
    CHECK(vbr_map_compare_exchange(&map[0], 1, 11, 12, NULL) == VBR_OTHER && vbr_map_remove_if(&map[0], 1, 10, NULL) == VBR_YES);
    CHECK(vbr_map_insert(&map[0], 1, 10) == VBR_EPOCH_SPENT);
    vbr_map_get_all(&map[0], wanted, 2, found);
    vbr_stats told = vbr_map_stats_of(map, 1); // of the one handle
    CHECK(are(told, 2, 2, 1, 0, 0, 1, 0, 0));
    CHECK(vbr_map_next(&map[0], &cursor, &entry) == VBR_NO && vbr_map_renew_all(map, 1, 2, 2, 2) == VBR_OK);
    CHECK(vbr_map_next(&map[0], &cursor, &entry) == VBR_RESHAPED && vbr_map_stats_of(map, 1).reshaped == 1);
    vbr_stats seen = vbr_map_stats_seen_by(&map[0], map, 1); // seen.advances + 1 is the epoch of a map with one handle
    CHECK(seen.advances + 1 == vbr_map_epoch(&map[0]) && seen.free_about == 2);
    vbr_map_drop(map);
    return 0;
}

static vbr_handle handles[THREADS], crowd[CROWD];

static void *work(void *of) {
    vbr_handle *mine = of;
    uint64_t first = (uint64_t)(mine - handles) * ROUNDS;
    for (uint64_t i = 0; i < ROUNDS; i++)
        if (vbr_insert(mine, first + i) != VBR_YES || vbr_insert(mine, first + i) != VBR_NO || vbr_remove(mine, first + i) != VBR_YES) return NULL;
    return of;
}

static int of_threads(void) {
    pthread_t threads[THREADS];
    void *told = NULL;
    CHECK(vbr_open(handles, THREADS, 64 * (THREADS + 1), 64, VBR_MAX_EPOCH) == VBR_OK);
    for (int i = 0; i < THREADS; i++) CHECK(!pthread_create(&threads[i], NULL, work, &handles[i]));
    for (int i = 0; i < THREADS; i++) CHECK(!pthread_join(threads[i], &told) && told == &handles[i]);
    for (int i = 0; i < THREADS; i++) CHECK(are(vbr_stats_of(&handles[i], 1), 2 * ROUNDS, ROUNDS, 0, 0, 0, 0, 0, 0));
    CHECK(are(vbr_stats_of(handles, THREADS), 2 * THREADS * ROUNDS, THREADS * ROUNDS, 0, 0, 0, 0, 0, 0));
    vbr_end_all(handles, THREADS);
    return 0;
}

/* Handles without a line are counted together, and none twice. */
static int of_a_crowd(void) {
    static const uint64_t none[1];
    uint64_t before = vbr_stats_of_all().no;
    CHECK(vbr_open_many(crowd, CROWD, 64, 64, VBR_MAX_EPOCH, none, 0) == VBR_OK);
    for (int round = 0; round < 3; round++)
        for (int i = 0; i < CROWD; i++) CHECK(vbr_has(&crowd[i], 1) == VBR_NO);
    CHECK(vbr_stats_of_all().no == before + 3 * CROWD);
    uint64_t of_lines = vbr_stats_of(crowd, CROWD).no;
    CHECK(of_lines >= 3 * 900 && of_lines <= 3 * VBR_STATS_LINES && of_lines % 3 == 0);
    vbr_end_all(crowd, CROWD);
    return 0;
}

int main(void) {
    CHECK(sizeof(vbr_stats_line) == 128);
    if (of_sets() || of_maps() || of_threads() || of_a_crowd()) return 1;
    puts("answers that are counted, of sets and maps: passed");
    return 0;
}
