/* What handles count of the interference that their calls met, by rows that are worked by hand and for threads that meet; and how many
   slots lie in the shared pool. */
#include "client.h"

enum { THREADS = 4, ROUNDS = 20000, SECONDS = 120 /* of processor time */ };

static vbr_handle handles[THREADS];

/* A remove with no step to spare leaves its marked node in the list, and the next call that meets it unlinks it. */
static void helps(void) {
    vbr_handle handle[2] = {{0}}, none = {0};
    uint32_t steps = 1;
    CHECK(vbr_restarts(&none) == 0 && vbr_helps(&none) == 0 && vbr_advances(&none) == 0 && vbr_free_about(&none) == 0);
    CHECK(vbr_open(handle, 2, 1024 + 2 * 64, 1024, VBR_MAX_EPOCH) == VBR_OK);
    CHECK(vbr_insert(&handle[0], 5) == VBR_YES);
    while (vbr_remove_within(&handle[0], 5, steps) == VBR_OUT_OF_STEPS) steps++;
    CHECK(vbr_has(&handle[1], 5) == VBR_NO && vbr_helps(&handle[0]) == 0 && vbr_helps(&handle[1]) == 0);
    CHECK(vbr_insert(&handle[1], 5) == VBR_YES && vbr_helps(&handle[1]) == 1);
    uint64_t helped = vbr_helps(&handle[0]); // removes of others that were held up
    uint64_t again = vbr_restarts(&handle[0]); // 0 while no other thread makes calls
    CHECK(helped == 0 && again == 0 && vbr_restarts(&handle[1]) == 0);
    vbr_end_all(handle, 2);
}

/* Each handle keeps 32 of 1,152 slots to itself; of 11 slots none does. */
static void pools(void) {
    vbr_handle handle[2] = {{0}};
    CHECK(vbr_open(handle, 2, 1024 + 2 * 64, 1024, VBR_MAX_EPOCH) == VBR_OK);
    uint32_t pooled = vbr_free_about(&handle[0]); // besides, each handle keeps some to itself
    CHECK(pooled == 1152 - 2 * 32 && vbr_give_slots_back(&handle[1]) == 32 && vbr_free_about(&handle[0]) == 1152 - 32);
    vbr_end_all(handle, 2);
    CHECK(vbr_open(handle, 2, 11, 1, VBR_MAX_EPOCH) == VBR_OK && vbr_free_about(&handle[0]) == 11);
    CHECK(vbr_insert(&handle[0], 5) == VBR_YES && vbr_insert(&handle[1], 6) == VBR_YES && vbr_free_about(&handle[1]) == 9);
    CHECK(vbr_renew_all(handle, 2, 70, 1, VBR_MAX_EPOCH) == VBR_OK && vbr_free_about(&handle[0]) <= 68);
    vbr_end_all(handle, 2);
}

/* With one slot each insert but the first advances the epoch. */
static void advances(void) {
    vbr_handle handle[2] = {{0}};
    CHECK(vbr_open(handle, 2, 1, 1, 1000) == VBR_OK);
    for (uint64_t key = 0; key < 10; key++) CHECK(vbr_insert(&handle[0], key) == VBR_YES && vbr_remove(&handle[0], key) == VBR_YES);
    uint64_t advanced = vbr_advances(&handle[0]) + vbr_advances(&handle[1]); // the epoch less 1
    CHECK(advanced == 9 && vbr_epoch(&handle[0]) == 10 && vbr_advances(&handle[1]) == 0);
    CHECK(vbr_renew_all(handle, 2, 1, 1, 1000) == VBR_OK && vbr_advances(&handle[0]) == 0);
    vbr_end_all(handle, 2);
}

static void of_maps(void) {
    vbr_map_handle map[2] = {{0}};
    uint32_t steps = 1;
    CHECK(vbr_map_open(map, 2, 1024 + 2 * 64, 1024, VBR_MAX_EPOCH) == VBR_OK && vbr_map_insert(&map[0], 5, 50) == VBR_YES);
    while (vbr_map_remove_within(&map[0], 5, NULL, steps) == VBR_OUT_OF_STEPS) steps++;
    CHECK(vbr_map_put(&map[1], 5, 51, NULL) == VBR_NO && vbr_map_helps(&map[1]) == 1);
    uint64_t unlinked = vbr_map_helps(&map[0]); // removes of others that were held up
    uint64_t began = vbr_map_restarts(&map[0]); // 0 while no other thread makes calls
    uint64_t moved = vbr_map_advances(&map[0]) + vbr_map_advances(&map[1]); // the epoch less 1
    uint32_t shared = vbr_map_free_about(&map[0]); // besides, each handle keeps some to itself
    CHECK(unlinked == 0 && began == 0 && moved == vbr_map_epoch(&map[1]) - 1 && shared == 1152 - 2 * 32);
    vbr_map_end_all(map, 2);
}

static void *meet(void *of) {
    vbr_handle *mine = of;
    for (uint64_t i = 0; i < ROUNDS; i++)
        if (vbr_insert(mine, i % 8) == VBR_YES) CHECK(vbr_remove(mine, i % 8) >= VBR_NO);
    return NULL;
}

/* Threads that change the same keys begin traversals anew; and the advances of all handles make the epoch. */
static void of_threads(void) {
    uint64_t restarts = 0, all = 0, epoch = 0;
    CHECK(vbr_open(handles, THREADS, 64, 1, VBR_MAX_EPOCH) == VBR_OK);
    for (; restarts == 0; restarts = vbr_restarts(&handles[0]) + vbr_restarts(&handles[1])) {
        CHECK(clock() / CLOCKS_PER_SEC < SECONDS);
        run_threads(THREADS, meet, handles, sizeof *handles);
    }
    for (int i = 0; i < THREADS; i++) all += vbr_advances(&handles[i]);
    for (int i = 0; i < THREADS; i++)
        if (vbr_epoch(&handles[i]) > epoch) epoch = vbr_epoch(&handles[i]);
    CHECK(all + 1 == epoch && all > 0);
    vbr_end_all(handles, THREADS);
}

int main(void) {
    helps(), pools(), advances(), of_maps(), of_threads();
    puts("restarts, helps, advances and slots in the shared pool, of sets and maps: passed");
    return 0;
}
