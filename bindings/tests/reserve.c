/* Slots that a handle keeps in reserve by itself: how many, from the opening on or by its inserts, in small sets none, and that a
   set sized by the rule has room for all of its keys whatever the handles keep. */
#include "client.h"

enum { HANDLES = 4, KEYS = 100, SLOTS = KEYS + 64 * HANDLES };

static vbr_handle handle[HANDLES];
static uint64_t keys[1024];
static vbr_report report;

static void open_some(size_t count, uint32_t slots) {
    CHECK(vbr_open(handle, count, slots, 16, VBR_MAX_EPOCH) == VBR_OK);
}

static void end(size_t count) {
    CHECK(vbr_close_all(handle, count, keys, 1024, &report) == VBR_YES);
}

/* What a handle keeps after it has added so many keys to a fresh set. */
static uint32_t kept(size_t count, uint32_t slots, uint64_t added) {
    open_some(count, slots);
    for (uint64_t key = 0; key < added; key++) CHECK(vbr_insert(&handle[0], key) == VBR_YES);
    uint32_t spare = vbr_give_slots_back(&handle[0]);
    end(count);
    return spare;
}

/* Each handle of a fresh set keeps as many, and each of a renewed one. */
static uint32_t kept_at_once(size_t count, uint32_t slots) {
    open_some(count, slots);
    uint32_t first = vbr_give_slots_back(&handle[0]);
    for (size_t i = 1; i < count; i++) CHECK(vbr_give_slots_back(&handle[i]) == first);
    CHECK(vbr_renew_all(handle, count, slots, 16, VBR_MAX_EPOCH) == VBR_OK);
    for (size_t i = 0; i < count; i++) CHECK(vbr_give_slots_back(&handle[i]) == first);
    end(count);
    return first;
}

/* The reserve is taken at the opening where there are 64 slots for each handle, and else by inserts. */
static void take_at_once(void) {
    CHECK(kept_at_once(1, 1) == 0 && kept_at_once(1, 63) == 0 && kept_at_once(2, 127) == 0 && kept_at_once(4, 255) == 0);
    CHECK(kept_at_once(1, 64) == 8 && kept_at_once(2, 128) == 8 && kept_at_once(4, 256) == 8 && kept_at_once(4, SLOTS) == 11);
    CHECK(kept_at_once(4, 1023) == 31 && kept_at_once(4, 1024) == 32 && kept_at_once(1, 100000) == 32);
}

/* So another handle that fills the set leaves it to its owner, whose first 32 inserts find a slot each. They advance no epoch. */
static void are_there_before_any_insert(void) {
    uint64_t key = 0;
    open_some(2, 512);
    while (vbr_insert(&handle[1], key) == VBR_YES) key++;
    CHECK(key == 512 - 32 && vbr_insert(&handle[1], key) == VBR_NO_SLOT);
    for (int i = 0; i < 32; i++) CHECK(vbr_insert(&handle[0], key + (uint64_t)i) == VBR_YES && vbr_epoch(&handle[0]) == 1);
    CHECK(vbr_insert(&handle[0], 1000) == VBR_NO_SLOT);
    end(2);
    CHECK(report.live == 512 && report.epoch == 1);
}

/* Nor do they where each key is removed again before the next one; the one after them does. */
static void last_for_32_keys(void) {
    open_some(1, 512);
    for (uint64_t key = 0; key < 32; key++) {
        CHECK(vbr_insert(&handle[0], key) == VBR_YES && vbr_remove(&handle[0], key) == VBR_YES);
        CHECK(vbr_epoch(&handle[0]) == 1);
    }
    CHECK(vbr_insert(&handle[0], 32) == VBR_YES && vbr_epoch(&handle[0]) == 2);
    end(1);
}

/* A set that opens with keys, which lie in the first slots. The first handle looks there: a try fails, and the next one is behind
   them, or 64 slots further on. Where all of its tries fail it has none, and its inserts find one each as ever. */
static void bounded_tries(void) {
    static uint64_t some[4096];
    for (uint64_t key = 0; key < 4096; key++) some[key] = key;
    CHECK(vbr_open_with(handle, 2, 1024, 16, VBR_MAX_EPOCH, some, 3) == VBR_OK);
    CHECK(vbr_give_slots_back(&handle[0]) == 31 && vbr_give_slots_back(&handle[1]) == 32);
    end(2);
    CHECK(vbr_open_with(handle, 2, 1024, 16, VBR_MAX_EPOCH, some, 200) == VBR_OK);
    CHECK(vbr_give_slots_back(&handle[0]) == 32 - 4 && vbr_give_slots_back(&handle[1]) == 32);
    end(2);
    CHECK(vbr_open_with(handle, 1, 4096 + 64, 4096, VBR_MAX_EPOCH, some, 4096) == VBR_OK);
    CHECK(vbr_give_slots_back(&handle[0]) == 0);
    for (uint64_t key = 4096; key < 4096 + 64; key++) CHECK(vbr_insert(&handle[0], key) == VBR_YES);
    vbr_end_all(handle, 1);
}

/* An eighth of the slots at most: none with fewer than eight for each handle. Of 11 slots two are taken where nine are left, and of
   31 four where 27 are. */
static void keep_an_eighth(void) {
    CHECK(kept(1, 1, 1) == 0 && kept(1, 7, 1) == 0 && kept(1, 7, 7) == 0);
    CHECK(kept(1, 8, 1) == 1 && kept(2, 15, 1) == 0 && kept(2, 16, 1) == 1);
    CHECK(kept(4, 355, 60) == 11 && kept(4, 355, 61) == 10);
    CHECK(kept(1, 255, 60) == 31 && kept(1, 255, 61) == 30 && kept(1, 255, 63) == 28);
}

/* An insert takes one slot, and five come where 27 are left: 28 to 32 are kept. */
static void stay(void) {
    CHECK(kept(1, 1000, 1) == 31 && kept(1, 1000, 4) == 28 && kept(1, 1000, 5) == 32 && kept(1, 1000, 499) == 28);
}

/* What is given back comes again with the next inserts that add a key, and with no other call: four more with each of them. */
static void give_back(void) {
    open_some(1, 1000);
    for (uint64_t key = 0; key < 40; key++) CHECK(vbr_insert(&handle[0], key) == VBR_YES);
    CHECK(vbr_give_slots_back(&handle[0]) == 32);
    CHECK(vbr_insert(&handle[0], 5) == VBR_NO && vbr_has(&handle[0], 5) == VBR_YES && vbr_give_slots_back(&handle[0]) == 0);
    CHECK(vbr_insert(&handle[0], 40) == VBR_YES && vbr_give_slots_back(&handle[0]) == 5);
    for (uint64_t key = 41; key < 48; key++) CHECK(vbr_insert(&handle[0], key) == VBR_YES);
    CHECK(vbr_give_slots_back(&handle[0]) == 29);
    end(1);
}

/* Each handle has a reserve and what the others' keys leave it, up to 63 slots: there are 64 for each, so no key is refused. */
static void fit_all(void) {
    open_some(HANDLES, SLOTS);
    for (int round = 0; round < 100; round++) {
        for (uint64_t key = 0; key < KEYS; key++) CHECK(vbr_insert(&handle[(key + (uint64_t)round) % HANDLES], key) == VBR_YES);
        for (uint64_t key = 0; key < KEYS; key++) CHECK(vbr_remove(&handle[(unsigned)round % HANDLES], key) == VBR_YES);
    }
    for (uint64_t key = 0; key < KEYS; key++) CHECK(vbr_insert(&handle[0], key) == VBR_YES);
    end(HANDLES);
    CHECK(report.live == KEYS);
}

int main(void) {
    take_at_once();
    are_there_before_any_insert();
    last_for_32_keys();
    bounded_tries();
    keep_an_eighth();
    stay();
    give_back();
    fit_all();
    puts("slots kept in reserve in C: passed");
    return 0;
}
