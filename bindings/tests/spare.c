/* Slots that a handle keeps to itself: who has them, how others come to them, and how a handle takes some in reserve. */
#include "client.h"

#ifdef __GNUC__
#pragma GCC diagnostic ignored "-Wdeprecated-declarations" /* it calls vbr_spare by its old name too */
#endif

enum { SLOTS = 100 };

static vbr_handle handle[2];
static uint64_t keys[SLOTS];
static vbr_report report;

/* Puts keys in until there is no slot, and tells how many. */
static uint32_t fill(vbr_handle *of) {
    uint32_t added = 0;
    vbr_answer answer = VBR_YES;
    while (answer == VBR_YES) {
        answer = vbr_insert(of, added);
        added += answer == VBR_YES;
    }
    CHECK(answer == VBR_NO_SLOT);
    return added;
}

static void empty(vbr_handle *of, uint32_t count) {
    for (uint64_t key = 0; key < count; key++) CHECK(vbr_remove(of, key) == VBR_YES);
}

static void open_two(void) {
    CHECK(vbr_open(handle, 2, SLOTS, 16, VBR_MAX_EPOCH) == VBR_OK);
}

/* The first handle has emptied the set, and keeps 63 slots: what is free else the other one finds, and once they are given back
   it finds them all. */
static void give_back(void) {
    open_two();
    CHECK(fill(&handle[0]) == SLOTS);
    empty(&handle[0], SLOTS);
    uint32_t found = fill(&handle[1]);
    CHECK(found == SLOTS - 63);
    empty(&handle[1], found);
    uint32_t given = vbr_spare(&handle[0]);                   /* the other handle can have them */
    CHECK(given == 63 && vbr_give_slots_back(&handle[0]) == 0);
    CHECK(fill(&handle[1]) == SLOTS);
    CHECK(vbr_insert(&handle[0], SLOTS) == VBR_NO_SLOT);
    CHECK(vbr_close_all(handle, 2, keys, SLOTS, &report) == VBR_YES && report.live == SLOTS);
    CHECK(vbr_give_slots_back(&handle[0]) == 0); /* it is empty */
}

/* Opens a set of one slot, and tries an insert by the first handle with a budget. */
static vbr_answer try_with(uint32_t steps) {
    CHECK(vbr_open(handle, 2, 1, 1, VBR_MAX_EPOCH) == VBR_OK);
    return vbr_insert_within(&handle[0], 5, steps);
}

/* An insert whose budget is one step too small has taken the slot by then. Its handle gives it back, and the other one finds it. */
static void give_back_what_was_taken(void) {
    uint32_t enough = 0;
    while (try_with(enough) == VBR_OUT_OF_STEPS) {
        vbr_end_all(handle, 2);
        enough++;
    }
    vbr_end_all(handle, 2);
    CHECK(try_with(enough - 1) == VBR_OUT_OF_STEPS);
    CHECK(vbr_insert(&handle[1], 6) == VBR_NO_SLOT);
    CHECK(vbr_give_slots_back(&handle[0]) == 1 && vbr_give_slots_back(&handle[0]) == 0);
    CHECK(vbr_insert(&handle[1], 6) == VBR_YES && vbr_insert(&handle[0], 5) == VBR_NO_SLOT);
    CHECK(vbr_close_all(handle, 2, keys, SLOTS, &report) == VBR_YES && report.live == 1 && keys[0] == 6);
}

/* A handle that is closed leaves its slots to the other one, and so does one that is dropped. */
static void leave(int drops) {
    open_two();
    CHECK(fill(&handle[0]) == SLOTS);
    empty(&handle[0], SLOTS);
    if (drops) vbr_drop(&handle[0]);
    else CHECK(vbr_close(&handle[0], keys, SLOTS, &report) == VBR_NO);
    CHECK(fill(&handle[1]) == SLOTS);
    CHECK(vbr_close(&handle[1], keys, SLOTS, &report) == VBR_YES && report.live == SLOTS && report.free == 0);
}

/* A reserve is what is wanted and there, at most 63. The other handle has the rest, and all once it is given back. */
static void take_in_reserve(void) {
    open_two();
    uint32_t taken = vbr_reserve(&handle[0], 32);             /* for its inserts to come */
    CHECK(taken == 32 && vbr_reserve(&handle[0], 32) == 0);
    CHECK(vbr_reserve(&handle[0], SLOTS) == 31);
    uint32_t found = fill(&handle[1]);
    CHECK(found == SLOTS - 63 && vbr_reserve(&handle[1], 1) == 0);
    empty(&handle[1], found);
    CHECK(vbr_give_slots_back(&handle[0]) == 63 && fill(&handle[1]) == SLOTS);
    CHECK(vbr_close_all(handle, 2, keys, SLOTS, &report) == VBR_YES && report.live == SLOTS);
    CHECK(vbr_reserve(&handle[0], 32) == 0); /* it is empty */
}

int main(void) {
    give_back();
    give_back_what_was_taken();
    take_in_reserve();
    leave(0);
    leave(1);
    puts("slots given back in C: passed");
    return 0;
}
