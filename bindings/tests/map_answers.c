/* What the calls on maps answer and write of values, in one thread. What is of keys alone is tested by answers.c, over maps too. */
#include "client.h"

static vbr_entry entries[4];
static vbr_report report;

/* The calls that do one thing or another by what is there. */
enum change { REPLACE, PUT, FETCH_ADD, GET_OR_INSERT, COMPARE_EXCHANGE, REMOVE_IF, CHANGES };

static int is_entry(int number, uint64_t key, uint64_t value) {
    return entries[number].key == key && entries[number].value == value;
}

/* Whether a get and a remove answer so, and write nothing. */
static int writes_nothing(vbr_map_handle *handle, uint64_t key, uint32_t budget, vbr_answer wanted) {
    uint64_t value = 77;
    vbr_answer got = vbr_map_get_within(handle, key, &value, budget), removed = vbr_map_remove_within(handle, key, &value, budget);
    return got == wanted && removed == wanted && value == 77;
}

/* Whether a key is there with this value. */
static int has_value(vbr_map_handle *handle, uint64_t key, uint64_t wanted) {
    uint64_t value = ~wanted;
    return vbr_map_get(handle, key, &value) == VBR_YES && value == wanted && vbr_map_has(handle, key) == VBR_YES;
}

static int takes_out(vbr_map_handle *handle, uint64_t key, uint64_t wanted) {
    uint64_t value = ~wanted;
    return vbr_map_remove(handle, key, &value) == VBR_YES && value == wanted;
}

static vbr_answer change(enum change by, vbr_map_handle *handle, uint64_t key, uint64_t expected, uint64_t value, uint64_t *found, uint32_t budget) {
    switch (by) {
    case REPLACE: return vbr_map_replace_within(handle, key, value, found, budget);
    case PUT: return vbr_map_put_within(handle, key, value, found, budget);
    case FETCH_ADD: return vbr_map_fetch_add_within(handle, key, value, found, budget);
    case GET_OR_INSERT: return vbr_map_get_or_insert_within(handle, key, value, found, budget);
    case COMPARE_EXCHANGE: return vbr_map_compare_exchange_within(handle, key, expected, value, found, budget);
    default: return vbr_map_remove_if_within(handle, key, expected, found, budget);
    }
}

/* Whether each of these answers so, with a place for what was there and without, and writes nothing. */
static int each_writes_nothing(vbr_map_handle *handle, uint64_t key, uint64_t expected, uint32_t budget, vbr_answer wanted) {
    for (enum change by = 0; by < CHANGES; by++) {
        uint64_t found = 77;
        if (change(by, handle, key, expected, 99, &found, budget) != wanted || found != 77) return 0;
        if (change(by, handle, key, expected, 99, NULL, budget) != wanted) return 0;
    }
    return 1;
}

static void empty_handles(void) {
    vbr_map_handle none = {0};
    entries[0] = (vbr_entry){77, 78};
    CHECK(writes_nothing(&none, 1, VBR_AMPLE_STEPS, VBR_NO_HANDLE) && each_writes_nothing(&none, 1, 1, VBR_AMPLE_STEPS, VBR_NO_HANDLE));
    CHECK(vbr_map_close(&none, entries, 4, &report) == VBR_NO_HANDLE && is_entry(0, 77, 78));
    CHECK(vbr_map_close(NULL, entries, 4, &report) == VBR_NO_HANDLE && is_entry(0, 77, 78));
}

/* A large map takes 8 bytes more for each slot than a large set. */
static void large_map(void) {
    vbr_map_handle one = {0};
    CHECK(vbr_map_open(&one, 1, 1u << 24, 1u << 24, VBR_MAX_EPOCH) == VBR_OK && vbr_map_last_epoch(&one) == vbr_max_epoch(1u << 24));
    CHECK(vbr_map_insert(&one, 0, UINT64_MAX) == VBR_YES && vbr_map_insert(&one, UINT64_MAX, 0) == VBR_YES);
    CHECK(has_value(&one, 0, UINT64_MAX) && has_value(&one, UINT64_MAX, 0));
    CHECK(vbr_map_close(&one, entries, 4, &report) == VBR_YES && report.live == 2 && report.free == (1u << 24) - 2);
    CHECK(is_entry(0, 0, UINT64_MAX) && is_entry(1, UINT64_MAX, 0));
}

static void calls_and_closes(void) {
    vbr_map_handle two[2] = {{0}};
    CHECK(vbr_map_open(two, 2, 2, 1, 3) == VBR_OK);
    CHECK(vbr_map_insert(&two[0], 7, 70) == VBR_YES && vbr_map_insert(&two[1], 7, 71) == VBR_NO);
    CHECK(has_value(&two[0], 7, 70) && has_value(&two[1], 7, 70) && writes_nothing(&two[0], 9, VBR_AMPLE_STEPS, VBR_NO));
    CHECK(vbr_map_insert(&two[1], 5, 7) == VBR_YES && vbr_map_insert(&two[1], 9, 90) == VBR_NO_SLOT);
    CHECK(vbr_map_insert(&two[1], 5, 8) == VBR_NO && vbr_map_insert_within(&two[0], 9, 90, 1) == VBR_OUT_OF_STEPS);
    CHECK(writes_nothing(&two[0], 7, 1, VBR_OUT_OF_STEPS) && vbr_map_has_within(&two[0], 7, 1) == VBR_OUT_OF_STEPS);
    entries[0] = (vbr_entry){98, 99};
    CHECK(vbr_map_close(&two[0], entries, 4, &report) == VBR_NO && is_entry(0, 98, 99));
    CHECK(vbr_map_close(&two[0], entries, 4, &report) == VBR_NO_HANDLE && is_entry(0, 98, 99));
    report.live = 77;
    CHECK(vbr_map_close(&two[1], entries, 1, &report) == VBR_NO_ROOM && is_entry(0, 98, 99));
    CHECK(report.live == 2 && report.marked == 0 && report.free == 0 && report.epoch == 1);
    CHECK(vbr_map_close(&two[1], entries, 0, &report) == VBR_NO_ROOM && has_value(&two[1], 5, 7));
    entries[2] = (vbr_entry){96, 97};
    CHECK(vbr_map_close(&two[1], entries, report.live, &report) == VBR_YES && is_entry(0, 5, 7) && is_entry(1, 7, 70));
    CHECK(is_entry(2, 96, 97) && report.live == 2 && report.marked == 0 && report.free == 0 && report.epoch == 1);
}

/* A key has the value of its last insert, also where the slot of its node was another's or its own before. */
static void values_of_incarnations(void) {
    vbr_map_handle two[2] = {{0}};
    CHECK(vbr_map_open(two, 2, 2, 1, VBR_MAX_EPOCH) == VBR_OK);
    for (uint64_t turn = 0; turn < 1000; turn++) {
        CHECK(vbr_map_insert(&two[0], 5, turn) == VBR_YES && has_value(&two[1], 5, turn));
        CHECK(vbr_map_insert(&two[0], 5, ~turn) == VBR_NO && has_value(&two[1], 5, turn));
        CHECK(takes_out(&two[0], 5, turn) && writes_nothing(&two[1], 5, VBR_AMPLE_STEPS, VBR_NO));
        CHECK(vbr_map_insert(&two[0], 6, ~turn) == VBR_YES && has_value(&two[0], 6, ~turn));
        CHECK(writes_nothing(&two[1], 5, VBR_AMPLE_STEPS, VBR_NO) && takes_out(&two[0], 6, ~turn));
    }
    CHECK(vbr_map_close_all(two, 2, entries, 4, &report) == VBR_YES && report.live == 0);
}

static void opened_with_entries(void) {
    static const vbr_entry some[3] = {{2, 90}, {5, 20}, {9, 50}}, ends[2] = {{0, UINT64_MAX}, {UINT64_MAX, 0}};
    vbr_map_handle two[2] = {{0}};
    CHECK(vbr_map_open_with(two, 2, 4, 2, 10, some, 3) == VBR_OK);
    for (int i = 0; i < 3; i++) CHECK(has_value(&two[i % 2], some[i].key, some[i].value));
    CHECK(writes_nothing(&two[0], 3, VBR_AMPLE_STEPS, VBR_NO) && vbr_map_insert(&two[0], 5, 21) == VBR_NO);
    CHECK(vbr_map_insert(&two[0], 7, 70) == VBR_YES && takes_out(&two[1], 9, 50));
    CHECK(vbr_map_close_all(two, 2, entries, 4, &report) == VBR_YES && report.live == 3);
    CHECK(is_entry(0, 2, 90) && is_entry(1, 5, 20) && is_entry(2, 7, 70));
    CHECK(vbr_map_open_with(two, 1, 2, 1, 1, ends, 2) == VBR_OK);
    CHECK(vbr_map_close(&two[0], entries, 4, &report) == VBR_YES && report.live == 2 && report.free == 0);
    CHECK(is_entry(0, 0, UINT64_MAX) && is_entry(1, UINT64_MAX, 0));
}

/* What each call does where its key is there with the value that it expects, with another one, and where it is absent: the answer,
   and the value that the key has then; none where it is absent. */
static const struct outcome {
    enum change by;
    uint64_t had, expected;
    vbr_answer answer;
    uint64_t has;
} outcomes[] = {
    {REPLACE, 70, 0, VBR_YES, 99},
    {REPLACE, 0, 0, VBR_NO, 0},
    {PUT, 70, 0, VBR_YES, 99},
    {PUT, 0, 0, VBR_NO, 99},
    {FETCH_ADD, 70, 0, VBR_YES, 169},
    {FETCH_ADD, UINT64_MAX, 0, VBR_YES, 98},
    {FETCH_ADD, 0, 0, VBR_NO, 99},
    {GET_OR_INSERT, 70, 0, VBR_YES, 70},
    {GET_OR_INSERT, 0, 0, VBR_NO, 99},
    {COMPARE_EXCHANGE, 70, 70, VBR_YES, 99},
    {COMPARE_EXCHANGE, 70, 99, VBR_OTHER, 70},
    {COMPARE_EXCHANGE, 0, 70, VBR_NO, 0},
    {REMOVE_IF, 70, 70, VBR_YES, 0},
    {REMOVE_IF, 70, 71, VBR_OTHER, 70},
    {REMOVE_IF, 0, 70, VBR_NO, 0},
};

/* Whether the key has this value, or is absent where that is 0. */
static int stands(vbr_map_handle *handle, uint64_t key, uint64_t value) {
    return value ? has_value(handle, key, value) : writes_nothing(handle, key, VBR_AMPLE_STEPS, VBR_NO);
}

/* A call with budgets from 0 up: until one is enough it is refused, and does nothing. `most` is enough. */
static void budgets_from_0(vbr_map_handle *handle, const struct outcome *it, uint64_t key, uint32_t most, int asks) {
    for (uint32_t budget = 0;; budget++) {
        uint64_t found = 77;
        vbr_answer answer = change(it->by, handle, key, it->expected, 99, asks ? &found : NULL, budget);
        CHECK(!asks || found == (answer == VBR_YES || answer == VBR_OTHER ? it->had : 77));
        CHECK(stands(handle, key, answer == it->answer ? it->has : it->had));
        if (answer == it->answer) return;
        CHECK(answer == VBR_OUT_OF_STEPS && budget < most);
    }
}

/* The key is the first, the last, or between others of one bucket; the steps are those that are promised to be enough. */
static void outcomes_of_changes(void) {
    enum { OTHERS = 4, MAP_SLOTS = OTHERS + 1 + 64 };
    for (size_t i = 0; i < sizeof outcomes / sizeof outcomes[0]; i++)
        for (uint64_t key = 0; key < 20; key += 5) {
            const struct outcome *it = &outcomes[i];
            static const vbr_entry others[OTHERS] = {{3, 1}, {7, 2}, {11, 3}, {13, 4}};
            vbr_map_handle one = {0};
            vbr_entry all[OTHERS + 1] = {{0, 0}};
            uint32_t nodes = OTHERS + (it->had != 0), most = it->by == REMOVE_IF ? 9 * nodes + 11 : 18 * nodes + 82 + 2 * (it->by == COMPARE_EXCHANGE); /* w + 20 is less than 82 */
            CHECK(vbr_map_open_with(&one, 1, MAP_SLOTS, 1, VBR_MAX_EPOCH, others, OTHERS) == VBR_OK);
            for (int asks = 0; asks < 2; asks++) {
                if (it->had) CHECK(vbr_map_insert(&one, key, it->had) == VBR_YES);
                budgets_from_0(&one, it, key, most, asks);
                if (it->has) CHECK(takes_out(&one, key, it->has));
            }
            CHECK(vbr_map_close(&one, all, OTHERS + 1, &report) == VBR_YES && report.live == OTHERS && report.marked == 0);
            for (int index = 0; index < OTHERS; index++) CHECK(all[index].key == others[index].key && all[index].value == others[index].value);
        }
}

/* What is refused for want of a slot, or since the epoch is spent, leaves each value as it was. A new value takes a slot before the
   old one's is free; what changes nothing takes none. */
static void refusals_of_changes(void) {
    static const vbr_entry full[2] = {{5, 50}, {7, 70}};
    for (int is_spent = 0; is_spent < 2; is_spent++) {
        vbr_answer refusal = is_spent ? VBR_EPOCH_SPENT : VBR_NO_SLOT;
        vbr_map_handle one = {0};
        uint64_t found = 77;
        CHECK(vbr_map_open_with(&one, 1, is_spent ? 3 : 2, 1, 1, full, 2) == VBR_OK);
        if (is_spent) CHECK(vbr_map_insert(&one, 9, 90) == VBR_YES && takes_out(&one, 9, 90)); /* its slot would need epoch 2 */
        CHECK(vbr_map_replace(&one, 5, 51, &found) == refusal && vbr_map_put(&one, 5, 51, &found) == refusal);
        CHECK(vbr_map_put(&one, 6, 60, &found) == refusal && vbr_map_get_or_insert(&one, 6, 60, &found) == refusal);
        CHECK(vbr_map_fetch_add(&one, 5, 1, &found) == refusal && vbr_map_fetch_add(&one, 6, 1, &found) == refusal);
        CHECK(vbr_map_compare_exchange(&one, 5, 50, 51, &found) == refusal && found == 77);
        CHECK(vbr_map_replace(&one, 6, 60, &found) == VBR_NO && vbr_map_compare_exchange(&one, 6, 60, 61, &found) == VBR_NO && found == 77);
        CHECK(vbr_map_compare_exchange(&one, 5, 70, 51, &found) == VBR_OTHER && found == 50);
        CHECK(vbr_map_get_or_insert(&one, 7, 71, &found) == VBR_YES && found == 70);
        CHECK(has_value(&one, 5, 50) && has_value(&one, 7, 70) && writes_nothing(&one, 6, VBR_AMPLE_STEPS, VBR_NO));
        CHECK(vbr_map_remove_if(&one, 7, 70, &found) == VBR_YES && found == 70);
        CHECK(vbr_map_close(&one, entries, 4, &report) == VBR_YES && report.live == 1 && is_entry(0, 5, 50));
    }
}

/* A key whose value changes again and again has two slots in turn, and the others see each value. */
static void values_in_turn(void) {
    vbr_map_handle two[2] = {{0}};
    uint64_t found = 0;
    CHECK(vbr_map_open(two, 2, 2, 1, VBR_MAX_EPOCH) == VBR_OK && vbr_map_put(&two[0], 5, 0, &found) == VBR_NO);
    for (uint64_t turn = 0; turn < 3000; turn += 3) {
        CHECK(vbr_map_replace(&two[0], 5, turn + 1, &found) == VBR_YES && found == turn && has_value(&two[1], 5, turn + 1));
        CHECK(vbr_map_compare_exchange(&two[0], 5, turn, 99, &found) == VBR_OTHER && found == turn + 1);
        CHECK(vbr_map_compare_exchange(&two[0], 5, turn + 1, turn + 2, &found) == VBR_YES && found == turn + 1);
        CHECK(has_value(&two[1], 5, turn + 2) && vbr_map_remove_if(&two[1], 5, turn + 1, &found) == VBR_OTHER && found == turn + 2);
        CHECK(vbr_map_put(&two[0], 5, turn + 3, &found) == VBR_YES && found == turn + 2 && has_value(&two[1], 5, turn + 3));
    }
    CHECK(vbr_map_compare_exchange(&two[0], 5, 3000, 3000, &found) == VBR_YES && found == 3000 && has_value(&two[1], 5, 3000));
    CHECK(vbr_map_close_all(two, 2, entries, 4, &report) == VBR_YES && report.live == 1 && is_entry(0, 5, 3000) && report.marked == 0 && report.free == 1);
}

/* A close writes the entries that it tells of and no others, and none where it isn't answered yes. */
static void closed_at_once(void) {
    vbr_map_handle three[3] = {{0}}, other[1] = {{0}};
    CHECK(vbr_map_open(three, 3, 8, 2, 100) == VBR_OK && vbr_map_open(other, 1, 8, 2, 100) == VBR_OK);
    for (uint64_t i = 0; i < 3; i++) CHECK(vbr_map_insert(&three[i], i + 6, i + 60) == VBR_YES);
    for (int i = 0; i < 4; i++) entries[i] = (vbr_entry){77, 78};
    vbr_map_handle mixed[3] = {three[0], other[0], three[2]};
    CHECK(vbr_map_close_all(three, 2, entries, 4, &report) == VBR_MISSING && is_entry(0, 77, 78));
    CHECK(vbr_map_close_all(mixed, 3, entries, 4, &report) == VBR_MIXED && is_entry(0, 77, 78));
    CHECK(vbr_map_close_all(three, 3, entries, 2, &report) == VBR_NO_ROOM && is_entry(0, 77, 78) && is_entry(1, 77, 78));
    CHECK(takes_out(&three[2], 6, 60) && vbr_map_close_all(three, 3, entries, 4, &report) == VBR_YES);
    CHECK(report.live == 2 && is_entry(0, 7, 61) && is_entry(1, 8, 62) && is_entry(2, 77, 78) && is_entry(3, 77, 78));
    for (int i = 0; i < 3; i++) CHECK(writes_nothing(&three[i], 7, VBR_AMPLE_STEPS, VBR_NO_HANDLE) && each_writes_nothing(&three[i], 7, 61, VBR_AMPLE_STEPS, VBR_NO_HANDLE));
    vbr_map_drop(other);
}

/* A get and a remove by whom nobody asks for the value. */
static void unasked(void) {
    vbr_map_handle one = {0};
    vbr_report report = {0};
    CHECK(vbr_map_get(&one, 5, NULL) == VBR_NO_HANDLE && vbr_map_remove(&one, 5, NULL) == VBR_NO_HANDLE);
    CHECK(vbr_map_open(&one, 1, 2, 1, VBR_MAX_EPOCH) == VBR_OK && vbr_map_insert(&one, 5, 50) == VBR_YES);
    CHECK(vbr_map_get(&one, 5, NULL) == VBR_YES && vbr_map_get(&one, 6, NULL) == VBR_NO && vbr_map_get_within(&one, 5, NULL, 7) == VBR_OUT_OF_STEPS);
    CHECK(vbr_map_remove(&one, 6, NULL) == VBR_NO && vbr_map_remove_within(&one, 5, NULL, 7) == VBR_OUT_OF_STEPS);
    CHECK(vbr_map_remove(&one, 5, NULL) == VBR_YES && vbr_map_get(&one, 5, NULL) == VBR_NO);
    CHECK(vbr_map_close(&one, entries, 1, &report) == VBR_YES && report.live == 0);
}

int main(void) {
    empty_handles(), large_map(), calls_and_closes(), values_of_incarnations(), opened_with_entries(), closed_at_once(),
        outcomes_of_changes(), refusals_of_changes(), values_in_turn(), unasked();
    puts("values of maps in C: passed");
    return 0;
}
