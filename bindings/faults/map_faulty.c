/* The library with one fault of the values of its maps, whose number FAULT names in the environment: a soak over maps (values.h)
   has to find it. Link with -Wl,--wrap=NAME for each __wrap_NAME of the object. What can be wrong with keys is in faulty.c.

    1 a get now and then gives the value that its key had before
    2 a get now and then gives a value whose insert was answered no
    3 a get now and then gives a value of another key
    4 a remove now and then gives the value that its key had before
    5 an insert of a key that is there now and then gives it the new value, and answers no all the same
    6 a value now and then loses its upper half
    7 a get that isn't answered yes writes
    8 a report has the value of one entry with the key of another
    9 an opening gives the value of one entry to the key of another
   10 a walk now and then gives the value that its key had before
   11 a walk now and then gives the value of the next key
   12 a call of a walk that gives no entry writes a value
   13 a replace now and then is a remove and an insert, with a step between
   14 a replace gives the new value
   15 a compare_exchange now and then exchanges whatever is there
   16 a get_or_insert gives the value that it is given
   17 a remove_if now and then removes whatever is there
   18 a put now and then leaves the old value
   19 a call that finds its key absent writes a value
   20 a put of a key that is there now and then is a remove and an insert, with a step between
   21 a replace now and then inserts a key that is absent
   22 a replace now and then leaves the old node in the list
   23 a fetch_add now and then is a get and a put, with a step between
   24 a fetch_add gives the new value

   The twenty-second leaves all answers right while there are slots. The last two are for sums.c. */
#include "faulty.h"

#include <pthread.h>
#include <sched.h>
#include <string.h>

enum { KEPT = 1 << 16 };

/* For each place a key, with a value that it doesn't have: it was taken out, or its insert is answered no. */
static vbr_entry kept[KEPT];
static pthread_mutex_t lock = PTHREAD_MUTEX_INITIALIZER;

static size_t place_of(uint64_t key) { return (size_t)(key * 0x9E3779B97F4A7C15u >> 48); }

static void keep(uint64_t key, uint64_t value) {
    pthread_mutex_lock(&lock);
    kept[place_of(key)] = (vbr_entry){key, value};
    pthread_mutex_unlock(&lock);
}

/* Gives the value that is kept of a key, if one is. */
static void give_kept(uint64_t key, uint64_t *value) {
    pthread_mutex_lock(&lock);
    if (kept[place_of(key)].key == key && kept[place_of(key)].value) *value = kept[place_of(key)].value;
    pthread_mutex_unlock(&lock);
}

/* Gives the value of another key, the first of a walk, if there is one. */
static void give_other(vbr_map_handle *handle, uint64_t key, uint64_t *value, uint32_t budget) {
    vbr_cursor cursor = VBR_CURSOR_BEGIN;
    vbr_entry other = {key, 0};
    while (other.key == key && __real_vbr_map_next_within(handle, &cursor, &other, budget) == VBR_YES) {}
    if (other.key != key) *value = other.value;
}

vbr_answer __wrap_vbr_map_open_with(vbr_map_handle *handles, size_t count, uint32_t slots, uint32_t buckets, uint64_t last_epoch,
                                    const vbr_entry *entries, size_t entry_count) {
    if (fault() != 9 || entry_count < 2) return __real_vbr_map_open_with(handles, count, slots, buckets, last_epoch, entries, entry_count);
    vbr_entry *turned = malloc(entry_count * sizeof *turned);
    if (!turned) return VBR_NO_MEMORY;
    memcpy(turned, entries, entry_count * sizeof *turned);
    turned[0].value = entries[1].value, turned[1].value = entries[0].value;
    vbr_answer answer = __real_vbr_map_open_with(handles, count, slots, buckets, last_epoch, turned, entry_count);
    free(turned);
    return answer;
}

vbr_answer __wrap_vbr_map_insert_within(vbr_map_handle *handle, uint64_t key, uint64_t value, uint32_t budget) {
    uint64_t old = 0;
    if (now(6)) value &= UINT32_MAX;
    if (fault() == 2) keep(key, value);
    vbr_answer answer = __real_vbr_map_insert_within(handle, key, value, budget);
    if (answer == VBR_NO && now(5) && __real_vbr_map_remove_within(handle, key, &old, budget) == VBR_YES)
        return __real_vbr_map_insert_within(handle, key, value, budget) == VBR_YES ? VBR_NO : VBR_NO_HANDLE;
    return answer;
}

vbr_answer __wrap_vbr_map_remove_within(vbr_map_handle *handle, uint64_t key, uint64_t *value, uint32_t budget) {
    uint64_t unasked = 0;
    if (!value) value = &unasked;
    vbr_answer answer = __real_vbr_map_remove_within(handle, key, value, budget);
    uint64_t removed = *value;
    if (answer == VBR_YES && now(4)) give_kept(key, value);
    if (answer == VBR_YES && (fault() == 1 || fault() == 4 || fault() == 10)) keep(key, removed);
    return answer;
}

vbr_answer __wrap_vbr_map_get_within(vbr_map_handle *handle, uint64_t key, uint64_t *value, uint32_t budget) {
    uint64_t unasked = 0;
    if (!value) value = &unasked;
    vbr_answer answer = __real_vbr_map_get_within(handle, key, value, budget);
    if (answer == VBR_YES && (now(1) || now(2))) give_kept(key, value);
    if (answer == VBR_YES && now(3)) give_other(handle, key, value, budget);
    if (answer != VBR_YES && fault() == 7) *value = 1;
    return answer;
}

/* A replacement with a step between, in which the key is absent. */
static vbr_answer replace_in_two(vbr_map_handle *handle, uint64_t key, uint64_t value, uint64_t *found, uint32_t budget) {
    vbr_answer answer = __real_vbr_map_remove_within(handle, key, found, budget);
    if (answer != VBR_YES) return answer;
    sched_yield();
    answer = __real_vbr_map_insert_within(handle, key, value, budget);
    return answer < 0 ? answer : VBR_YES;
}

/* The answer of a call that may find its key absent, and then writes a value where that is the fault. */
static vbr_answer told(vbr_answer answer, uint64_t *found) {
    if (answer == VBR_NO && fault() == 19) *found = 1;
    return answer;
}

/* The least budget that is answered leaves no step to unlink the old node. */
static vbr_answer replace_by_the_least(vbr_map_handle *handle, uint64_t key, uint64_t value, uint64_t *found, uint32_t budget) {
    for (uint32_t least = 0; least < budget; least++) {
        vbr_answer answer = __real_vbr_map_replace_within(handle, key, value, found, least);
        if (answer != VBR_OUT_OF_STEPS) return answer;
    }
    return __real_vbr_map_replace_within(handle, key, value, found, budget);
}

vbr_answer __wrap_vbr_map_replace_within(vbr_map_handle *handle, uint64_t key, uint64_t value, uint64_t *found, uint32_t budget) {
    if (now(13)) return replace_in_two(handle, key, value, found, budget);
    if (now(22)) return replace_by_the_least(handle, key, value, found, budget);
    vbr_answer answer = now(21) ? __real_vbr_map_put_within(handle, key, value, found, budget) : __real_vbr_map_replace_within(handle, key, value, found, budget);
    if (answer == VBR_YES && fault() == 14) *found = value;
    return told(answer, found);
}

vbr_answer __wrap_vbr_map_put_within(vbr_map_handle *handle, uint64_t key, uint64_t value, uint64_t *found, uint32_t budget) {
    if (now(20) && vbr_map_has_within(handle, key, budget) == VBR_YES) return replace_in_two(handle, key, value, found, budget);
    if (now(18)) return __real_vbr_map_get_or_insert_within(handle, key, value, found, budget);
    return told(__real_vbr_map_put_within(handle, key, value, found, budget), found);
}

/* An addition with a step between, in which another's is lost. */
static vbr_answer add_in_two(vbr_map_handle *handle, uint64_t key, uint64_t delta, uint64_t *found, uint32_t budget) {
    vbr_answer answer = __real_vbr_map_get_within(handle, key, found, budget);
    if (answer < 0) return answer;
    sched_yield();
    return __real_vbr_map_put_within(handle, key, answer == VBR_YES ? *found + delta : delta, found, budget);
}

vbr_answer __wrap_vbr_map_fetch_add_within(vbr_map_handle *handle, uint64_t key, uint64_t delta, uint64_t *found, uint32_t budget) {
    if (now(23)) return add_in_two(handle, key, delta, found, budget);
    vbr_answer answer = __real_vbr_map_fetch_add_within(handle, key, delta, found, budget);
    if (answer == VBR_YES && fault() == 24) *found += delta;
    return told(answer, found);
}

vbr_answer __wrap_vbr_map_get_or_insert_within(vbr_map_handle *handle, uint64_t key, uint64_t value, uint64_t *found, uint32_t budget) {
    vbr_answer answer = __real_vbr_map_get_or_insert_within(handle, key, value, found, budget);
    if (answer == VBR_YES && fault() == 16) *found = value;
    return told(answer, found);
}

vbr_answer __wrap_vbr_map_compare_exchange_within(vbr_map_handle *handle, uint64_t key, uint64_t expected, uint64_t value, uint64_t *found, uint32_t budget) {
    if (!now(15)) return told(__real_vbr_map_compare_exchange_within(handle, key, expected, value, found, budget), found);
    uint64_t other = 0;
    vbr_answer answer = __real_vbr_map_replace_within(handle, key, value, &other, budget);
    if (answer == VBR_YES) *found = expected;
    return answer;
}

vbr_answer __wrap_vbr_map_remove_if_within(vbr_map_handle *handle, uint64_t key, uint64_t expected, uint64_t *found, uint32_t budget) {
    if (!now(17)) return told(__real_vbr_map_remove_if_within(handle, key, expected, found, budget), found);
    uint64_t other = 0;
    vbr_answer answer = __real_vbr_map_remove_within(handle, key, &other, budget);
    if (answer == VBR_YES) *found = expected;
    return answer;
}

vbr_answer __wrap_vbr_map_next_within(vbr_map_handle *handle, vbr_cursor *cursor, vbr_entry *entry, uint32_t budget) {
    vbr_answer answer = __real_vbr_map_next_within(handle, cursor, entry, budget);
    if (answer == VBR_YES && now(10)) give_kept(entry->key, &entry->value);
    if (answer == VBR_YES && now(11)) {
        vbr_cursor copy = *cursor;
        vbr_entry other;
        if (__real_vbr_map_next_within(handle, &copy, &other, budget) == VBR_YES) entry->value = other.value;
    }
    if (answer != VBR_YES && fault() == 12) entry->value = 1;
    return answer;
}

vbr_answer __wrap_vbr_map_close(vbr_map_handle *handle, vbr_entry *entries, size_t room, vbr_report *report) {
    vbr_answer answer = __real_vbr_map_close(handle, entries, room, report);
    if (answer != VBR_YES || report->live < 2 || fault() != 8) return answer;
    uint64_t first = entries[0].value;
    entries[0].value = entries[1].value, entries[1].value = first;
    return answer;
}
