/* A set made of a map: with `-include bindings/tests/values.h` a client of sets runs over maps, and values are seen to besides.

   Each call that stores a value has one that no other call has, and it is known of each value which key it was stored with and
   how far it has come. So whatever a call or a report tells has to be
   - a value that was stored, and with this key: not one of another key, a part of one, or none;
   - of a call that is not refused, nor answered that it stored nothing;
   - not taken out by another call, and where it isn't taken out now, not taken out before the call began.
   A program that meets another one ends with what is wrong. A set that opens with keys of the last report gives each the value
   that it had there. Some inserts are get_or_inserts, and some removes find the value first, and expect it. A client that says so
   changes values, by value_change and value_put: each value is stored once, and leaves once, by a remove, for another value, or
   with the report.

   It orders no threads but as the map does: its own accesses are relaxed, or acquire nothing that is released, which is
   enough on x86-64, where each exchange is a whole fence. */
#define _XOPEN_SOURCE 700 /* as some clients ask for */
#include "vbr.h"
#include "vbr_lend.h"

#include <stdatomic.h>
#include <stdio.h>
#include <stdlib.h>

enum { VALUES = 1 << 20, VALUE_BLOCK = 1 << 10, MOST_ENTRIES = 1 << 20 };

/* How far a value has come. One that was taken out has TAKEN and the time of that. */
enum { PENDING = 1, SEEN, STORED, REFUSED, TAKEN = 16 };

/* A value, from the beginning of the call that stores it until the place is given to another one. */
struct value_place {
    _Atomic uint64_t value, key, since, stage;
};

static struct value_place value_places[VALUES];
static _Atomic uint64_t value_time = 1, value_blocks = 1; /* the time passes with each remove */
static vbr_entry told_entries[MOST_ENTRIES], opening_entries[MOST_ENTRIES];
static size_t told_count;

/* Values are the numbers 1, 2 and so on, spread over all 64 bits by a product with an odd number; the other is its inverse. */
static const uint64_t VALUE_MIXER = 0x9E3779B97F4A7C15u, VALUE_INVERSE = 0xF1DE83E19937733Du;

static inline struct value_place *value_place(uint64_t value) { return &value_places[value * VALUE_INVERSE % VALUES]; }

static inline uint64_t value_read(const _Atomic uint64_t *word) { return atomic_load_explicit(word, memory_order_acquire); }

static inline void value_write(_Atomic uint64_t *word, uint64_t to) { atomic_store_explicit(word, to, memory_order_relaxed); }

static inline int value_moves(struct value_place *it, uint64_t from, uint64_t to) {
    return atomic_compare_exchange_strong_explicit(&it->stage, &from, to, memory_order_relaxed, memory_order_relaxed);
}

static inline void value_is_wrong(const char *what, uint64_t key, uint64_t value) {
    fprintf(stderr, "values: FAILED: %s (key %llu, value %llu)\n", what, (unsigned long long)key, (unsigned long long)value);
    exit(1);
}

/* A number that no other value has. A thread takes a block of them at a time; one that ends where it is tried makes a signal
   handler's number another. */
static inline uint64_t value_number(void) {
    static _Thread_local _Atomic uint64_t next;
    for (;;) {
        uint64_t seen = value_read(&next), number = seen;
        if (seen % VALUE_BLOCK == 0) number = 1 + VALUE_BLOCK * atomic_fetch_add_explicit(&value_blocks, 1, memory_order_relaxed);
        if (atomic_compare_exchange_strong_explicit(&next, &seen, number + 1, memory_order_relaxed, memory_order_relaxed)) return number;
    }
}

static inline int value_is_in_use(const struct value_place *it) {
    uint64_t stage = value_read(&it->stage);
    return stage == PENDING || stage == SEEN || stage == STORED;
}

/* A value for this key, at a place whose last value isn't in the map. */
static inline struct value_place *value_begins(uint64_t key) {
    for (int turns = 0; turns < VALUES; turns++) {
        uint64_t number = value_number();
        struct value_place *it = &value_places[number % VALUES];
        if (value_is_in_use(it)) continue;
        value_write(&it->value, 0);
        value_write(&it->key, key);
        value_write(&it->since, value_read(&value_time));
        value_write(&it->stage, PENDING);
        value_write(&it->value, number * VALUE_MIXER);
        return it;
    }
    value_is_wrong("more keys than values.h has places for", key, 0);
    return NULL;
}

/* The call with a value is answered. */
static inline void value_ends(struct value_place *it, int is_stored) {
    if (is_stored) {
        if (!value_moves(it, PENDING, STORED)) value_moves(it, SEEN, STORED); /* or it is taken out by now */
    } else if (!value_moves(it, PENDING, REFUSED)) {
        value_is_wrong("a value was returned that isn't stored", value_read(&it->key), value_read(&it->value));
    }
}

/* Where the value is that a call which began at this time tells of a key; none where the place is another value's by now. */
static inline struct value_place *value_told(uint64_t key, uint64_t value, uint64_t began) {
    uint64_t number = value * VALUE_INVERSE;
    struct value_place *it = value_place(value);
    uint64_t first = value_read(&it->value), its_key = value_read(&it->key), stage = value_read(&it->stage), since = value_read(&it->since);
    if (number / VALUE_BLOCK == 0 || number / VALUE_BLOCK >= value_read(&value_blocks)) value_is_wrong("a value that nobody stored", key, value);
    if (first != value && first != 0 && since < began) value_is_wrong("a value that was gone long ago", key, value);
    if (first != value || value_read(&it->value) != value) return NULL;
    if (its_key != key) value_is_wrong("a value of another key", key, value);
    if (stage == REFUSED) value_is_wrong("a value that isn't stored", key, value);
    if (stage >= TAKEN && stage - TAKEN <= began) value_is_wrong("a value that was taken out before", key, value);
    return it;
}

/* A value is returned, and stays where it is. */
static inline void value_is_found(uint64_t key, uint64_t value, uint64_t began) {
    struct value_place *it = value_told(key, value, began);
    if (it) value_moves(it, PENDING, SEEN);
}

/* A value is taken out, by a remove, for another value, or by the end of its map. */
static inline void value_is_taken(uint64_t key, uint64_t value, uint64_t began) {
    struct value_place *it = value_told(key, value, began);
    if (!it) value_is_wrong("a value that was taken out is taken out", key, value);
    uint64_t time = atomic_fetch_add_explicit(&value_time, 1, memory_order_relaxed) + 1;
    uint64_t stage = atomic_exchange_explicit(&it->stage, TAKEN + time, memory_order_relaxed);
    if (stage != PENDING && stage != SEEN && stage != STORED) value_is_wrong("a value is taken out twice", key, value);
}

/* Whether it is this thread's turn to make a call in another way, which it may where the budget is no matter of single steps. */
static inline int value_takes_turns(uint32_t budget) {
    static _Thread_local unsigned turns;
    return budget >= 100000 && turns++ % 2;
}

/* The value of a key, if it is there. */
static inline vbr_answer value_get(vbr_map_handle *handle, uint64_t key, uint32_t budget, uint64_t *value) {
    uint64_t began = value_read(&value_time);
    vbr_answer answer = vbr_map_get_within(handle, key, value, budget);
    if (answer == VBR_YES) value_is_found(key, *value, began);
    else if (*value) value_is_wrong("a get that isn't answered yes has written", key, *value);
    return answer;
}

/* What a call tells that stores this value, or changes the one found: that one is taken out, or stays, or there is none. */
static inline void value_is_changed(struct value_place *it, vbr_answer answer, uint64_t found, uint64_t began, int is_taken, int is_stored) {
    uint64_t key = value_read(&it->key), value = value_read(&it->value);
    if (found == value) value_is_wrong("a call tells the value that it is to store", key, value);
    if ((answer == VBR_YES || answer == VBR_OTHER) != (found != 0)) value_is_wrong("a call tells a value where none is there, or none where one is", key, found);
    if (found && is_taken) value_is_taken(key, found, began);
    if (found && !is_taken) value_is_found(key, found, began);
    value_ends(it, is_stored);
}

/* The insert of a key that is absent, or the value that it has. */
static inline vbr_answer value_get_or_insert(vbr_map_handle *handle, uint64_t key, uint32_t budget) {
    struct value_place *it = value_begins(key);
    uint64_t found = 0, began = value_read(&value_time);
    vbr_answer answer = vbr_map_get_or_insert_within(handle, key, value_read(&it->value), &found, budget);
    value_is_changed(it, answer, found, began, 0, answer == VBR_NO);
    return answer == VBR_NO ? VBR_YES : answer == VBR_YES ? VBR_NO : answer;
}

VBR_NODISCARD static inline vbr_answer value_insert_within(vbr_map_handle *handle, uint64_t key, uint32_t budget) {
    if (value_takes_turns(budget)) return value_get_or_insert(handle, key, budget);
    struct value_place *it = value_begins(key);
    vbr_answer answer = vbr_map_insert_within(handle, key, value_read(&it->value), budget);
    value_ends(it, answer == VBR_YES);
    return answer;
}

/* A key is taken out with the value that it was found to have; first not, with one that it doesn't have. */
static inline vbr_answer value_remove_if(vbr_map_handle *handle, uint64_t key, uint32_t budget) {
    uint64_t expected = VALUE_MIXER, found = 0, began = value_read(&value_time); /* nobody stores the first of all numbers */
    vbr_answer answer = vbr_map_remove_if_within(handle, key, expected, &found, budget);
    if (answer == VBR_YES) value_is_wrong("a value is taken out that nobody expects", key, found);
    while (answer == VBR_OTHER) {
        if (found == expected) value_is_wrong("a value is said to be another one than it is", key, found);
        value_is_found(key, found, began);
        expected = found, found = 0, began = value_read(&value_time);
        answer = vbr_map_remove_if_within(handle, key, expected, &found, budget);
    }
    if (found != (answer == VBR_YES ? expected : 0)) value_is_wrong("what a remove of an expected value has written", key, found);
    if (answer == VBR_YES) value_is_taken(key, found, began);
    return answer;
}

VBR_NODISCARD static inline vbr_answer value_remove_within(vbr_map_handle *handle, uint64_t key, uint32_t budget) {
    if (value_takes_turns(budget)) return value_remove_if(handle, key, budget);
    uint64_t value = 0, began = value_read(&value_time);
    vbr_answer answer = vbr_map_remove_within(handle, key, &value, budget);
    if (answer == VBR_YES) value_is_taken(key, value, began);
    else if (value) value_is_wrong("a remove that isn't answered yes has written", key, value);
    return answer;
}

/* Every other look-up is a get, where the budget is no matter of single steps. */
VBR_NODISCARD static inline vbr_answer value_has_within(vbr_map_handle *handle, uint64_t key, uint32_t budget) {
    if (!value_takes_turns(budget)) return vbr_map_has_within(handle, key, budget);
    return value_get(handle, key, budget, &(uint64_t){0});
}

/* Look-ups of several keys, which find their values too. */
static inline void value_has_all_within(vbr_map_handle *handle, const uint64_t *keys, size_t count, vbr_answer *answers, uint32_t budget) {
    vbr_found found[64];
    for (size_t from = 0; from < count; from += 64) {
        size_t some = count - from < 64 ? count - from : 64;
        uint64_t began = value_read(&value_time);
        vbr_map_get_all_within(handle, keys + from, some, found, budget);
        for (size_t i = 0; i < some; i++) {
            if (found[i].answer == VBR_YES) value_is_found(keys[from + i], found[i].value, began);
            else if (found[i].value) value_is_wrong("a get that isn't answered yes has a value", keys[from + i], found[i].value);
            answers[from + i] = found[i].answer;
        }
    }
}

/* Another value in place of the one that a key was found to have; first of one that it doesn't have. */
static inline vbr_answer value_exchange(vbr_map_handle *handle, uint64_t key, uint32_t budget) {
    uint64_t expected = VALUE_MIXER;
    for (;;) {
        struct value_place *it = value_begins(key);
        uint64_t found = 0, began = value_read(&value_time);
        vbr_answer answer = vbr_map_compare_exchange_within(handle, key, expected, value_read(&it->value), &found, budget);
        if (found && (answer == VBR_YES) != (found == expected)) value_is_wrong("a value is exchanged that isn't expected, or one that is isn't", key, found);
        if (expected == VALUE_MIXER && answer < VBR_OUT_OF_STEPS) value_is_wrong("an exchange of a value that isn't there wants a slot", key, expected);
        value_is_changed(it, answer, found, began, answer == VBR_YES, answer == VBR_YES);
        if (answer != VBR_OTHER) return answer;
        expected = found;
    }
}

/* Gives a key another value: yes if it is there. */
VBR_NODISCARD static inline vbr_answer value_change(vbr_map_handle *handle, uint64_t key, uint32_t budget) {
    if (value_takes_turns(budget)) return value_exchange(handle, key, budget);
    struct value_place *it = value_begins(key);
    uint64_t found = 0, began = value_read(&value_time);
    vbr_answer answer = vbr_map_replace_within(handle, key, value_read(&it->value), &found, budget);
    value_is_changed(it, answer, found, began, 1, answer == VBR_YES);
    return answer;
}

/* Gives a key a value, whether it is there or not: yes if it was absent, as of an insert. */
VBR_NODISCARD static inline vbr_answer value_put(vbr_map_handle *handle, uint64_t key, uint32_t budget) {
    struct value_place *it = value_begins(key);
    uint64_t found = 0, began = value_read(&value_time);
    vbr_answer answer = vbr_map_put_within(handle, key, value_read(&it->value), &found, budget);
    value_is_changed(it, answer, found, began, 1, answer >= 0);
    return answer == VBR_NO ? VBR_YES : answer == VBR_YES ? VBR_NO : answer;
}

/* A key that a walk gives has its value. */
VBR_NODISCARD static inline vbr_answer value_next_within(vbr_map_handle *handle, vbr_cursor *cursor, uint64_t *key, uint32_t budget) {
    vbr_entry given = {*key, 0};
    uint64_t began = value_read(&value_time);
    vbr_answer answer = vbr_map_next_within(handle, cursor, &given, budget);
    if (answer == VBR_YES) value_is_found(given.key, given.value, began);
    if (answer != VBR_YES && (given.value || given.key != *key)) value_is_wrong("a walk that gives no key has written", given.key, given.value);
    *key = given.key;
    return answer;
}

/* An insert by the slot in hand. */
VBR_NODISCARD static inline vbr_answer value_insert_held(vbr_map_handle *handle, uint64_t key) {
    struct value_place *it = value_begins(key);
    vbr_answer answer = vbr_map_insert_held(handle, key, value_read(&it->value));
    value_ends(it, answer == VBR_YES);
    return answer;
}

/* An entry that is found has a value of its key, and where this very entry is taken out, so is its value. */
VBR_NODISCARD static inline vbr_answer value_get_entry(vbr_map_handle *handle, uint64_t key, vbr_incarnation *at) {
    uint64_t began = value_read(&value_time);
    vbr_answer answer = vbr_map_get_entry(handle, key, at);
    if (answer == VBR_YES) value_is_found(key, at->value, began);
    return answer;
}

VBR_NODISCARD static inline vbr_answer value_remove_entry(vbr_map_handle *handle, uint64_t key, const vbr_incarnation *at) {
    uint64_t began = value_read(&value_time);
    vbr_answer answer = vbr_map_remove_entry(handle, key, at);
    if (answer == VBR_YES) value_is_taken(key, at->value, began);
    return answer;
}

/* The entry of the last report with this key. */
static inline const vbr_entry *value_of_report(uint64_t key) {
    size_t low = 0, high = told_count;
    while (low < high) {
        size_t middle = low + (high - low) / 2;
        if (told_entries[middle].key == key) return &told_entries[middle];
        if (told_entries[middle].key < key) low = middle + 1;
        else high = middle;
    }
    return NULL;
}

/* The entry that an opening gives a key: that of the last report, unless its value is in a map again, or one with a value of its
   own. */
static inline vbr_entry value_opens(uint64_t key) {
    const vbr_entry *told = value_of_report(key);
    struct value_place *it = told ? value_place(told->value) : NULL;
    if (!it || value_read(&it->value) != told->value || value_is_in_use(it)) it = value_begins(key);
    value_write(&it->stage, STORED);
    return (vbr_entry){key, value_read(&it->value)};
}

/* The entries that an opening is given, and what comes of their values. */
static inline void value_open_entries(const uint64_t *keys, size_t key_count) {
    if (key_count > MOST_ENTRIES) value_is_wrong("more keys than values.h has room for", key_count, 0);
    for (size_t i = 0; i < key_count; i++) opening_entries[i] = value_opens(keys[i]);
}

VBR_NODISCARD static inline vbr_answer value_opened(vbr_answer answer, size_t key_count) {
    for (size_t i = 0; answer != VBR_OK && i < key_count; i++) value_write(&value_place(opening_entries[i].value)->stage, REFUSED);
    return answer;
}

/* The entries of a report: each value is taken out, and its key is returned. */
static inline void value_report(uint64_t *keys, size_t count) {
    uint64_t now = value_read(&value_time);
    for (size_t i = 0; i < count; i++) {
        value_is_taken(told_entries[i].key, told_entries[i].value, now);
        keys[i] = told_entries[i].key;
    }
    told_count = count;
}

VBR_NODISCARD static inline vbr_answer value_close(vbr_map_handle *handle, uint64_t *keys, size_t room, vbr_report *report) {
    vbr_answer answer = vbr_map_close(handle, told_entries, room < MOST_ENTRIES ? room : MOST_ENTRIES, report);
    if (answer == VBR_YES) value_report(keys, report->live);
    return answer;
}

VBR_NODISCARD static inline vbr_answer value_close_all(vbr_map_handle *handles, size_t count, uint64_t *keys, size_t room, vbr_report *report) {
    vbr_answer answer = vbr_map_close_all(handles, count, told_entries, room < MOST_ENTRIES ? room : MOST_ENTRIES, report);
    if (answer == VBR_YES) value_report(keys, report->live);
    return answer;
}

/* The values of such a report stay where they are. */
VBR_NODISCARD static inline vbr_answer value_report_all(vbr_map_handle *handles, size_t count, uint64_t *keys, size_t room, vbr_report *report) {
    uint64_t now = value_read(&value_time);
    vbr_answer answer = vbr_map_report_all(handles, count, told_entries, room < MOST_ENTRIES ? room : MOST_ENTRIES, report);
    told_count = answer == VBR_YES ? report->live : 0;
    for (size_t i = 0; i < told_count; i++) {
        value_is_found(told_entries[i].key, told_entries[i].value, now);
        keys[i] = told_entries[i].key;
    }
    return answer;
}

#define OF_VALUES

/* What follows is made of bindings/interface/vbr.h.in by tools/interface. */

VBR_NODISCARD static inline vbr_answer value_open_with(vbr_map_handle *handles, size_t count, uint32_t slots, uint32_t buckets,
                                                       uint64_t last_epoch, const uint64_t *keys, size_t key_count) {
    value_open_entries(keys, key_count);
    return value_opened(vbr_map_open_with(handles, count, slots, buckets, last_epoch, opening_entries, key_count), key_count);
}

VBR_NODISCARD static inline vbr_answer value_open_seeded(vbr_map_handle *handles, size_t count, uint32_t slots, uint32_t buckets,
                                                         uint64_t last_epoch, uint64_t seed, const uint64_t *keys, size_t key_count) {
    value_open_entries(keys, key_count);
    return value_opened(vbr_map_open_seeded(handles, count, slots, buckets, last_epoch, seed, opening_entries, key_count), key_count);
}

VBR_NODISCARD static inline vbr_answer value_open_many(vbr_map_handle *handles, size_t count, uint32_t slots, uint32_t buckets,
                                                       uint64_t last_epoch, const uint64_t *keys, size_t key_count) {
    value_open_entries(keys, key_count);
    return value_opened(vbr_map_open_many(handles, count, slots, buckets, last_epoch, opening_entries, key_count), key_count);
}

VBR_NODISCARD static inline vbr_answer value_open_many_seeded(vbr_map_handle *handles, size_t count, uint32_t slots, uint32_t buckets,
                                                              uint64_t last_epoch, uint64_t seed, const uint64_t *keys, size_t key_count) {
    value_open_entries(keys, key_count);
    return value_opened(vbr_map_open_many_seeded(handles, count, slots, buckets, last_epoch, seed, opening_entries, key_count), key_count);
}

VBR_NODISCARD static inline vbr_answer value_insert(vbr_map_handle *handle, uint64_t key) {
    return value_insert_within(handle, key, vbr_map_steps_of(handle));
}

VBR_NODISCARD static inline vbr_answer value_remove(vbr_map_handle *handle, uint64_t key) {
    return value_remove_within(handle, key, vbr_map_steps_of(handle));
}

VBR_NODISCARD static inline vbr_answer value_has(vbr_map_handle *handle, uint64_t key) {
    return value_has_within(handle, key, vbr_map_steps_of(handle));
}

static inline void value_has_all(vbr_map_handle *handle, const uint64_t *keys, size_t count, vbr_answer *answers) {
    value_has_all_within(handle, keys, count, answers, vbr_map_steps_of(handle));
}

VBR_NODISCARD static inline vbr_answer value_next(vbr_map_handle *handle, vbr_cursor *cursor, uint64_t *key) {
    return value_next_within(handle, cursor, key, vbr_map_steps_of(handle));
}

#undef vbr_advances
#define vbr_advances vbr_map_advances
#undef vbr_balance
#define vbr_balance vbr_map_balance
#undef vbr_buckets
#define vbr_buckets vbr_map_buckets
#undef vbr_close
#define vbr_close value_close
#undef vbr_close_all
#define vbr_close_all value_close_all
#undef vbr_drop
#define vbr_drop vbr_map_drop
#undef vbr_end_all
#define vbr_end_all vbr_map_end_all
#undef vbr_epoch
#define vbr_epoch vbr_map_epoch
#undef vbr_free_about
#define vbr_free_about vbr_map_free_about
#undef vbr_get_entry
#define vbr_get_entry value_get_entry
#undef vbr_get_entry_within
#define vbr_get_entry_within vbr_map_get_entry_within
#undef vbr_give_back
#define vbr_give_back vbr_map_give_back
#undef vbr_give_slots_back
#define vbr_give_slots_back vbr_map_give_slots_back
#undef vbr_handle
#define vbr_handle vbr_map_handle
#undef vbr_has
#define vbr_has value_has
#undef vbr_has_all
#define vbr_has_all value_has_all
#undef vbr_has_all_within
#define vbr_has_all_within value_has_all_within
#undef vbr_has_within
#define vbr_has_within value_has_within
#undef vbr_helps
#define vbr_helps vbr_map_helps
#undef vbr_hold
#define vbr_hold vbr_map_hold
#undef vbr_hold_within
#define vbr_hold_within vbr_map_hold_within
#undef vbr_insert
#define vbr_insert value_insert
#undef vbr_insert_held
#define vbr_insert_held value_insert_held
#undef vbr_insert_held_within
#define vbr_insert_held_within vbr_map_insert_held_within
#undef vbr_insert_within
#define vbr_insert_within value_insert_within
#undef vbr_is_still
#define vbr_is_still vbr_map_is_still
#undef vbr_last_epoch
#define vbr_last_epoch vbr_map_last_epoch
#undef vbr_lend
#define vbr_lend vbr_map_lend
#undef vbr_lend_counts
#define vbr_lend_counts vbr_map_lend_counts
#undef vbr_lend_recounts
#define vbr_lend_recounts vbr_map_lend_recounts
#undef vbr_lender
#define vbr_lender vbr_map_lender
#undef vbr_lender_count_about
#define vbr_lender_count_about vbr_map_lender_count_about
#undef vbr_lender_init
#define vbr_lender_init vbr_map_lender_init
#undef vbr_lender_init_many
#define vbr_lender_init_many vbr_map_lender_init_many
#undef vbr_lender_lend_on
#define vbr_lender_lend_on vbr_map_lender_lend_on
#undef vbr_lender_on_loan
#define vbr_lender_on_loan vbr_map_lender_on_loan
#undef vbr_lender_recount
#define vbr_lender_recount vbr_map_lender_recount
#undef vbr_lender_renew
#define vbr_lender_renew vbr_map_lender_renew
#undef vbr_let_go
#define vbr_let_go vbr_map_let_go
#undef vbr_next
#define vbr_next value_next
#undef vbr_next_at
#define vbr_next_at vbr_map_next_at
#undef vbr_next_at_within
#define vbr_next_at_within vbr_map_next_at_within
#undef vbr_next_within
#define vbr_next_within value_next_within
#undef vbr_open
#define vbr_open vbr_map_open
#undef vbr_open_many
#define vbr_open_many value_open_many
#undef vbr_open_many_seeded
#define vbr_open_many_seeded value_open_many_seeded
#undef vbr_open_seeded
#define vbr_open_seeded value_open_seeded
#undef vbr_open_with
#define vbr_open_with value_open_with
#undef vbr_remove
#define vbr_remove value_remove
#undef vbr_remove_entry
#define vbr_remove_entry value_remove_entry
#undef vbr_remove_entry_within
#define vbr_remove_entry_within vbr_map_remove_entry_within
#undef vbr_remove_within
#define vbr_remove_within value_remove_within
#undef vbr_renew_all
#define vbr_renew_all vbr_map_renew_all
#undef vbr_renew_all_seeded
#define vbr_renew_all_seeded vbr_map_renew_all_seeded
#undef vbr_report_all
#define vbr_report_all value_report_all
#undef vbr_report_slots
#define vbr_report_slots vbr_map_report_slots
#undef vbr_reserve
#define vbr_reserve vbr_map_reserve
#undef vbr_restarts
#define vbr_restarts vbr_map_restarts
#undef vbr_seed
#define vbr_seed vbr_map_seed
#undef vbr_slots
#define vbr_slots vbr_map_slots
#undef vbr_spare
#define vbr_spare vbr_map_spare
#undef vbr_steps_of
#define vbr_steps_of vbr_map_steps_of
