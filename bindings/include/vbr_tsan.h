/* Makes sets and maps known to ThreadSanitizer, since they are compiled without it. vbr.h includes this if a program is compiled with
   -fsanitize=thread, in C and C++; a program needs no line for it.

   The calls go through functions that tell it
   - that a handle is used: two threads that use one, with no order between them, are reported, unless both ask for a number of it;
   - that what a thread did before it inserted a key comes before what a thread does that then finds it, and what it did
     before it removed one before what a thread does that then finds it absent;
   - that what was done before a slot was let go, or its key removed or given another value, comes before what a thread does that then
     holds it;
   - that what was done before a handle was closed comes before what the last close reports, and that this close writes the report.

   For maps it says the same, with a get as a look-up, and also that a value was written. A call that may give a key another value
   counts as a remove and an insert, even by a held slot. A call of a walk counts as a write of its cursor, and one that gives a key
   finds it, and writes it. So a right program is silent, and one that reads what it didn't look up, or what is absent, is reported.
   What the library itself copies and frees while it closes, drops, reports and renews isn't reported, since the sanitizer doesn't see
   the steps that order it: threads may close and drop handles of their own at the same time. The names of the calls within steps and
   of the others stand for the functions, and those without a budget call these; so pointers to calls go through them too, and members
   of these names keep one name. The sanitizer has a place for each of 16,384 groups of keys, whatever the set, and takes a call that
   would have changed something, but was answered otherwise or refused, for one that did. If keys of a group meet, or after such an
   answer, it may miss a race. It knows one process alone, and the calls of vbr_shared.h aren't known to it. */
#ifndef VBR_TSAN_H
#define VBR_TSAN_H

#include "vbr.h"

#ifdef __cplusplus
extern "C" {
#endif

void __tsan_acquire(void *address);
void __tsan_release(void *address);
void __tsan_read8(void *address);
void __tsan_write8(void *address);
void __tsan_write4(void *address);
void __tsan_write_range(void *address, long size); /* signed, as in GCC, where it is built in */
void __tsan_ignore_thread_begin(void);
void __tsan_ignore_thread_end(void);

/* For each group of keys: what inserts release, and what removes release; then what closes and freed slots release. */
#define VBR_TSAN_GROUPS (1u << 14)
__attribute__((weak)) uint64_t vbr_tsan_places[2 * VBR_TSAN_GROUPS + 2];

#ifdef __cplusplus
}
#endif

static inline void *vbr_tsan_there(uint64_t key) {
    return &vbr_tsan_places[2 * (key * 0x9E3779B97F4A7C15u >> 50)];
}

static inline void *vbr_tsan_gone(uint64_t key) {
    return &vbr_tsan_places[2 * (key * 0x9E3779B97F4A7C15u >> 50) + 1];
}

static inline void *vbr_tsan_closed(void) {
    return &vbr_tsan_places[2 * VBR_TSAN_GROUPS];
}

static inline void *vbr_tsan_free(void) {
    return &vbr_tsan_places[2 * VBR_TSAN_GROUPS + 1];
}

/* A call on a handle writes what the handle owns, and one that shows a number reads it. */
static inline void vbr_tsan_uses(const vbr_handle *handle) {
    if (handle && handle->owned) __tsan_write8(handle->owned);
}

static inline void vbr_tsan_map_uses(const vbr_map_handle *handle) {
    if (handle && handle->owned) __tsan_write8(handle->owned);
}

static inline void vbr_tsan_reads(void *owned) {
    if (owned) __tsan_read8(owned);
}

/* What comes before the answer of an insert. */
static inline vbr_answer vbr_tsan_added(uint64_t key, vbr_answer answer) {
    if (answer == VBR_YES) __tsan_acquire(vbr_tsan_gone(key));
    if (answer == VBR_NO) __tsan_acquire(vbr_tsan_there(key));
    return answer;
}

/* What comes before an answer that says whether a key was there, and that a value was written beside it. */
static inline vbr_answer vbr_tsan_found(uint64_t key, vbr_answer answer) {
    if (answer == VBR_YES || answer == VBR_OTHER) __tsan_acquire(vbr_tsan_there(key));
    if (answer == VBR_NO) __tsan_acquire(vbr_tsan_gone(key));
    return answer;
}

static inline vbr_answer vbr_tsan_given(uint64_t *value, vbr_answer answer) {
    if ((answer == VBR_YES || answer == VBR_OTHER) && value) __tsan_write8(value);
    return answer;
}

/* What a call comes after that may remove a key, and whose slot may be held then. */
static inline void vbr_tsan_removes(uint64_t key) {
    __tsan_release(vbr_tsan_gone(key));
    __tsan_release(vbr_tsan_free());
}

/* What a call comes after that may remove a value and insert another one. */
static inline void vbr_tsan_changes(uint64_t key) {
    __tsan_release(vbr_tsan_there(key));
    vbr_tsan_removes(key);
}

/* What comes before an answer that names an entry, which was written. */
static inline vbr_answer vbr_tsan_named(uint64_t key, vbr_incarnation *at, vbr_answer answer) {
    if (answer == VBR_YES) __tsan_write_range(at, sizeof *at);
    return vbr_tsan_found(key, answer);
}

/* What comes before an answer of a look-up of several keys, which was written. */
static inline void vbr_tsan_told(uint64_t key, vbr_answer *answer) {
    __tsan_write4(answer);
    (void)vbr_tsan_found(key, *answer);
}

/* What a call of a walk writes, and what comes before the key that it gives. */
static inline vbr_answer vbr_tsan_walked(vbr_cursor *cursor, uint64_t *key, vbr_answer answer) {
    __tsan_write8(&cursor->bucket);
    __tsan_write8(&cursor->from);
    return answer == VBR_YES ? vbr_tsan_found(*key, vbr_tsan_given(key, answer)) : answer;
}

#ifdef __cplusplus
#define VBR_TSAN_SIZE(size) static_cast<long>(size)
#else
#define VBR_TSAN_SIZE(size) ((long)(size))
#endif

/* What a call writes that may give a report, whose items take so many bytes each. */
static inline vbr_answer vbr_tsan_reported(void *items, size_t size, vbr_report *report, vbr_answer answer) {
    if (answer == VBR_YES || answer == VBR_NO_ROOM) __tsan_write_range(report, sizeof *report);
    if (answer == VBR_YES && report->live > 0) __tsan_write_range(items, VBR_TSAN_SIZE(report->live * size));
    return answer;
}

/* What follows is made of bindings/interface/vbr.h.in by tools/interface. */

VBR_NODISCARD static inline vbr_answer vbr_tsan_insert_within(vbr_handle *handle, uint64_t key, uint32_t steps) VBR_NOEXCEPT {
    vbr_tsan_uses(handle);
    __tsan_release(vbr_tsan_there(key));
    return vbr_tsan_added(key, vbr_insert_within(handle, key, steps));
}

VBR_NODISCARD static inline vbr_answer vbr_tsan_remove_within(vbr_handle *handle, uint64_t key, uint32_t steps) VBR_NOEXCEPT {
    vbr_tsan_uses(handle);
    vbr_tsan_removes(key);
    return vbr_tsan_found(key, vbr_remove_within(handle, key, steps));
}

VBR_NODISCARD static inline vbr_answer vbr_tsan_has_within(vbr_handle *handle, uint64_t key, uint32_t steps) VBR_NOEXCEPT {
    vbr_tsan_uses(handle);
    return vbr_tsan_found(key, vbr_has_within(handle, key, steps));
}

static inline void vbr_tsan_has_all_within(vbr_handle *handle, const uint64_t *keys, size_t count, vbr_answer *answers,
                                           uint32_t steps) VBR_NOEXCEPT {
    vbr_tsan_uses(handle);
    vbr_has_all_within(handle, keys, count, answers, steps);
    for (size_t i = 0; i < count; i++) vbr_tsan_told(keys[i], &answers[i]);
}

VBR_NODISCARD static inline vbr_answer vbr_tsan_next_within(vbr_handle *handle, vbr_cursor *cursor, uint64_t *key,
                                                            uint32_t steps) VBR_NOEXCEPT {
    vbr_tsan_uses(handle);
    return vbr_tsan_walked(cursor, key, vbr_next_within(handle, cursor, key, steps));
}

VBR_NODISCARD static inline uint64_t vbr_tsan_epoch(const vbr_handle *handle) VBR_NOEXCEPT {
    vbr_tsan_reads(handle->owned);
    return vbr_epoch(handle);
}

VBR_NODISCARD static inline uint64_t vbr_tsan_last_epoch(const vbr_handle *handle) VBR_NOEXCEPT {
    vbr_tsan_reads(handle->owned);
    return vbr_last_epoch(handle);
}

VBR_NODISCARD static inline uint32_t vbr_tsan_slots(const vbr_handle *handle) VBR_NOEXCEPT {
    vbr_tsan_reads(handle->owned);
    return vbr_slots(handle);
}

VBR_NODISCARD static inline uint32_t vbr_tsan_buckets(const vbr_handle *handle) VBR_NOEXCEPT {
    vbr_tsan_reads(handle->owned);
    return vbr_buckets(handle);
}

VBR_NODISCARD static inline uint64_t vbr_tsan_seed(const vbr_handle *handle) VBR_NOEXCEPT {
    vbr_tsan_reads(handle->owned);
    return vbr_seed(handle);
}

VBR_NODISCARD static inline int64_t vbr_tsan_balance(const vbr_handle *handle) VBR_NOEXCEPT {
    vbr_tsan_reads(handle->owned);
    return vbr_balance(handle);
}

VBR_NODISCARD static inline uint64_t vbr_tsan_restarts(const vbr_handle *handle) VBR_NOEXCEPT {
    vbr_tsan_reads(handle->owned);
    return vbr_restarts(handle);
}

VBR_NODISCARD static inline uint64_t vbr_tsan_helps(const vbr_handle *handle) VBR_NOEXCEPT {
    vbr_tsan_reads(handle->owned);
    return vbr_helps(handle);
}

VBR_NODISCARD static inline uint64_t vbr_tsan_advances(const vbr_handle *handle) VBR_NOEXCEPT {
    vbr_tsan_reads(handle->owned);
    return vbr_advances(handle);
}

VBR_NODISCARD static inline uint32_t vbr_tsan_free_about(const vbr_handle *handle) VBR_NOEXCEPT {
    vbr_tsan_reads(handle->owned);
    return vbr_free_about(handle);
}

VBR_NODISCARD static inline vbr_answer vbr_tsan_close(vbr_handle *handle, uint64_t *keys, size_t room,
                                                      vbr_report *report) VBR_NOEXCEPT {
    vbr_tsan_uses(handle);
    __tsan_release(vbr_tsan_closed());
    __tsan_ignore_thread_begin();
    vbr_answer answer = vbr_close(handle, keys, room, report);
    __tsan_ignore_thread_end();
    if (answer == VBR_YES || answer == VBR_LOST) __tsan_acquire(vbr_tsan_closed());
    return vbr_tsan_reported(keys, sizeof *keys, report, answer);
}

VBR_NODISCARD static inline vbr_answer vbr_tsan_close_all(vbr_handle *handles, size_t count, uint64_t *keys, size_t room,
                                                          vbr_report *report) VBR_NOEXCEPT {
    for (size_t i = 0; i < count; i++) vbr_tsan_uses(&handles[i]);
    __tsan_release(vbr_tsan_closed());
    __tsan_ignore_thread_begin();
    vbr_answer answer = vbr_close_all(handles, count, keys, room, report);
    __tsan_ignore_thread_end();
    if (answer == VBR_YES) __tsan_acquire(vbr_tsan_closed());
    return vbr_tsan_reported(keys, sizeof *keys, report, answer);
}

VBR_NODISCARD static inline vbr_answer vbr_tsan_report_all(vbr_handle *handles, size_t count, uint64_t *keys, size_t room,
                                                           vbr_report *report) VBR_NOEXCEPT {
    for (size_t i = 0; i < count; i++) vbr_tsan_uses(&handles[i]);
    __tsan_ignore_thread_begin();
    vbr_answer answer = vbr_report_all(handles, count, keys, room, report);
    __tsan_ignore_thread_end();
    return vbr_tsan_reported(keys, sizeof *keys, report, answer);
}

VBR_NODISCARD static inline vbr_answer vbr_tsan_renew_all(vbr_handle *handles, size_t count, uint32_t slots, uint32_t buckets,
                                                          uint64_t last_epoch) VBR_NOEXCEPT {
    for (size_t i = 0; i < count; i++) vbr_tsan_uses(&handles[i]);
    __tsan_ignore_thread_begin();
    vbr_answer answer = vbr_renew_all(handles, count, slots, buckets, last_epoch);
    __tsan_ignore_thread_end();
    return answer;
}

VBR_NODISCARD static inline vbr_answer vbr_tsan_renew_all_seeded(vbr_handle *handles, size_t count, uint32_t slots,
                                                                 uint32_t buckets, uint64_t last_epoch,
                                                                 uint64_t seed) VBR_NOEXCEPT {
    for (size_t i = 0; i < count; i++) vbr_tsan_uses(&handles[i]);
    __tsan_ignore_thread_begin();
    vbr_answer answer = vbr_renew_all_seeded(handles, count, slots, buckets, last_epoch, seed);
    __tsan_ignore_thread_end();
    return answer;
}

static inline void vbr_tsan_drop(vbr_handle *handle) VBR_NOEXCEPT {
    vbr_tsan_uses(handle);
    __tsan_release(vbr_tsan_closed());
    __tsan_ignore_thread_begin();
    vbr_drop(handle);
    __tsan_ignore_thread_end();
}

static inline void vbr_tsan_end_all(vbr_handle *handles, size_t count) VBR_NOEXCEPT {
    for (size_t i = 0; i < count; i++) vbr_tsan_uses(&handles[i]);
    __tsan_release(vbr_tsan_closed());
    __tsan_ignore_thread_begin();
    vbr_end_all(handles, count);
    __tsan_ignore_thread_end();
}

VBR_NODISCARD static inline vbr_answer vbr_tsan_map_insert_within(vbr_map_handle *handle, uint64_t key, uint64_t value,
                                                                  uint32_t steps) VBR_NOEXCEPT {
    vbr_tsan_map_uses(handle);
    __tsan_release(vbr_tsan_there(key));
    return vbr_tsan_added(key, vbr_map_insert_within(handle, key, value, steps));
}

VBR_NODISCARD static inline vbr_answer vbr_tsan_map_remove_within(vbr_map_handle *handle, uint64_t key, uint64_t *value,
                                                                  uint32_t steps) VBR_NOEXCEPT {
    vbr_tsan_map_uses(handle);
    vbr_tsan_removes(key);
    return vbr_tsan_given(value, vbr_tsan_found(key, vbr_map_remove_within(handle, key, value, steps)));
}

VBR_NODISCARD static inline vbr_answer vbr_tsan_map_get_within(vbr_map_handle *handle, uint64_t key, uint64_t *value,
                                                               uint32_t steps) VBR_NOEXCEPT {
    vbr_tsan_map_uses(handle);
    return vbr_tsan_given(value, vbr_tsan_found(key, vbr_map_get_within(handle, key, value, steps)));
}

VBR_NODISCARD static inline vbr_answer vbr_tsan_map_replace_within(vbr_map_handle *handle, uint64_t key, uint64_t value,
                                                                   uint64_t *there, uint32_t steps) VBR_NOEXCEPT {
    vbr_tsan_map_uses(handle);
    vbr_tsan_changes(key);
    return vbr_tsan_given(there, vbr_tsan_found(key, vbr_map_replace_within(handle, key, value, there, steps)));
}

VBR_NODISCARD static inline vbr_answer vbr_tsan_map_put_within(vbr_map_handle *handle, uint64_t key, uint64_t value,
                                                               uint64_t *there, uint32_t steps) VBR_NOEXCEPT {
    vbr_tsan_map_uses(handle);
    vbr_tsan_changes(key);
    return vbr_tsan_given(there, vbr_tsan_found(key, vbr_map_put_within(handle, key, value, there, steps)));
}

VBR_NODISCARD static inline vbr_answer vbr_tsan_map_fetch_add_within(vbr_map_handle *handle, uint64_t key, uint64_t delta,
                                                                     uint64_t *there, uint32_t steps) VBR_NOEXCEPT {
    vbr_tsan_map_uses(handle);
    vbr_tsan_changes(key);
    return vbr_tsan_given(there, vbr_tsan_found(key, vbr_map_fetch_add_within(handle, key, delta, there, steps)));
}

VBR_NODISCARD static inline vbr_answer vbr_tsan_map_get_or_insert_within(vbr_map_handle *handle, uint64_t key, uint64_t value,
                                                                         uint64_t *there, uint32_t steps) VBR_NOEXCEPT {
    vbr_tsan_map_uses(handle);
    __tsan_release(vbr_tsan_there(key));
    return vbr_tsan_given(there, vbr_tsan_found(key, vbr_map_get_or_insert_within(handle, key, value, there, steps)));
}

VBR_NODISCARD static inline vbr_answer vbr_tsan_map_compare_exchange_within(vbr_map_handle *handle, uint64_t key, uint64_t expected,
                                                                            uint64_t value, uint64_t *there,
                                                                            uint32_t steps) VBR_NOEXCEPT {
    vbr_tsan_map_uses(handle);
    vbr_tsan_changes(key);
    return vbr_tsan_given(there, vbr_tsan_found(key, vbr_map_compare_exchange_within(handle, key, expected, value, there, steps)));
}

VBR_NODISCARD static inline vbr_answer vbr_tsan_map_remove_if_within(vbr_map_handle *handle, uint64_t key, uint64_t expected,
                                                                     uint64_t *there, uint32_t steps) VBR_NOEXCEPT {
    vbr_tsan_map_uses(handle);
    vbr_tsan_removes(key);
    return vbr_tsan_given(there, vbr_tsan_found(key, vbr_map_remove_if_within(handle, key, expected, there, steps)));
}

VBR_NODISCARD static inline vbr_answer vbr_tsan_map_has_within(vbr_map_handle *handle, uint64_t key, uint32_t steps) VBR_NOEXCEPT {
    vbr_tsan_map_uses(handle);
    return vbr_tsan_found(key, vbr_map_has_within(handle, key, steps));
}

static inline void vbr_tsan_map_has_all_within(vbr_map_handle *handle, const uint64_t *keys, size_t count, vbr_answer *answers,
                                               uint32_t steps) VBR_NOEXCEPT {
    vbr_tsan_map_uses(handle);
    vbr_map_has_all_within(handle, keys, count, answers, steps);
    for (size_t i = 0; i < count; i++) vbr_tsan_told(keys[i], &answers[i]);
}

static inline void vbr_tsan_map_get_all_within(vbr_map_handle *handle, const uint64_t *keys, size_t count, vbr_found *found,
                                               uint32_t steps) VBR_NOEXCEPT {
    vbr_tsan_map_uses(handle);
    vbr_map_get_all_within(handle, keys, count, found, steps);
    for (size_t i = 0; i < count; i++) {
        __tsan_write8(&found[i].value);
        vbr_tsan_told(keys[i], &found[i].answer);
    }
}

VBR_NODISCARD static inline vbr_answer vbr_tsan_map_next_within(vbr_map_handle *handle, vbr_cursor *cursor, vbr_entry *entry,
                                                                uint32_t steps) VBR_NOEXCEPT {
    vbr_tsan_map_uses(handle);
    return vbr_tsan_given(&entry->value, vbr_tsan_walked(cursor, &entry->key, vbr_map_next_within(handle, cursor, entry, steps)));
}

VBR_NODISCARD static inline uint64_t vbr_tsan_map_epoch(const vbr_map_handle *handle) VBR_NOEXCEPT {
    vbr_tsan_reads(handle->owned);
    return vbr_map_epoch(handle);
}

VBR_NODISCARD static inline uint64_t vbr_tsan_map_last_epoch(const vbr_map_handle *handle) VBR_NOEXCEPT {
    vbr_tsan_reads(handle->owned);
    return vbr_map_last_epoch(handle);
}

VBR_NODISCARD static inline uint32_t vbr_tsan_map_slots(const vbr_map_handle *handle) VBR_NOEXCEPT {
    vbr_tsan_reads(handle->owned);
    return vbr_map_slots(handle);
}

VBR_NODISCARD static inline uint32_t vbr_tsan_map_buckets(const vbr_map_handle *handle) VBR_NOEXCEPT {
    vbr_tsan_reads(handle->owned);
    return vbr_map_buckets(handle);
}

VBR_NODISCARD static inline uint64_t vbr_tsan_map_seed(const vbr_map_handle *handle) VBR_NOEXCEPT {
    vbr_tsan_reads(handle->owned);
    return vbr_map_seed(handle);
}

VBR_NODISCARD static inline int64_t vbr_tsan_map_balance(const vbr_map_handle *handle) VBR_NOEXCEPT {
    vbr_tsan_reads(handle->owned);
    return vbr_map_balance(handle);
}

VBR_NODISCARD static inline uint64_t vbr_tsan_map_restarts(const vbr_map_handle *handle) VBR_NOEXCEPT {
    vbr_tsan_reads(handle->owned);
    return vbr_map_restarts(handle);
}

VBR_NODISCARD static inline uint64_t vbr_tsan_map_helps(const vbr_map_handle *handle) VBR_NOEXCEPT {
    vbr_tsan_reads(handle->owned);
    return vbr_map_helps(handle);
}

VBR_NODISCARD static inline uint64_t vbr_tsan_map_advances(const vbr_map_handle *handle) VBR_NOEXCEPT {
    vbr_tsan_reads(handle->owned);
    return vbr_map_advances(handle);
}

VBR_NODISCARD static inline uint32_t vbr_tsan_map_free_about(const vbr_map_handle *handle) VBR_NOEXCEPT {
    vbr_tsan_reads(handle->owned);
    return vbr_map_free_about(handle);
}

VBR_NODISCARD static inline vbr_answer vbr_tsan_map_close(vbr_map_handle *handle, vbr_entry *entries, size_t room,
                                                          vbr_report *report) VBR_NOEXCEPT {
    vbr_tsan_map_uses(handle);
    __tsan_release(vbr_tsan_closed());
    __tsan_ignore_thread_begin();
    vbr_answer answer = vbr_map_close(handle, entries, room, report);
    __tsan_ignore_thread_end();
    if (answer == VBR_YES || answer == VBR_LOST) __tsan_acquire(vbr_tsan_closed());
    return vbr_tsan_reported(entries, sizeof *entries, report, answer);
}

VBR_NODISCARD static inline vbr_answer vbr_tsan_map_close_all(vbr_map_handle *handles, size_t count, vbr_entry *entries,
                                                              size_t room, vbr_report *report) VBR_NOEXCEPT {
    for (size_t i = 0; i < count; i++) vbr_tsan_map_uses(&handles[i]);
    __tsan_release(vbr_tsan_closed());
    __tsan_ignore_thread_begin();
    vbr_answer answer = vbr_map_close_all(handles, count, entries, room, report);
    __tsan_ignore_thread_end();
    if (answer == VBR_YES) __tsan_acquire(vbr_tsan_closed());
    return vbr_tsan_reported(entries, sizeof *entries, report, answer);
}

VBR_NODISCARD static inline vbr_answer vbr_tsan_map_report_all(vbr_map_handle *handles, size_t count, vbr_entry *entries,
                                                               size_t room, vbr_report *report) VBR_NOEXCEPT {
    for (size_t i = 0; i < count; i++) vbr_tsan_map_uses(&handles[i]);
    __tsan_ignore_thread_begin();
    vbr_answer answer = vbr_map_report_all(handles, count, entries, room, report);
    __tsan_ignore_thread_end();
    return vbr_tsan_reported(entries, sizeof *entries, report, answer);
}

VBR_NODISCARD static inline vbr_answer vbr_tsan_map_renew_all(vbr_map_handle *handles, size_t count, uint32_t slots,
                                                              uint32_t buckets, uint64_t last_epoch) VBR_NOEXCEPT {
    for (size_t i = 0; i < count; i++) vbr_tsan_map_uses(&handles[i]);
    __tsan_ignore_thread_begin();
    vbr_answer answer = vbr_map_renew_all(handles, count, slots, buckets, last_epoch);
    __tsan_ignore_thread_end();
    return answer;
}

VBR_NODISCARD static inline vbr_answer vbr_tsan_map_renew_all_seeded(vbr_map_handle *handles, size_t count, uint32_t slots,
                                                                     uint32_t buckets, uint64_t last_epoch,
                                                                     uint64_t seed) VBR_NOEXCEPT {
    for (size_t i = 0; i < count; i++) vbr_tsan_map_uses(&handles[i]);
    __tsan_ignore_thread_begin();
    vbr_answer answer = vbr_map_renew_all_seeded(handles, count, slots, buckets, last_epoch, seed);
    __tsan_ignore_thread_end();
    return answer;
}

static inline void vbr_tsan_map_drop(vbr_map_handle *handle) VBR_NOEXCEPT {
    vbr_tsan_map_uses(handle);
    __tsan_release(vbr_tsan_closed());
    __tsan_ignore_thread_begin();
    vbr_map_drop(handle);
    __tsan_ignore_thread_end();
}

static inline void vbr_tsan_map_end_all(vbr_map_handle *handles, size_t count) VBR_NOEXCEPT {
    for (size_t i = 0; i < count; i++) vbr_tsan_map_uses(&handles[i]);
    __tsan_release(vbr_tsan_closed());
    __tsan_ignore_thread_begin();
    vbr_map_end_all(handles, count);
    __tsan_ignore_thread_end();
}

VBR_NODISCARD static inline vbr_answer vbr_tsan_hold_within(vbr_handle *handle, uint32_t *slot, uint32_t steps) VBR_NOEXCEPT {
    vbr_tsan_uses(handle);
    vbr_answer answer = vbr_hold_within(handle, slot, steps);
    if (answer == VBR_YES) __tsan_write4(slot);
    if (answer == VBR_YES) __tsan_acquire(vbr_tsan_free());
    return answer;
}

VBR_NODISCARD static inline vbr_answer vbr_tsan_map_hold_within(vbr_map_handle *handle, uint32_t *slot, uint32_t steps) VBR_NOEXCEPT {
    vbr_tsan_map_uses(handle);
    vbr_answer answer = vbr_map_hold_within(handle, slot, steps);
    if (answer == VBR_YES) __tsan_write4(slot);
    if (answer == VBR_YES) __tsan_acquire(vbr_tsan_free());
    return answer;
}

VBR_NODISCARD static inline vbr_answer vbr_tsan_let_go(vbr_handle *handle) VBR_NOEXCEPT {
    vbr_tsan_uses(handle);
    __tsan_release(vbr_tsan_free());
    return vbr_let_go(handle);
}

VBR_NODISCARD static inline vbr_answer vbr_tsan_map_let_go(vbr_map_handle *handle) VBR_NOEXCEPT {
    vbr_tsan_map_uses(handle);
    __tsan_release(vbr_tsan_free());
    return vbr_map_let_go(handle);
}

VBR_NODISCARD static inline vbr_answer vbr_tsan_insert_held_within(vbr_handle *handle, uint64_t key, uint32_t steps) VBR_NOEXCEPT {
    vbr_tsan_uses(handle);
    __tsan_release(vbr_tsan_there(key));
    return vbr_tsan_added(key, vbr_insert_held_within(handle, key, steps));
}

VBR_NODISCARD static inline vbr_answer vbr_tsan_map_insert_held_within(vbr_map_handle *handle, uint64_t key, uint64_t value,
                                                                       uint32_t steps) VBR_NOEXCEPT {
    vbr_tsan_map_uses(handle);
    __tsan_release(vbr_tsan_there(key));
    return vbr_tsan_added(key, vbr_map_insert_held_within(handle, key, value, steps));
}

VBR_NODISCARD static inline vbr_answer vbr_tsan_map_replace_held_within(vbr_map_handle *handle, uint64_t key, const vbr_incarnation *at,
                                                                        uint64_t value, uint32_t steps) VBR_NOEXCEPT {
    vbr_tsan_map_uses(handle);
    vbr_tsan_changes(key);
    return vbr_tsan_found(key, vbr_map_replace_held_within(handle, key, at, value, steps));
}

VBR_NODISCARD static inline vbr_answer vbr_tsan_map_put_held_within(vbr_map_handle *handle, uint64_t key, uint64_t value,
                                                                    uint64_t *there, uint32_t steps) VBR_NOEXCEPT {
    vbr_tsan_map_uses(handle);
    vbr_tsan_changes(key);
    return vbr_tsan_given(there, vbr_tsan_found(key, vbr_map_put_held_within(handle, key, value, there, steps)));
}

VBR_NODISCARD static inline vbr_answer vbr_tsan_get_entry_within(vbr_handle *handle, uint64_t key, vbr_incarnation *at,
                                                                 uint32_t steps) VBR_NOEXCEPT {
    vbr_tsan_uses(handle);
    return vbr_tsan_named(key, at, vbr_get_entry_within(handle, key, at, steps));
}

VBR_NODISCARD static inline vbr_answer vbr_tsan_map_get_entry_within(vbr_map_handle *handle, uint64_t key, vbr_incarnation *at,
                                                                     uint32_t steps) VBR_NOEXCEPT {
    vbr_tsan_map_uses(handle);
    return vbr_tsan_named(key, at, vbr_map_get_entry_within(handle, key, at, steps));
}

VBR_NODISCARD static inline vbr_answer vbr_tsan_is_still(vbr_handle *handle, const vbr_incarnation *at) VBR_NOEXCEPT {
    vbr_tsan_uses(handle);
    return vbr_is_still(handle, at);
}

VBR_NODISCARD static inline vbr_answer vbr_tsan_map_is_still(vbr_map_handle *handle, const vbr_incarnation *at) VBR_NOEXCEPT {
    vbr_tsan_map_uses(handle);
    return vbr_map_is_still(handle, at);
}

VBR_NODISCARD static inline vbr_answer vbr_tsan_remove_entry_within(vbr_handle *handle, uint64_t key, const vbr_incarnation *at,
                                                                    uint32_t steps) VBR_NOEXCEPT {
    vbr_tsan_uses(handle);
    vbr_tsan_removes(key);
    return vbr_tsan_found(key, vbr_remove_entry_within(handle, key, at, steps));
}

VBR_NODISCARD static inline vbr_answer vbr_tsan_map_remove_entry_within(vbr_map_handle *handle, uint64_t key, const vbr_incarnation *at,
                                                                        uint32_t steps) VBR_NOEXCEPT {
    vbr_tsan_map_uses(handle);
    vbr_tsan_removes(key);
    return vbr_tsan_found(key, vbr_map_remove_entry_within(handle, key, at, steps));
}

VBR_NODISCARD static inline vbr_answer vbr_tsan_next_at_within(vbr_handle *handle, vbr_cursor *cursor, uint64_t *key,
                                                               vbr_incarnation *at, uint32_t steps) VBR_NOEXCEPT {
    vbr_tsan_uses(handle);
    vbr_answer answer = vbr_tsan_walked(cursor, key, vbr_next_at_within(handle, cursor, key, at, steps));
    return answer == VBR_YES ? vbr_tsan_named(*key, at, answer) : answer;
}

VBR_NODISCARD static inline vbr_answer vbr_tsan_map_next_at_within(vbr_map_handle *handle, vbr_cursor *cursor, uint64_t *key,
                                                                   vbr_incarnation *at, uint32_t steps) VBR_NOEXCEPT {
    vbr_tsan_map_uses(handle);
    vbr_answer answer = vbr_tsan_walked(cursor, key, vbr_map_next_at_within(handle, cursor, key, at, steps));
    return answer == VBR_YES ? vbr_tsan_named(*key, at, answer) : answer;
}

VBR_NODISCARD static inline vbr_answer vbr_tsan_report_slots(vbr_handle *handles, size_t count, uint64_t *keys, uint32_t *slots,
                                                             size_t room, vbr_report *report) VBR_NOEXCEPT {
    for (size_t i = 0; i < count; i++) vbr_tsan_uses(&handles[i]);
    __tsan_ignore_thread_begin();
    vbr_answer answer = vbr_report_slots(handles, count, keys, slots, room, report);
    __tsan_ignore_thread_end();
    if (answer == VBR_YES && report->live > 0) __tsan_write_range(slots, VBR_TSAN_SIZE(report->live * sizeof *slots));
    return vbr_tsan_reported(keys, sizeof *keys, report, answer);
}

VBR_NODISCARD static inline vbr_answer vbr_tsan_map_report_slots(vbr_map_handle *handles, size_t count, vbr_entry *entries,
                                                                 uint32_t *slots, size_t room, vbr_report *report) VBR_NOEXCEPT {
    for (size_t i = 0; i < count; i++) vbr_tsan_map_uses(&handles[i]);
    __tsan_ignore_thread_begin();
    vbr_answer answer = vbr_map_report_slots(handles, count, entries, slots, room, report);
    __tsan_ignore_thread_end();
    if (answer == VBR_YES && report->live > 0) __tsan_write_range(slots, VBR_TSAN_SIZE(report->live * sizeof *slots));
    return vbr_tsan_reported(entries, sizeof *entries, report, answer);
}

#define vbr_insert_within vbr_tsan_insert_within
#define vbr_remove_within vbr_tsan_remove_within
#define vbr_has_within vbr_tsan_has_within
#define vbr_has_all_within vbr_tsan_has_all_within
#define vbr_next_within vbr_tsan_next_within
#define vbr_epoch vbr_tsan_epoch
#define vbr_last_epoch vbr_tsan_last_epoch
#define vbr_slots vbr_tsan_slots
#define vbr_buckets vbr_tsan_buckets
#define vbr_seed vbr_tsan_seed
#define vbr_balance vbr_tsan_balance
#define vbr_restarts vbr_tsan_restarts
#define vbr_helps vbr_tsan_helps
#define vbr_advances vbr_tsan_advances
#define vbr_free_about vbr_tsan_free_about
#define vbr_close vbr_tsan_close
#define vbr_close_all vbr_tsan_close_all
#define vbr_report_all vbr_tsan_report_all
#define vbr_renew_all vbr_tsan_renew_all
#define vbr_renew_all_seeded vbr_tsan_renew_all_seeded
#define vbr_drop vbr_tsan_drop
#define vbr_end_all vbr_tsan_end_all
#define vbr_map_insert_within vbr_tsan_map_insert_within
#define vbr_map_remove_within vbr_tsan_map_remove_within
#define vbr_map_get_within vbr_tsan_map_get_within
#define vbr_map_replace_within vbr_tsan_map_replace_within
#define vbr_map_put_within vbr_tsan_map_put_within
#define vbr_map_fetch_add_within vbr_tsan_map_fetch_add_within
#define vbr_map_get_or_insert_within vbr_tsan_map_get_or_insert_within
#define vbr_map_compare_exchange_within vbr_tsan_map_compare_exchange_within
#define vbr_map_remove_if_within vbr_tsan_map_remove_if_within
#define vbr_map_has_within vbr_tsan_map_has_within
#define vbr_map_has_all_within vbr_tsan_map_has_all_within
#define vbr_map_get_all_within vbr_tsan_map_get_all_within
#define vbr_map_next_within vbr_tsan_map_next_within
#define vbr_map_epoch vbr_tsan_map_epoch
#define vbr_map_last_epoch vbr_tsan_map_last_epoch
#define vbr_map_slots vbr_tsan_map_slots
#define vbr_map_buckets vbr_tsan_map_buckets
#define vbr_map_seed vbr_tsan_map_seed
#define vbr_map_balance vbr_tsan_map_balance
#define vbr_map_restarts vbr_tsan_map_restarts
#define vbr_map_helps vbr_tsan_map_helps
#define vbr_map_advances vbr_tsan_map_advances
#define vbr_map_free_about vbr_tsan_map_free_about
#define vbr_map_close vbr_tsan_map_close
#define vbr_map_close_all vbr_tsan_map_close_all
#define vbr_map_report_all vbr_tsan_map_report_all
#define vbr_map_renew_all vbr_tsan_map_renew_all
#define vbr_map_renew_all_seeded vbr_tsan_map_renew_all_seeded
#define vbr_map_drop vbr_tsan_map_drop
#define vbr_map_end_all vbr_tsan_map_end_all
#define vbr_hold_within vbr_tsan_hold_within
#define vbr_map_hold_within vbr_tsan_map_hold_within
#define vbr_let_go vbr_tsan_let_go
#define vbr_map_let_go vbr_tsan_map_let_go
#define vbr_insert_held_within vbr_tsan_insert_held_within
#define vbr_map_insert_held_within vbr_tsan_map_insert_held_within
#define vbr_map_replace_held_within vbr_tsan_map_replace_held_within
#define vbr_map_put_held_within vbr_tsan_map_put_held_within
#define vbr_get_entry_within vbr_tsan_get_entry_within
#define vbr_map_get_entry_within vbr_tsan_map_get_entry_within
#define vbr_is_still vbr_tsan_is_still
#define vbr_map_is_still vbr_tsan_map_is_still
#define vbr_remove_entry_within vbr_tsan_remove_entry_within
#define vbr_map_remove_entry_within vbr_tsan_map_remove_entry_within
#define vbr_next_at_within vbr_tsan_next_at_within
#define vbr_map_next_at_within vbr_tsan_map_next_at_within
#define vbr_report_slots vbr_tsan_report_slots
#define vbr_map_report_slots vbr_tsan_map_report_slots

#endif
