/* Finds two threads in one handle at a time, for programs that can't be run under ThreadSanitizer. vbr.h includes this if a program
   defines VBR_CHECKED, in C and C++; a program needs no other line for it. If a program is compiled for ThreadSanitizer it isn't
   included, since vbr_tsan.h finds more. In C++ all files of a program define it, or none does: the members of vbr.hpp are inline, and
   the linker takes those of one file for all.

   The calls go through functions that mark a handle in its `in_call` while a call runs, by an atomic `or` at its beginning and an atomic
   `and` at its end. If it is marked already, the program is ended by abort, with a sentence on standard error that names the later call. A
   call that takes all handles marks each of them, and one that shows a number of a const handle looks for a mark before and after. So
   these are found:

   - two threads that are in calls by one handle at the same moment, unless both only ask for a number of it;
   - a signal handler that makes a call by the handle of the thread that it interrupts.

   Two threads that use a handle in turn, with no order between them, aren't found: ThreadSanitizer finds those. Nor is what happens in
   files that are compiled without it, nor calls of vbr_shared.h, nor two turns of vbr_shared.hpp by one handle, since each makes its calls
   by a copy. Openings don't mark, since they may be given a count that is wrong. The mark is another bit than those of vbr_begin, so
   processes may share a handle that is marked. If a process dies in a call, the mark stays until vbr_inherit, which then answers VBR_NO.
   The names of the calls stand for the functions, as in vbr_tsan.h. */
#ifndef VBR_CHECKED_H
#define VBR_CHECKED_H

#include "vbr.h"

#include <stdlib.h>
#include <string.h>
#include <unistd.h>

/* That a call is under way, beside the marks of vbr_begin. */
#define VBR_CHECKED_MARK 0x80000000u

/* Ends the program. It takes no lock, since a signal handler may be at fault. */
static inline void vbr_checked_ends(const char *call) {
    static const char why[] = ": this handle is in a call already; two threads use it at a time, or a signal handler uses that of its thread\n";
    VBR_IGNORE(write(STDERR_FILENO, call, strlen(call)));
    VBR_IGNORE(write(STDERR_FILENO, why, sizeof why - 1));
    abort();
}

static inline void vbr_checked_begins(uint32_t *in_call, const char *call) {
    if (__atomic_fetch_or(in_call, VBR_CHECKED_MARK, __ATOMIC_RELAXED) & VBR_CHECKED_MARK) vbr_checked_ends(call);
}

static inline void vbr_checked_is_over(uint32_t *in_call) {
    __atomic_fetch_and(in_call, ~VBR_CHECKED_MARK, __ATOMIC_RELAXED);
}

static inline void vbr_checked_looks(const uint32_t *in_call, const char *call) {
    if (__atomic_load_n(in_call, __ATOMIC_RELAXED) & VBR_CHECKED_MARK) vbr_checked_ends(call);
}

/* What follows is made of bindings/interface/vbr.h.in by tools/interface. */

#ifdef __GNUC__
#pragma GCC diagnostic push
#pragma GCC diagnostic ignored "-Wdeprecated-declarations"
#endif

VBR_NODISCARD static inline vbr_answer vbr_checked_insert_within(vbr_handle *handle, uint64_t key, uint32_t steps) VBR_NOEXCEPT {
    vbr_checked_begins(&handle->in_call, "vbr_insert_within");
    vbr_answer answer = vbr_insert_within(handle, key, steps);
    vbr_checked_is_over(&handle->in_call);
    return answer;
}

VBR_NODISCARD static inline vbr_answer vbr_checked_remove_within(vbr_handle *handle, uint64_t key, uint32_t steps) VBR_NOEXCEPT {
    vbr_checked_begins(&handle->in_call, "vbr_remove_within");
    vbr_answer answer = vbr_remove_within(handle, key, steps);
    vbr_checked_is_over(&handle->in_call);
    return answer;
}

VBR_NODISCARD static inline vbr_answer vbr_checked_has_within(vbr_handle *handle, uint64_t key, uint32_t steps) VBR_NOEXCEPT {
    vbr_checked_begins(&handle->in_call, "vbr_has_within");
    vbr_answer answer = vbr_has_within(handle, key, steps);
    vbr_checked_is_over(&handle->in_call);
    return answer;
}

static inline void vbr_checked_has_all_within(vbr_handle *handle, const uint64_t *keys, size_t count, vbr_answer *answers,
                                              uint32_t steps) VBR_NOEXCEPT {
    vbr_checked_begins(&handle->in_call, "vbr_has_all_within");
    vbr_has_all_within(handle, keys, count, answers, steps);
    vbr_checked_is_over(&handle->in_call);
}

VBR_NODISCARD static inline vbr_answer vbr_checked_next_within(vbr_handle *handle, vbr_cursor *cursor, uint64_t *key,
                                                               uint32_t steps) VBR_NOEXCEPT {
    vbr_checked_begins(&handle->in_call, "vbr_next_within");
    vbr_answer answer = vbr_next_within(handle, cursor, key, steps);
    vbr_checked_is_over(&handle->in_call);
    return answer;
}

VBR_NODISCARD static inline uint64_t vbr_checked_epoch(const vbr_handle *handle) VBR_NOEXCEPT {
    vbr_checked_looks(&handle->in_call, "vbr_epoch");
    uint64_t answer = vbr_epoch(handle);
    vbr_checked_looks(&handle->in_call, "vbr_epoch");
    return answer;
}

VBR_NODISCARD static inline uint64_t vbr_checked_last_epoch(const vbr_handle *handle) VBR_NOEXCEPT {
    vbr_checked_looks(&handle->in_call, "vbr_last_epoch");
    uint64_t answer = vbr_last_epoch(handle);
    vbr_checked_looks(&handle->in_call, "vbr_last_epoch");
    return answer;
}

VBR_NODISCARD static inline uint32_t vbr_checked_slots(const vbr_handle *handle) VBR_NOEXCEPT {
    vbr_checked_looks(&handle->in_call, "vbr_slots");
    uint32_t answer = vbr_slots(handle);
    vbr_checked_looks(&handle->in_call, "vbr_slots");
    return answer;
}

VBR_NODISCARD static inline uint32_t vbr_checked_buckets(const vbr_handle *handle) VBR_NOEXCEPT {
    vbr_checked_looks(&handle->in_call, "vbr_buckets");
    uint32_t answer = vbr_buckets(handle);
    vbr_checked_looks(&handle->in_call, "vbr_buckets");
    return answer;
}

VBR_NODISCARD static inline uint64_t vbr_checked_seed(const vbr_handle *handle) VBR_NOEXCEPT {
    vbr_checked_looks(&handle->in_call, "vbr_seed");
    uint64_t answer = vbr_seed(handle);
    vbr_checked_looks(&handle->in_call, "vbr_seed");
    return answer;
}

VBR_NODISCARD static inline int64_t vbr_checked_balance(const vbr_handle *handle) VBR_NOEXCEPT {
    vbr_checked_looks(&handle->in_call, "vbr_balance");
    int64_t answer = vbr_balance(handle);
    vbr_checked_looks(&handle->in_call, "vbr_balance");
    return answer;
}

VBR_NODISCARD static inline uint64_t vbr_checked_restarts(const vbr_handle *handle) VBR_NOEXCEPT {
    vbr_checked_looks(&handle->in_call, "vbr_restarts");
    uint64_t answer = vbr_restarts(handle);
    vbr_checked_looks(&handle->in_call, "vbr_restarts");
    return answer;
}

VBR_NODISCARD static inline uint64_t vbr_checked_helps(const vbr_handle *handle) VBR_NOEXCEPT {
    vbr_checked_looks(&handle->in_call, "vbr_helps");
    uint64_t answer = vbr_helps(handle);
    vbr_checked_looks(&handle->in_call, "vbr_helps");
    return answer;
}

VBR_NODISCARD static inline uint64_t vbr_checked_advances(const vbr_handle *handle) VBR_NOEXCEPT {
    vbr_checked_looks(&handle->in_call, "vbr_advances");
    uint64_t answer = vbr_advances(handle);
    vbr_checked_looks(&handle->in_call, "vbr_advances");
    return answer;
}

VBR_NODISCARD static inline uint32_t vbr_checked_free_about(const vbr_handle *handle) VBR_NOEXCEPT {
    vbr_checked_looks(&handle->in_call, "vbr_free_about");
    uint32_t answer = vbr_free_about(handle);
    vbr_checked_looks(&handle->in_call, "vbr_free_about");
    return answer;
}

static inline uint32_t vbr_checked_spare(vbr_handle *handle) VBR_NOEXCEPT {
    vbr_checked_begins(&handle->in_call, "vbr_spare");
    uint32_t answer = vbr_spare(handle);
    vbr_checked_is_over(&handle->in_call);
    return answer;
}

static inline uint32_t vbr_checked_reserve(vbr_handle *handle, uint32_t wanted) VBR_NOEXCEPT {
    vbr_checked_begins(&handle->in_call, "vbr_reserve");
    uint32_t answer = vbr_reserve(handle, wanted);
    vbr_checked_is_over(&handle->in_call);
    return answer;
}

VBR_NODISCARD static inline vbr_answer vbr_checked_close(vbr_handle *handle, uint64_t *keys, size_t room,
                                                         vbr_report *report) VBR_NOEXCEPT {
    if (handle) vbr_checked_begins(&handle->in_call, "vbr_close");
    vbr_answer answer = vbr_close(handle, keys, room, report);
    if (handle) vbr_checked_is_over(&handle->in_call);
    return answer;
}

VBR_NODISCARD static inline vbr_answer vbr_checked_close_all(vbr_handle *handles, size_t count, uint64_t *keys, size_t room,
                                                             vbr_report *report) VBR_NOEXCEPT {
    for (size_t i = 0; i < count; i++) vbr_checked_begins(&handles[i].in_call, "vbr_close_all");
    vbr_answer answer = vbr_close_all(handles, count, keys, room, report);
    for (size_t i = 0; i < count; i++) vbr_checked_is_over(&handles[i].in_call);
    return answer;
}

VBR_NODISCARD static inline vbr_answer vbr_checked_report_all(vbr_handle *handles, size_t count, uint64_t *keys, size_t room,
                                                              vbr_report *report) VBR_NOEXCEPT {
    for (size_t i = 0; i < count; i++) vbr_checked_begins(&handles[i].in_call, "vbr_report_all");
    vbr_answer answer = vbr_report_all(handles, count, keys, room, report);
    for (size_t i = 0; i < count; i++) vbr_checked_is_over(&handles[i].in_call);
    return answer;
}

VBR_NODISCARD static inline vbr_answer vbr_checked_renew_all(vbr_handle *handles, size_t count, uint32_t slots, uint32_t buckets,
                                                             uint64_t last_epoch) VBR_NOEXCEPT {
    for (size_t i = 0; i < count; i++) vbr_checked_begins(&handles[i].in_call, "vbr_renew_all");
    vbr_answer answer = vbr_renew_all(handles, count, slots, buckets, last_epoch);
    for (size_t i = 0; i < count; i++) vbr_checked_is_over(&handles[i].in_call);
    return answer;
}

VBR_NODISCARD static inline vbr_answer vbr_checked_renew_all_seeded(vbr_handle *handles, size_t count, uint32_t slots,
                                                                    uint32_t buckets, uint64_t last_epoch,
                                                                    uint64_t seed) VBR_NOEXCEPT {
    for (size_t i = 0; i < count; i++) vbr_checked_begins(&handles[i].in_call, "vbr_renew_all_seeded");
    vbr_answer answer = vbr_renew_all_seeded(handles, count, slots, buckets, last_epoch, seed);
    for (size_t i = 0; i < count; i++) vbr_checked_is_over(&handles[i].in_call);
    return answer;
}

static inline void vbr_checked_drop(vbr_handle *handle) VBR_NOEXCEPT {
    if (handle) vbr_checked_begins(&handle->in_call, "vbr_drop");
    vbr_drop(handle);
    if (handle) vbr_checked_is_over(&handle->in_call);
}

static inline void vbr_checked_end_all(vbr_handle *handles, size_t count) VBR_NOEXCEPT {
    for (size_t i = 0; i < count; i++) vbr_checked_begins(&handles[i].in_call, "vbr_end_all");
    vbr_end_all(handles, count);
    for (size_t i = 0; i < count; i++) vbr_checked_is_over(&handles[i].in_call);
}

VBR_NODISCARD static inline vbr_answer vbr_checked_map_insert_within(vbr_map_handle *handle, uint64_t key, uint64_t value,
                                                                     uint32_t steps) VBR_NOEXCEPT {
    vbr_checked_begins(&handle->in_call, "vbr_map_insert_within");
    vbr_answer answer = vbr_map_insert_within(handle, key, value, steps);
    vbr_checked_is_over(&handle->in_call);
    return answer;
}

VBR_NODISCARD static inline vbr_answer vbr_checked_map_remove_within(vbr_map_handle *handle, uint64_t key, uint64_t *value,
                                                                     uint32_t steps) VBR_NOEXCEPT {
    vbr_checked_begins(&handle->in_call, "vbr_map_remove_within");
    vbr_answer answer = vbr_map_remove_within(handle, key, value, steps);
    vbr_checked_is_over(&handle->in_call);
    return answer;
}

VBR_NODISCARD static inline vbr_answer vbr_checked_map_get_within(vbr_map_handle *handle, uint64_t key, uint64_t *value,
                                                                  uint32_t steps) VBR_NOEXCEPT {
    vbr_checked_begins(&handle->in_call, "vbr_map_get_within");
    vbr_answer answer = vbr_map_get_within(handle, key, value, steps);
    vbr_checked_is_over(&handle->in_call);
    return answer;
}

VBR_NODISCARD static inline vbr_answer vbr_checked_map_replace_within(vbr_map_handle *handle, uint64_t key, uint64_t value,
                                                                      uint64_t *there, uint32_t steps) VBR_NOEXCEPT {
    vbr_checked_begins(&handle->in_call, "vbr_map_replace_within");
    vbr_answer answer = vbr_map_replace_within(handle, key, value, there, steps);
    vbr_checked_is_over(&handle->in_call);
    return answer;
}

VBR_NODISCARD static inline vbr_answer vbr_checked_map_put_within(vbr_map_handle *handle, uint64_t key, uint64_t value,
                                                                  uint64_t *there, uint32_t steps) VBR_NOEXCEPT {
    vbr_checked_begins(&handle->in_call, "vbr_map_put_within");
    vbr_answer answer = vbr_map_put_within(handle, key, value, there, steps);
    vbr_checked_is_over(&handle->in_call);
    return answer;
}

VBR_NODISCARD static inline vbr_answer vbr_checked_map_fetch_add_within(vbr_map_handle *handle, uint64_t key, uint64_t delta,
                                                                        uint64_t *there, uint32_t steps) VBR_NOEXCEPT {
    vbr_checked_begins(&handle->in_call, "vbr_map_fetch_add_within");
    vbr_answer answer = vbr_map_fetch_add_within(handle, key, delta, there, steps);
    vbr_checked_is_over(&handle->in_call);
    return answer;
}

VBR_NODISCARD static inline vbr_answer vbr_checked_map_get_or_insert_within(vbr_map_handle *handle, uint64_t key, uint64_t value,
                                                                            uint64_t *there, uint32_t steps) VBR_NOEXCEPT {
    vbr_checked_begins(&handle->in_call, "vbr_map_get_or_insert_within");
    vbr_answer answer = vbr_map_get_or_insert_within(handle, key, value, there, steps);
    vbr_checked_is_over(&handle->in_call);
    return answer;
}

VBR_NODISCARD static inline vbr_answer vbr_checked_map_compare_exchange_within(vbr_map_handle *handle, uint64_t key,
                                                                               uint64_t expected, uint64_t value, uint64_t *there,
                                                                               uint32_t steps) VBR_NOEXCEPT {
    vbr_checked_begins(&handle->in_call, "vbr_map_compare_exchange_within");
    vbr_answer answer = vbr_map_compare_exchange_within(handle, key, expected, value, there, steps);
    vbr_checked_is_over(&handle->in_call);
    return answer;
}

VBR_NODISCARD static inline vbr_answer vbr_checked_map_remove_if_within(vbr_map_handle *handle, uint64_t key, uint64_t expected,
                                                                        uint64_t *there, uint32_t steps) VBR_NOEXCEPT {
    vbr_checked_begins(&handle->in_call, "vbr_map_remove_if_within");
    vbr_answer answer = vbr_map_remove_if_within(handle, key, expected, there, steps);
    vbr_checked_is_over(&handle->in_call);
    return answer;
}

VBR_NODISCARD static inline vbr_answer vbr_checked_map_has_within(vbr_map_handle *handle, uint64_t key,
                                                                  uint32_t steps) VBR_NOEXCEPT {
    vbr_checked_begins(&handle->in_call, "vbr_map_has_within");
    vbr_answer answer = vbr_map_has_within(handle, key, steps);
    vbr_checked_is_over(&handle->in_call);
    return answer;
}

static inline void vbr_checked_map_has_all_within(vbr_map_handle *handle, const uint64_t *keys, size_t count, vbr_answer *answers,
                                                  uint32_t steps) VBR_NOEXCEPT {
    vbr_checked_begins(&handle->in_call, "vbr_map_has_all_within");
    vbr_map_has_all_within(handle, keys, count, answers, steps);
    vbr_checked_is_over(&handle->in_call);
}

static inline void vbr_checked_map_get_all_within(vbr_map_handle *handle, const uint64_t *keys, size_t count, vbr_found *found,
                                                  uint32_t steps) VBR_NOEXCEPT {
    vbr_checked_begins(&handle->in_call, "vbr_map_get_all_within");
    vbr_map_get_all_within(handle, keys, count, found, steps);
    vbr_checked_is_over(&handle->in_call);
}

VBR_NODISCARD static inline vbr_answer vbr_checked_map_next_within(vbr_map_handle *handle, vbr_cursor *cursor, vbr_entry *entry,
                                                                   uint32_t steps) VBR_NOEXCEPT {
    vbr_checked_begins(&handle->in_call, "vbr_map_next_within");
    vbr_answer answer = vbr_map_next_within(handle, cursor, entry, steps);
    vbr_checked_is_over(&handle->in_call);
    return answer;
}

VBR_NODISCARD static inline uint64_t vbr_checked_map_epoch(const vbr_map_handle *handle) VBR_NOEXCEPT {
    vbr_checked_looks(&handle->in_call, "vbr_map_epoch");
    uint64_t answer = vbr_map_epoch(handle);
    vbr_checked_looks(&handle->in_call, "vbr_map_epoch");
    return answer;
}

VBR_NODISCARD static inline uint64_t vbr_checked_map_last_epoch(const vbr_map_handle *handle) VBR_NOEXCEPT {
    vbr_checked_looks(&handle->in_call, "vbr_map_last_epoch");
    uint64_t answer = vbr_map_last_epoch(handle);
    vbr_checked_looks(&handle->in_call, "vbr_map_last_epoch");
    return answer;
}

VBR_NODISCARD static inline uint32_t vbr_checked_map_slots(const vbr_map_handle *handle) VBR_NOEXCEPT {
    vbr_checked_looks(&handle->in_call, "vbr_map_slots");
    uint32_t answer = vbr_map_slots(handle);
    vbr_checked_looks(&handle->in_call, "vbr_map_slots");
    return answer;
}

VBR_NODISCARD static inline uint32_t vbr_checked_map_buckets(const vbr_map_handle *handle) VBR_NOEXCEPT {
    vbr_checked_looks(&handle->in_call, "vbr_map_buckets");
    uint32_t answer = vbr_map_buckets(handle);
    vbr_checked_looks(&handle->in_call, "vbr_map_buckets");
    return answer;
}

VBR_NODISCARD static inline uint64_t vbr_checked_map_seed(const vbr_map_handle *handle) VBR_NOEXCEPT {
    vbr_checked_looks(&handle->in_call, "vbr_map_seed");
    uint64_t answer = vbr_map_seed(handle);
    vbr_checked_looks(&handle->in_call, "vbr_map_seed");
    return answer;
}

VBR_NODISCARD static inline int64_t vbr_checked_map_balance(const vbr_map_handle *handle) VBR_NOEXCEPT {
    vbr_checked_looks(&handle->in_call, "vbr_map_balance");
    int64_t answer = vbr_map_balance(handle);
    vbr_checked_looks(&handle->in_call, "vbr_map_balance");
    return answer;
}

VBR_NODISCARD static inline uint64_t vbr_checked_map_restarts(const vbr_map_handle *handle) VBR_NOEXCEPT {
    vbr_checked_looks(&handle->in_call, "vbr_map_restarts");
    uint64_t answer = vbr_map_restarts(handle);
    vbr_checked_looks(&handle->in_call, "vbr_map_restarts");
    return answer;
}

VBR_NODISCARD static inline uint64_t vbr_checked_map_helps(const vbr_map_handle *handle) VBR_NOEXCEPT {
    vbr_checked_looks(&handle->in_call, "vbr_map_helps");
    uint64_t answer = vbr_map_helps(handle);
    vbr_checked_looks(&handle->in_call, "vbr_map_helps");
    return answer;
}

VBR_NODISCARD static inline uint64_t vbr_checked_map_advances(const vbr_map_handle *handle) VBR_NOEXCEPT {
    vbr_checked_looks(&handle->in_call, "vbr_map_advances");
    uint64_t answer = vbr_map_advances(handle);
    vbr_checked_looks(&handle->in_call, "vbr_map_advances");
    return answer;
}

VBR_NODISCARD static inline uint32_t vbr_checked_map_free_about(const vbr_map_handle *handle) VBR_NOEXCEPT {
    vbr_checked_looks(&handle->in_call, "vbr_map_free_about");
    uint32_t answer = vbr_map_free_about(handle);
    vbr_checked_looks(&handle->in_call, "vbr_map_free_about");
    return answer;
}

static inline uint32_t vbr_checked_map_spare(vbr_map_handle *handle) VBR_NOEXCEPT {
    vbr_checked_begins(&handle->in_call, "vbr_map_spare");
    uint32_t answer = vbr_map_spare(handle);
    vbr_checked_is_over(&handle->in_call);
    return answer;
}

static inline uint32_t vbr_checked_map_reserve(vbr_map_handle *handle, uint32_t wanted) VBR_NOEXCEPT {
    vbr_checked_begins(&handle->in_call, "vbr_map_reserve");
    uint32_t answer = vbr_map_reserve(handle, wanted);
    vbr_checked_is_over(&handle->in_call);
    return answer;
}

VBR_NODISCARD static inline vbr_answer vbr_checked_map_close(vbr_map_handle *handle, vbr_entry *entries, size_t room,
                                                             vbr_report *report) VBR_NOEXCEPT {
    if (handle) vbr_checked_begins(&handle->in_call, "vbr_map_close");
    vbr_answer answer = vbr_map_close(handle, entries, room, report);
    if (handle) vbr_checked_is_over(&handle->in_call);
    return answer;
}

VBR_NODISCARD static inline vbr_answer vbr_checked_map_close_all(vbr_map_handle *handles, size_t count, vbr_entry *entries,
                                                                 size_t room, vbr_report *report) VBR_NOEXCEPT {
    for (size_t i = 0; i < count; i++) vbr_checked_begins(&handles[i].in_call, "vbr_map_close_all");
    vbr_answer answer = vbr_map_close_all(handles, count, entries, room, report);
    for (size_t i = 0; i < count; i++) vbr_checked_is_over(&handles[i].in_call);
    return answer;
}

VBR_NODISCARD static inline vbr_answer vbr_checked_map_report_all(vbr_map_handle *handles, size_t count, vbr_entry *entries,
                                                                  size_t room, vbr_report *report) VBR_NOEXCEPT {
    for (size_t i = 0; i < count; i++) vbr_checked_begins(&handles[i].in_call, "vbr_map_report_all");
    vbr_answer answer = vbr_map_report_all(handles, count, entries, room, report);
    for (size_t i = 0; i < count; i++) vbr_checked_is_over(&handles[i].in_call);
    return answer;
}

VBR_NODISCARD static inline vbr_answer vbr_checked_map_renew_all(vbr_map_handle *handles, size_t count, uint32_t slots,
                                                                 uint32_t buckets, uint64_t last_epoch) VBR_NOEXCEPT {
    for (size_t i = 0; i < count; i++) vbr_checked_begins(&handles[i].in_call, "vbr_map_renew_all");
    vbr_answer answer = vbr_map_renew_all(handles, count, slots, buckets, last_epoch);
    for (size_t i = 0; i < count; i++) vbr_checked_is_over(&handles[i].in_call);
    return answer;
}

VBR_NODISCARD static inline vbr_answer vbr_checked_map_renew_all_seeded(vbr_map_handle *handles, size_t count, uint32_t slots,
                                                                        uint32_t buckets, uint64_t last_epoch,
                                                                        uint64_t seed) VBR_NOEXCEPT {
    for (size_t i = 0; i < count; i++) vbr_checked_begins(&handles[i].in_call, "vbr_map_renew_all_seeded");
    vbr_answer answer = vbr_map_renew_all_seeded(handles, count, slots, buckets, last_epoch, seed);
    for (size_t i = 0; i < count; i++) vbr_checked_is_over(&handles[i].in_call);
    return answer;
}

static inline void vbr_checked_map_drop(vbr_map_handle *handle) VBR_NOEXCEPT {
    if (handle) vbr_checked_begins(&handle->in_call, "vbr_map_drop");
    vbr_map_drop(handle);
    if (handle) vbr_checked_is_over(&handle->in_call);
}

static inline void vbr_checked_map_end_all(vbr_map_handle *handles, size_t count) VBR_NOEXCEPT {
    for (size_t i = 0; i < count; i++) vbr_checked_begins(&handles[i].in_call, "vbr_map_end_all");
    vbr_map_end_all(handles, count);
    for (size_t i = 0; i < count; i++) vbr_checked_is_over(&handles[i].in_call);
}

VBR_NODISCARD static inline vbr_answer vbr_checked_hold_within(vbr_handle *handle, uint32_t *slot, uint32_t steps) VBR_NOEXCEPT {
    vbr_checked_begins(&handle->in_call, "vbr_hold_within");
    vbr_answer answer = vbr_hold_within(handle, slot, steps);
    vbr_checked_is_over(&handle->in_call);
    return answer;
}

VBR_NODISCARD static inline vbr_answer vbr_checked_map_hold_within(vbr_map_handle *handle, uint32_t *slot,
                                                                   uint32_t steps) VBR_NOEXCEPT {
    vbr_checked_begins(&handle->in_call, "vbr_map_hold_within");
    vbr_answer answer = vbr_map_hold_within(handle, slot, steps);
    vbr_checked_is_over(&handle->in_call);
    return answer;
}

VBR_NODISCARD static inline vbr_answer vbr_checked_let_go(vbr_handle *handle) VBR_NOEXCEPT {
    vbr_checked_begins(&handle->in_call, "vbr_let_go");
    vbr_answer answer = vbr_let_go(handle);
    vbr_checked_is_over(&handle->in_call);
    return answer;
}

VBR_NODISCARD static inline vbr_answer vbr_checked_map_let_go(vbr_map_handle *handle) VBR_NOEXCEPT {
    vbr_checked_begins(&handle->in_call, "vbr_map_let_go");
    vbr_answer answer = vbr_map_let_go(handle);
    vbr_checked_is_over(&handle->in_call);
    return answer;
}

VBR_NODISCARD static inline vbr_answer vbr_checked_insert_held_within(vbr_handle *handle, uint64_t key, uint32_t steps) VBR_NOEXCEPT {
    vbr_checked_begins(&handle->in_call, "vbr_insert_held_within");
    vbr_answer answer = vbr_insert_held_within(handle, key, steps);
    vbr_checked_is_over(&handle->in_call);
    return answer;
}

VBR_NODISCARD static inline vbr_answer vbr_checked_map_insert_held_within(vbr_map_handle *handle, uint64_t key, uint64_t value,
                                                                          uint32_t steps) VBR_NOEXCEPT {
    vbr_checked_begins(&handle->in_call, "vbr_map_insert_held_within");
    vbr_answer answer = vbr_map_insert_held_within(handle, key, value, steps);
    vbr_checked_is_over(&handle->in_call);
    return answer;
}

VBR_NODISCARD static inline vbr_answer vbr_checked_map_replace_held_within(vbr_map_handle *handle, uint64_t key,
                                                                           const vbr_incarnation *at, uint64_t value,
                                                                           uint32_t steps) VBR_NOEXCEPT {
    vbr_checked_begins(&handle->in_call, "vbr_map_replace_held_within");
    vbr_answer answer = vbr_map_replace_held_within(handle, key, at, value, steps);
    vbr_checked_is_over(&handle->in_call);
    return answer;
}

VBR_NODISCARD static inline vbr_answer vbr_checked_map_put_held_within(vbr_map_handle *handle, uint64_t key, uint64_t value,
                                                                       uint64_t *there, uint32_t steps) VBR_NOEXCEPT {
    vbr_checked_begins(&handle->in_call, "vbr_map_put_held_within");
    vbr_answer answer = vbr_map_put_held_within(handle, key, value, there, steps);
    vbr_checked_is_over(&handle->in_call);
    return answer;
}

VBR_NODISCARD static inline vbr_answer vbr_checked_get_entry_within(vbr_handle *handle, uint64_t key, vbr_incarnation *at,
                                                                    uint32_t steps) VBR_NOEXCEPT {
    vbr_checked_begins(&handle->in_call, "vbr_get_entry_within");
    vbr_answer answer = vbr_get_entry_within(handle, key, at, steps);
    vbr_checked_is_over(&handle->in_call);
    return answer;
}

VBR_NODISCARD static inline vbr_answer vbr_checked_map_get_entry_within(vbr_map_handle *handle, uint64_t key, vbr_incarnation *at,
                                                                        uint32_t steps) VBR_NOEXCEPT {
    vbr_checked_begins(&handle->in_call, "vbr_map_get_entry_within");
    vbr_answer answer = vbr_map_get_entry_within(handle, key, at, steps);
    vbr_checked_is_over(&handle->in_call);
    return answer;
}

VBR_NODISCARD static inline vbr_answer vbr_checked_is_still(vbr_handle *handle, const vbr_incarnation *at) VBR_NOEXCEPT {
    vbr_checked_begins(&handle->in_call, "vbr_is_still");
    vbr_answer answer = vbr_is_still(handle, at);
    vbr_checked_is_over(&handle->in_call);
    return answer;
}

VBR_NODISCARD static inline vbr_answer vbr_checked_map_is_still(vbr_map_handle *handle, const vbr_incarnation *at) VBR_NOEXCEPT {
    vbr_checked_begins(&handle->in_call, "vbr_map_is_still");
    vbr_answer answer = vbr_map_is_still(handle, at);
    vbr_checked_is_over(&handle->in_call);
    return answer;
}

VBR_NODISCARD static inline vbr_answer vbr_checked_remove_entry_within(vbr_handle *handle, uint64_t key, const vbr_incarnation *at,
                                                                       uint32_t steps) VBR_NOEXCEPT {
    vbr_checked_begins(&handle->in_call, "vbr_remove_entry_within");
    vbr_answer answer = vbr_remove_entry_within(handle, key, at, steps);
    vbr_checked_is_over(&handle->in_call);
    return answer;
}

VBR_NODISCARD static inline vbr_answer vbr_checked_map_remove_entry_within(vbr_map_handle *handle, uint64_t key,
                                                                           const vbr_incarnation *at, uint32_t steps) VBR_NOEXCEPT {
    vbr_checked_begins(&handle->in_call, "vbr_map_remove_entry_within");
    vbr_answer answer = vbr_map_remove_entry_within(handle, key, at, steps);
    vbr_checked_is_over(&handle->in_call);
    return answer;
}

VBR_NODISCARD static inline vbr_answer vbr_checked_next_at_within(vbr_handle *handle, vbr_cursor *cursor, uint64_t *key,
                                                                  vbr_incarnation *at, uint32_t steps) VBR_NOEXCEPT {
    vbr_checked_begins(&handle->in_call, "vbr_next_at_within");
    vbr_answer answer = vbr_next_at_within(handle, cursor, key, at, steps);
    vbr_checked_is_over(&handle->in_call);
    return answer;
}

VBR_NODISCARD static inline vbr_answer vbr_checked_map_next_at_within(vbr_map_handle *handle, vbr_cursor *cursor, uint64_t *key,
                                                                      vbr_incarnation *at, uint32_t steps) VBR_NOEXCEPT {
    vbr_checked_begins(&handle->in_call, "vbr_map_next_at_within");
    vbr_answer answer = vbr_map_next_at_within(handle, cursor, key, at, steps);
    vbr_checked_is_over(&handle->in_call);
    return answer;
}

VBR_NODISCARD static inline vbr_answer vbr_checked_report_slots(vbr_handle *handles, size_t count, uint64_t *keys, uint32_t *slots,
                                                                size_t room, vbr_report *report) VBR_NOEXCEPT {
    for (size_t i = 0; i < count; i++) vbr_checked_begins(&handles[i].in_call, "vbr_report_slots");
    vbr_answer answer = vbr_report_slots(handles, count, keys, slots, room, report);
    for (size_t i = 0; i < count; i++) vbr_checked_is_over(&handles[i].in_call);
    return answer;
}

VBR_NODISCARD static inline vbr_answer vbr_checked_map_report_slots(vbr_map_handle *handles, size_t count, vbr_entry *entries,
                                                                    uint32_t *slots, size_t room, vbr_report *report) VBR_NOEXCEPT {
    for (size_t i = 0; i < count; i++) vbr_checked_begins(&handles[i].in_call, "vbr_map_report_slots");
    vbr_answer answer = vbr_map_report_slots(handles, count, entries, slots, room, report);
    for (size_t i = 0; i < count; i++) vbr_checked_is_over(&handles[i].in_call);
    return answer;
}

#ifdef __GNUC__
#pragma GCC diagnostic pop
#endif

#define vbr_insert_within vbr_checked_insert_within
#define vbr_remove_within vbr_checked_remove_within
#define vbr_has_within vbr_checked_has_within
#define vbr_has_all_within vbr_checked_has_all_within
#define vbr_next_within vbr_checked_next_within
#define vbr_epoch vbr_checked_epoch
#define vbr_last_epoch vbr_checked_last_epoch
#define vbr_slots vbr_checked_slots
#define vbr_buckets vbr_checked_buckets
#define vbr_seed vbr_checked_seed
#define vbr_balance vbr_checked_balance
#define vbr_restarts vbr_checked_restarts
#define vbr_helps vbr_checked_helps
#define vbr_advances vbr_checked_advances
#define vbr_free_about vbr_checked_free_about
#define vbr_spare vbr_checked_spare
#define vbr_reserve vbr_checked_reserve
#define vbr_close vbr_checked_close
#define vbr_close_all vbr_checked_close_all
#define vbr_report_all vbr_checked_report_all
#define vbr_renew_all vbr_checked_renew_all
#define vbr_renew_all_seeded vbr_checked_renew_all_seeded
#define vbr_drop vbr_checked_drop
#define vbr_end_all vbr_checked_end_all
#define vbr_map_insert_within vbr_checked_map_insert_within
#define vbr_map_remove_within vbr_checked_map_remove_within
#define vbr_map_get_within vbr_checked_map_get_within
#define vbr_map_replace_within vbr_checked_map_replace_within
#define vbr_map_put_within vbr_checked_map_put_within
#define vbr_map_fetch_add_within vbr_checked_map_fetch_add_within
#define vbr_map_get_or_insert_within vbr_checked_map_get_or_insert_within
#define vbr_map_compare_exchange_within vbr_checked_map_compare_exchange_within
#define vbr_map_remove_if_within vbr_checked_map_remove_if_within
#define vbr_map_has_within vbr_checked_map_has_within
#define vbr_map_has_all_within vbr_checked_map_has_all_within
#define vbr_map_get_all_within vbr_checked_map_get_all_within
#define vbr_map_next_within vbr_checked_map_next_within
#define vbr_map_epoch vbr_checked_map_epoch
#define vbr_map_last_epoch vbr_checked_map_last_epoch
#define vbr_map_slots vbr_checked_map_slots
#define vbr_map_buckets vbr_checked_map_buckets
#define vbr_map_seed vbr_checked_map_seed
#define vbr_map_balance vbr_checked_map_balance
#define vbr_map_restarts vbr_checked_map_restarts
#define vbr_map_helps vbr_checked_map_helps
#define vbr_map_advances vbr_checked_map_advances
#define vbr_map_free_about vbr_checked_map_free_about
#define vbr_map_spare vbr_checked_map_spare
#define vbr_map_reserve vbr_checked_map_reserve
#define vbr_map_close vbr_checked_map_close
#define vbr_map_close_all vbr_checked_map_close_all
#define vbr_map_report_all vbr_checked_map_report_all
#define vbr_map_renew_all vbr_checked_map_renew_all
#define vbr_map_renew_all_seeded vbr_checked_map_renew_all_seeded
#define vbr_map_drop vbr_checked_map_drop
#define vbr_map_end_all vbr_checked_map_end_all
#define vbr_hold_within vbr_checked_hold_within
#define vbr_map_hold_within vbr_checked_map_hold_within
#define vbr_let_go vbr_checked_let_go
#define vbr_map_let_go vbr_checked_map_let_go
#define vbr_insert_held_within vbr_checked_insert_held_within
#define vbr_map_insert_held_within vbr_checked_map_insert_held_within
#define vbr_map_replace_held_within vbr_checked_map_replace_held_within
#define vbr_map_put_held_within vbr_checked_map_put_held_within
#define vbr_get_entry_within vbr_checked_get_entry_within
#define vbr_map_get_entry_within vbr_checked_map_get_entry_within
#define vbr_is_still vbr_checked_is_still
#define vbr_map_is_still vbr_checked_map_is_still
#define vbr_remove_entry_within vbr_checked_remove_entry_within
#define vbr_map_remove_entry_within vbr_checked_map_remove_entry_within
#define vbr_next_at_within vbr_checked_next_at_within
#define vbr_map_next_at_within vbr_checked_map_next_at_within
#define vbr_report_slots vbr_checked_report_slots
#define vbr_map_report_slots vbr_checked_map_report_slots

#endif
