/* Counts how calls are answered, for those who operate a program. vbr.h includes this if a program defines VBR_STATS ahead of it, in C and
   C++. Each call that may be given a budget is counted then, by its answer and for its handle; of look-ups of several keys each counts.

       vbr_stats told = vbr_stats_of(handle, 8); // of all eight handles
       printf("%llu refused for want of steps\n", (unsigned long long)told.out_of_steps);
       printf("%llu traversals begun anew\n", (unsigned long long)told.restarts);

   A count lies in a line of the cache that is the handle's own, and one call writes it by one store: no thread waits for another. There
   are such lines for 1,024 handles, by their address, from a handle's first call to the end of the program. So a handle that is moved
   begins anew, and one that is opened in the same place goes on. Whoever wants the numbers of some time takes the difference. Handles for
   which no line is free share one more, and only vbr_stats_of_all has their counts. Calls in files that are compiled without VBR_STATS
   aren't counted, nor those of other processes. In C++ all files of a program define it, or none does: the members of vbr.hpp are
   inline, and the linker takes those of one file for all. A program over vbr.hpp asks vbr_stats_of_all, since its handles show no
   vbr_handle. The names of the calls stand for functions, as in vbr_tsan.h, and go together with those of vbr_tsan.h and
   vbr_checked.h. */
#ifndef VBR_STATS_H
#define VBR_STATS_H

#include "vbr.h"

#ifdef __cplusplus
extern "C" {
#define VBR_STATS_ADDRESS(pointer) reinterpret_cast<uintptr_t>(pointer)
#define VBR_STATS_BYTES(pointer) reinterpret_cast<const char *>(pointer)
#else
#define VBR_STATS_ADDRESS(pointer) ((uintptr_t)(pointer))
#define VBR_STATS_BYTES(pointer) ((const char *)(pointer))
#endif

/* How many calls got each answer: VBR_NO_HANDLE is counted by `no_handle`, and the others by the counters of their names. Then what
   interference has cost them, as vbr_restarts, vbr_helps and vbr_advances say, which begins anew with a renewal. At last how many slots
   lie in the pool that all handles share, as vbr_free_about says; that is 0 but in what vbr_stats_seen_by returns.

       uint64_t calls = told.yes + told.no, refused = told.out_of_steps + told.no_slot; */
typedef struct vbr_stats {
    uint64_t yes, no, other, out_of_steps, no_slot, epoch_spent, held, reshaped, no_handle;
    uint64_t restarts, helps, advances, free_about;
} vbr_stats;

/* The counts of a handle, and those of the handles that have no line. It is no part of the interface. */
typedef struct vbr_stats_line {
    const void *handle;
    vbr_stats counts;
    char after[16];
} vbr_stats_line;
#define VBR_STATS_LINES 1024u
__attribute__((weak, aligned(128))) vbr_stats_line vbr_stats_lines[VBR_STATS_LINES + 1];

#ifdef __cplusplus
}
#endif

/* The line of a handle, which is taken for it if `takes` isn't 0; else the shared one. It is no part of the interface. */
static inline vbr_stats_line *vbr_stats_line_of(const void *handle, int takes) VBR_NOEXCEPT {
    size_t tried, first = VBR_STATS_ADDRESS(handle) / sizeof(vbr_handle);
    for (tried = 0; tried < 16; tried++) {
        vbr_stats_line *line = &vbr_stats_lines[(first + tried) % VBR_STATS_LINES];
        const void *there = __atomic_load_n(&line->handle, __ATOMIC_RELAXED);
        if (!there && !takes) break;
        if (there == handle) return line;
        if (!there && __atomic_compare_exchange_n(&line->handle, &there, handle, 0, __ATOMIC_RELAXED, __ATOMIC_RELAXED)) return line;
    }
    return &vbr_stats_lines[VBR_STATS_LINES];
}

static inline uint64_t *vbr_stats_counter(vbr_stats *counts, vbr_answer answer) VBR_NOEXCEPT {
    switch (answer) {
    case VBR_YES: return &counts->yes;
    case VBR_NO: return &counts->no;
    case VBR_OTHER: return &counts->other;
    case VBR_OUT_OF_STEPS: return &counts->out_of_steps;
    case VBR_NO_SLOT: return &counts->no_slot;
    case VBR_EPOCH_SPENT: return &counts->epoch_spent;
    case VBR_HELD: return &counts->held;
    case VBR_RESHAPED: return &counts->reshaped;
    default: return &counts->no_handle;
    }
}

/* Counts an answer of a call by this handle, and writes down what interference has cost its calls. Only the thread that has the handle
   writes its line; in the one that several share, the answers alone are counted. It is no part of the interface. */
static inline void vbr_stats_notes(const void *handle, vbr_answer answer, uint64_t restarts, uint64_t helps, uint64_t advances) VBR_NOEXCEPT {
    vbr_stats_line *line = vbr_stats_line_of(handle, 1);
    uint64_t *counter = vbr_stats_counter(&line->counts, answer);
    if (line == &vbr_stats_lines[VBR_STATS_LINES]) {
        __atomic_fetch_add(counter, 1, __ATOMIC_RELAXED);
        return;
    }
    __atomic_store_n(counter, __atomic_load_n(counter, __ATOMIC_RELAXED) + 1, __ATOMIC_RELAXED);
    __atomic_store_n(&line->counts.restarts, restarts, __ATOMIC_RELAXED);
    __atomic_store_n(&line->counts.helps, helps, __ATOMIC_RELAXED);
    __atomic_store_n(&line->counts.advances, advances, __ATOMIC_RELAXED);
}

/* Counts an answer of a call by this handle, and returns it. It is no part of the interface. */
static inline vbr_answer vbr_stats_counts(const vbr_handle *handle, vbr_answer answer) VBR_NOEXCEPT {
    vbr_stats_notes(handle, answer, vbr_restarts(handle), vbr_helps(handle), vbr_advances(handle));
    return answer;
}

/* The same of a handle to a map. It is no part of the interface. */
static inline vbr_answer vbr_stats_map_counts(const vbr_map_handle *handle, vbr_answer answer) VBR_NOEXCEPT {
    vbr_stats_notes(handle, answer, vbr_map_restarts(handle), vbr_map_helps(handle), vbr_map_advances(handle));
    return answer;
}

static inline void vbr_stats_adds(vbr_stats *sum, const vbr_stats_line *line) VBR_NOEXCEPT {
    sum->yes += __atomic_load_n(&line->counts.yes, __ATOMIC_RELAXED);
    sum->no += __atomic_load_n(&line->counts.no, __ATOMIC_RELAXED);
    sum->other += __atomic_load_n(&line->counts.other, __ATOMIC_RELAXED);
    sum->out_of_steps += __atomic_load_n(&line->counts.out_of_steps, __ATOMIC_RELAXED);
    sum->no_slot += __atomic_load_n(&line->counts.no_slot, __ATOMIC_RELAXED);
    sum->epoch_spent += __atomic_load_n(&line->counts.epoch_spent, __ATOMIC_RELAXED);
    sum->held += __atomic_load_n(&line->counts.held, __ATOMIC_RELAXED);
    sum->reshaped += __atomic_load_n(&line->counts.reshaped, __ATOMIC_RELAXED);
    sum->no_handle += __atomic_load_n(&line->counts.no_handle, __ATOMIC_RELAXED);
    sum->restarts += __atomic_load_n(&line->counts.restarts, __ATOMIC_RELAXED);
    sum->helps += __atomic_load_n(&line->counts.helps, __ATOMIC_RELAXED);
    sum->advances += __atomic_load_n(&line->counts.advances, __ATOMIC_RELAXED);
}

/* Adds up the counts of `count` handles of either kind, which lie side by side from the first on. It is no part of the interface. */
static inline vbr_stats vbr_stats_sum(const char *handles, size_t count) VBR_NOEXCEPT {
    vbr_stats sum = {0, 0, 0, 0, 0, 0, 0, 0, 0, 0, 0, 0, 0};
    for (size_t i = 0; i < count; i++) {
        const vbr_stats_line *line = vbr_stats_line_of(&handles[i * sizeof(vbr_handle)], 0);
        if (line != &vbr_stats_lines[VBR_STATS_LINES]) vbr_stats_adds(&sum, line);
    }
    return sum;
}

/* Returns the counts of `count` handles, added up: of a lender, those that it was given. Each number is one that it had during the call,
   and exact if no thread makes calls by these handles meanwhile.

       vbr_stats told = vbr_stats_of(handle, 2); // of both handles */
VBR_NODISCARD VBR_NONNULL static inline vbr_stats vbr_stats_of(const vbr_handle *handles, size_t count) VBR_NOEXCEPT {
    return vbr_stats_sum(VBR_STATS_BYTES(handles), count);
}

/* Returns the counts of handles to a map, added up, as vbr_stats_of does for a set.

       vbr_stats told = vbr_map_stats_of(map, 1); // of the one handle */
VBR_NODISCARD VBR_NONNULL static inline vbr_stats vbr_map_stats_of(const vbr_map_handle *handles, size_t count) VBR_NOEXCEPT {
    return vbr_stats_sum(VBR_STATS_BYTES(handles), count);
}

/* Returns the counts of `count` handles, added up, with how many slots lie in the pool that they share, which a handle of the caller's
   counts; others may be in calls meanwhile.

       vbr_stats seen = vbr_stats_seen_by(&handle[0], handle, 2); // seen.free_about slots lie in the shared pool */
VBR_NODISCARD VBR_NONNULL static inline vbr_stats vbr_stats_seen_by(const vbr_handle *mine, const vbr_handle *handles, size_t count) VBR_NOEXCEPT {
    vbr_stats told = vbr_stats_of(handles, count);
    told.free_about = vbr_free_about(mine);
    return told;
}

/* Returns the counts of handles to a map, as vbr_stats_seen_by does for a set.

       vbr_stats seen = vbr_map_stats_seen_by(&map[0], map, 1); // seen.advances + 1 is the epoch of a map with one handle */
VBR_NODISCARD VBR_NONNULL static inline vbr_stats vbr_map_stats_seen_by(const vbr_map_handle *mine, const vbr_map_handle *handles,
                                                                        size_t count) VBR_NOEXCEPT {
    vbr_stats told = vbr_map_stats_of(handles, count);
    told.free_about = vbr_map_free_about(mine);
    return told;
}

/* Returns the counts of all handles of the program, added up. A shared object that hides its symbols has counts of its own.

       vbr_stats all = vbr_stats_of_all(); // of sets and maps */
VBR_NODISCARD static inline vbr_stats vbr_stats_of_all(void) VBR_NOEXCEPT {
    vbr_stats sum = {0, 0, 0, 0, 0, 0, 0, 0, 0, 0, 0, 0, 0};
    for (size_t i = 0; i <= VBR_STATS_LINES; i++) vbr_stats_adds(&sum, &vbr_stats_lines[i]);
    return sum;
}

#undef VBR_STATS_ADDRESS
#undef VBR_STATS_BYTES

/* What follows is made of bindings/interface/vbr.h.in by tools/interface. */

VBR_NODISCARD static inline vbr_answer vbr_stats_insert_within(vbr_handle *handle, uint64_t key, uint32_t steps) VBR_NOEXCEPT {
    return vbr_stats_counts(handle, vbr_insert_within(handle, key, steps));
}

VBR_NODISCARD static inline vbr_answer vbr_stats_remove_within(vbr_handle *handle, uint64_t key, uint32_t steps) VBR_NOEXCEPT {
    return vbr_stats_counts(handle, vbr_remove_within(handle, key, steps));
}

VBR_NODISCARD static inline vbr_answer vbr_stats_has_within(vbr_handle *handle, uint64_t key, uint32_t steps) VBR_NOEXCEPT {
    return vbr_stats_counts(handle, vbr_has_within(handle, key, steps));
}

static inline void vbr_stats_has_all_within(vbr_handle *handle, const uint64_t *keys, size_t count, vbr_answer *answers,
                                            uint32_t steps) VBR_NOEXCEPT {
    vbr_has_all_within(handle, keys, count, answers, steps);
    for (size_t i = 0; i < count; i++) (void)vbr_stats_counts(handle, answers[i]);
}

VBR_NODISCARD static inline vbr_answer vbr_stats_next_within(vbr_handle *handle, vbr_cursor *cursor, uint64_t *key,
                                                             uint32_t steps) VBR_NOEXCEPT {
    return vbr_stats_counts(handle, vbr_next_within(handle, cursor, key, steps));
}

VBR_NODISCARD static inline vbr_answer vbr_stats_map_insert_within(vbr_map_handle *handle, uint64_t key, uint64_t value,
                                                                   uint32_t steps) VBR_NOEXCEPT {
    return vbr_stats_map_counts(handle, vbr_map_insert_within(handle, key, value, steps));
}

VBR_NODISCARD static inline vbr_answer vbr_stats_map_remove_within(vbr_map_handle *handle, uint64_t key, uint64_t *value,
                                                                   uint32_t steps) VBR_NOEXCEPT {
    return vbr_stats_map_counts(handle, vbr_map_remove_within(handle, key, value, steps));
}

VBR_NODISCARD static inline vbr_answer vbr_stats_map_get_within(vbr_map_handle *handle, uint64_t key, uint64_t *value,
                                                                uint32_t steps) VBR_NOEXCEPT {
    return vbr_stats_map_counts(handle, vbr_map_get_within(handle, key, value, steps));
}

VBR_NODISCARD static inline vbr_answer vbr_stats_map_replace_within(vbr_map_handle *handle, uint64_t key, uint64_t value,
                                                                    uint64_t *there, uint32_t steps) VBR_NOEXCEPT {
    return vbr_stats_map_counts(handle, vbr_map_replace_within(handle, key, value, there, steps));
}

VBR_NODISCARD static inline vbr_answer vbr_stats_map_put_within(vbr_map_handle *handle, uint64_t key, uint64_t value,
                                                                uint64_t *there, uint32_t steps) VBR_NOEXCEPT {
    return vbr_stats_map_counts(handle, vbr_map_put_within(handle, key, value, there, steps));
}

VBR_NODISCARD static inline vbr_answer vbr_stats_map_fetch_add_within(vbr_map_handle *handle, uint64_t key, uint64_t delta,
                                                                      uint64_t *there, uint32_t steps) VBR_NOEXCEPT {
    return vbr_stats_map_counts(handle, vbr_map_fetch_add_within(handle, key, delta, there, steps));
}

VBR_NODISCARD static inline vbr_answer vbr_stats_map_get_or_insert_within(vbr_map_handle *handle, uint64_t key, uint64_t value,
                                                                          uint64_t *there, uint32_t steps) VBR_NOEXCEPT {
    return vbr_stats_map_counts(handle, vbr_map_get_or_insert_within(handle, key, value, there, steps));
}

VBR_NODISCARD static inline vbr_answer vbr_stats_map_compare_exchange_within(vbr_map_handle *handle, uint64_t key,
                                                                             uint64_t expected, uint64_t value, uint64_t *there,
                                                                             uint32_t steps) VBR_NOEXCEPT {
    return vbr_stats_map_counts(handle, vbr_map_compare_exchange_within(handle, key, expected, value, there, steps));
}

VBR_NODISCARD static inline vbr_answer vbr_stats_map_remove_if_within(vbr_map_handle *handle, uint64_t key, uint64_t expected,
                                                                      uint64_t *there, uint32_t steps) VBR_NOEXCEPT {
    return vbr_stats_map_counts(handle, vbr_map_remove_if_within(handle, key, expected, there, steps));
}

VBR_NODISCARD static inline vbr_answer vbr_stats_map_has_within(vbr_map_handle *handle, uint64_t key, uint32_t steps) VBR_NOEXCEPT {
    return vbr_stats_map_counts(handle, vbr_map_has_within(handle, key, steps));
}

static inline void vbr_stats_map_has_all_within(vbr_map_handle *handle, const uint64_t *keys, size_t count, vbr_answer *answers,
                                                uint32_t steps) VBR_NOEXCEPT {
    vbr_map_has_all_within(handle, keys, count, answers, steps);
    for (size_t i = 0; i < count; i++) (void)vbr_stats_map_counts(handle, answers[i]);
}

static inline void vbr_stats_map_get_all_within(vbr_map_handle *handle, const uint64_t *keys, size_t count, vbr_found *found,
                                                uint32_t steps) VBR_NOEXCEPT {
    vbr_map_get_all_within(handle, keys, count, found, steps);
    for (size_t i = 0; i < count; i++) (void)vbr_stats_map_counts(handle, found[i].answer);
}

VBR_NODISCARD static inline vbr_answer vbr_stats_map_next_within(vbr_map_handle *handle, vbr_cursor *cursor, vbr_entry *entry,
                                                                 uint32_t steps) VBR_NOEXCEPT {
    return vbr_stats_map_counts(handle, vbr_map_next_within(handle, cursor, entry, steps));
}

VBR_NODISCARD static inline vbr_answer vbr_stats_hold_within(vbr_handle *handle, uint32_t *slot, uint32_t steps) VBR_NOEXCEPT {
    return vbr_stats_counts(handle, vbr_hold_within(handle, slot, steps));
}

VBR_NODISCARD static inline vbr_answer vbr_stats_map_hold_within(vbr_map_handle *handle, uint32_t *slot, uint32_t steps) VBR_NOEXCEPT {
    return vbr_stats_map_counts(handle, vbr_map_hold_within(handle, slot, steps));
}

VBR_NODISCARD static inline vbr_answer vbr_stats_insert_held_within(vbr_handle *handle, uint64_t key, uint32_t steps) VBR_NOEXCEPT {
    return vbr_stats_counts(handle, vbr_insert_held_within(handle, key, steps));
}

VBR_NODISCARD static inline vbr_answer vbr_stats_map_insert_held_within(vbr_map_handle *handle, uint64_t key, uint64_t value,
                                                                        uint32_t steps) VBR_NOEXCEPT {
    return vbr_stats_map_counts(handle, vbr_map_insert_held_within(handle, key, value, steps));
}

VBR_NODISCARD static inline vbr_answer vbr_stats_map_replace_held_within(vbr_map_handle *handle, uint64_t key,
                                                                         const vbr_incarnation *at, uint64_t value,
                                                                         uint32_t steps) VBR_NOEXCEPT {
    return vbr_stats_map_counts(handle, vbr_map_replace_held_within(handle, key, at, value, steps));
}

VBR_NODISCARD static inline vbr_answer vbr_stats_map_put_held_within(vbr_map_handle *handle, uint64_t key, uint64_t value,
                                                                     uint64_t *there, uint32_t steps) VBR_NOEXCEPT {
    return vbr_stats_map_counts(handle, vbr_map_put_held_within(handle, key, value, there, steps));
}

VBR_NODISCARD static inline vbr_answer vbr_stats_get_entry_within(vbr_handle *handle, uint64_t key, vbr_incarnation *at,
                                                                  uint32_t steps) VBR_NOEXCEPT {
    return vbr_stats_counts(handle, vbr_get_entry_within(handle, key, at, steps));
}

VBR_NODISCARD static inline vbr_answer vbr_stats_map_get_entry_within(vbr_map_handle *handle, uint64_t key, vbr_incarnation *at,
                                                                      uint32_t steps) VBR_NOEXCEPT {
    return vbr_stats_map_counts(handle, vbr_map_get_entry_within(handle, key, at, steps));
}

VBR_NODISCARD static inline vbr_answer vbr_stats_remove_entry_within(vbr_handle *handle, uint64_t key, const vbr_incarnation *at,
                                                                     uint32_t steps) VBR_NOEXCEPT {
    return vbr_stats_counts(handle, vbr_remove_entry_within(handle, key, at, steps));
}

VBR_NODISCARD static inline vbr_answer vbr_stats_map_remove_entry_within(vbr_map_handle *handle, uint64_t key,
                                                                         const vbr_incarnation *at, uint32_t steps) VBR_NOEXCEPT {
    return vbr_stats_map_counts(handle, vbr_map_remove_entry_within(handle, key, at, steps));
}

VBR_NODISCARD static inline vbr_answer vbr_stats_next_at_within(vbr_handle *handle, vbr_cursor *cursor, uint64_t *key,
                                                                vbr_incarnation *at, uint32_t steps) VBR_NOEXCEPT {
    return vbr_stats_counts(handle, vbr_next_at_within(handle, cursor, key, at, steps));
}

VBR_NODISCARD static inline vbr_answer vbr_stats_map_next_at_within(vbr_map_handle *handle, vbr_cursor *cursor, uint64_t *key,
                                                                    vbr_incarnation *at, uint32_t steps) VBR_NOEXCEPT {
    return vbr_stats_map_counts(handle, vbr_map_next_at_within(handle, cursor, key, at, steps));
}

#undef vbr_insert_within
#undef vbr_remove_within
#undef vbr_has_within
#undef vbr_has_all_within
#undef vbr_next_within
#undef vbr_map_insert_within
#undef vbr_map_remove_within
#undef vbr_map_get_within
#undef vbr_map_replace_within
#undef vbr_map_put_within
#undef vbr_map_fetch_add_within
#undef vbr_map_get_or_insert_within
#undef vbr_map_compare_exchange_within
#undef vbr_map_remove_if_within
#undef vbr_map_has_within
#undef vbr_map_has_all_within
#undef vbr_map_get_all_within
#undef vbr_map_next_within
#undef vbr_hold_within
#undef vbr_map_hold_within
#undef vbr_insert_held_within
#undef vbr_map_insert_held_within
#undef vbr_map_replace_held_within
#undef vbr_map_put_held_within
#undef vbr_get_entry_within
#undef vbr_map_get_entry_within
#undef vbr_remove_entry_within
#undef vbr_map_remove_entry_within
#undef vbr_next_at_within
#undef vbr_map_next_at_within

#define vbr_insert_within vbr_stats_insert_within
#define vbr_remove_within vbr_stats_remove_within
#define vbr_has_within vbr_stats_has_within
#define vbr_has_all_within vbr_stats_has_all_within
#define vbr_next_within vbr_stats_next_within
#define vbr_map_insert_within vbr_stats_map_insert_within
#define vbr_map_remove_within vbr_stats_map_remove_within
#define vbr_map_get_within vbr_stats_map_get_within
#define vbr_map_replace_within vbr_stats_map_replace_within
#define vbr_map_put_within vbr_stats_map_put_within
#define vbr_map_fetch_add_within vbr_stats_map_fetch_add_within
#define vbr_map_get_or_insert_within vbr_stats_map_get_or_insert_within
#define vbr_map_compare_exchange_within vbr_stats_map_compare_exchange_within
#define vbr_map_remove_if_within vbr_stats_map_remove_if_within
#define vbr_map_has_within vbr_stats_map_has_within
#define vbr_map_has_all_within vbr_stats_map_has_all_within
#define vbr_map_get_all_within vbr_stats_map_get_all_within
#define vbr_map_next_within vbr_stats_map_next_within
#define vbr_hold_within vbr_stats_hold_within
#define vbr_map_hold_within vbr_stats_map_hold_within
#define vbr_insert_held_within vbr_stats_insert_held_within
#define vbr_map_insert_held_within vbr_stats_map_insert_held_within
#define vbr_map_replace_held_within vbr_stats_map_replace_held_within
#define vbr_map_put_held_within vbr_stats_map_put_held_within
#define vbr_get_entry_within vbr_stats_get_entry_within
#define vbr_map_get_entry_within vbr_stats_map_get_entry_within
#define vbr_remove_entry_within vbr_stats_remove_entry_within
#define vbr_map_remove_entry_within vbr_stats_map_remove_entry_within
#define vbr_next_at_within vbr_stats_next_at_within
#define vbr_map_next_at_within vbr_stats_map_next_at_within

#endif
