/* Sets and maps that processes share. Any of the processes may be killed or stopped, at any moment, and the others go on, in the same time
   and with right answers. A process opens a set, and forks. Each makes calls by a handle of its own, and the handle of a dead one goes to
   another.

       vbr_shared_handle *handle;
       if (vbr_open_shared(&handle, 3, 1024 + 3 * 64 + 4 * 66, 1024, VBR_MAX_EPOCH, NULL, 0) != VBR_OK) return 1;

       pid_t child = fork();
       if (child == 0) {
           vbr_begin(&handle[1]);                            // a call is under way from here
           vbr_answer added = vbr_insert(&handle[1].set, 5);
           vbr_end(&handle[1]);                              // to here
           _exit(added < 0);
       }
       waitpid(child, NULL, 0);                              // it has ended, or was killed
       vbr_answer told = vbr_inherit(&handle[1]);            // VBR_YES: handle[1] is whole, for the next child

   All that the library keeps for a set lies in one mapping, at one address in all these processes: its words, what its handles own,
   and the handles. A call in which a process dies was made, or it wasn't. The calls on keys, which are those of vbr.h, are proved.
   The others are tested, and why the processes go on is argued. vbr(3) says who does what, and what isn't mended.

   At most one process, and one thread of it, uses a handle at a time. A process that isn't forked from one that has the mapping can't use
   it. The memory is freed with the last process that has it. A process that is killed while it opens, reports on, renews, closes or
   unmaps a set may leave it torn, and one that writes to memory that isn't its own may write to the set.

   It is written for GCC and Clang under Linux, in C99 to C23 and C++11 to C++23. */
#ifndef VBR_SHARED_H
#define VBR_SHARED_H

#include "vbr.h"

#ifdef __cplusplus
extern "C" {
#endif

#ifdef __GNUC__
#define VBR_NONNULL_SECOND __attribute__((nonnull(2)))
#else
#define VBR_NONNULL_SECOND
#endif

/* A handle as it lies in the mapping. Its `set`, or its `map`, is for the calls of vbr.h, and `both` has the fields of either. It has 128
   bytes, so that no two share a line of the cache, since its mark is stored with each call.

       vbr_shared_handle *handle; // the first of the array that an opening gives
       handle[0].set.steps = 5000; // a budget, as of any handle */
typedef union vbr_shared_handle {
    vbr_handle set;
    vbr_map_handle map;
    struct {
        void *owned;
        uint32_t steps, in_call, opening;
    } both;
    unsigned char lines[128];
} vbr_shared_handle;

/* Opens a set in memory that this process shares with those that are forked from now on.
   Parameters: slots, buckets, last_epoch.
   - handles: where the address of the array of handles is written, after VBR_OK alone. It lies in that memory.
   - count: how many handles, from 1 to VBR_MAX_MANY_HANDLES.
   - keys, key_count: as of vbr_open_with. With a number of 0 `keys` may be null.
   Returns:
   - VBR_OK: it is open.
   - VBR_BAD_SHAPE, VBR_BAD_COUNT, VBR_BAD_KEYS, VBR_NO_MEMORY.
   Leaves: what vbr_open_many leaves.
   Notes: Besides the slots that a set needs, count 66 for each process that may die in a call between two renewals.

   It maps vbr_shared_size bytes, of which the system gives pages as they are touched. If it has none left by then, it ends the
   process by a signal, and no call says that there is no memory.

       uint32_t slots = 1024 + 3 * 64 + 4 * 66; // keys, handles, and deaths in a call
       if (vbr_open_shared(&handle, 3, slots, 1024, VBR_MAX_EPOCH, opening, 2) != VBR_OK) return 1; */
VBR_NODISCARD vbr_answer vbr_open_shared(vbr_shared_handle **handles, size_t count, uint32_t slots, uint32_t buckets,
                                         uint64_t last_epoch, const uint64_t *keys, size_t key_count) VBR_NOEXCEPT VBR_NONNULL_FIRST;

/* Opens a map in memory that this process shares with those that are forked from now on.
   Parameters: slots, buckets, last_epoch.
   - handles: where the address of the array of handles is written, after VBR_OK alone. It lies in that memory.
   - count: how many handles, from 1 to VBR_MAX_MANY_HANDLES.
   - entries, entry_count: as of vbr_map_open_with. With a number of 0 `entries` may be null.
   Returns:
   - VBR_OK: it is open.
   - VBR_BAD_SHAPE, VBR_BAD_COUNT, VBR_BAD_KEYS, VBR_NO_MEMORY.
   Leaves: what vbr_map_open_many leaves.
   Notes: Besides the slots that a map needs, count 66 for each process that may die in a call between two renewals.

   It maps vbr_shared_size bytes, of which the system gives pages as they are touched. If it has none left by then, it ends the
   process by a signal, and no call says that there is no memory.

       if (vbr_map_open_shared(&handle, 3, 10 + 3 * 64 + 66, 16, VBR_MAX_EPOCH, NULL, 0) != VBR_OK) return 1; */
VBR_NODISCARD vbr_answer vbr_map_open_shared(vbr_shared_handle **handles, size_t count, uint32_t slots, uint32_t buckets,
                                             uint64_t last_epoch, const vbr_entry *entries,
                                             size_t entry_count) VBR_NOEXCEPT VBR_NONNULL_FIRST;

/* Opens a set in a file, as vbr_open_shared does otherwise.
   Parameters:
   - file: open for reading and writing, with vbr_shared_size bytes or more: one of memfd_create, to be looked at by its name, or of a
     tmpfs with large pages. It may be closed afterwards. While a process has the set, nobody makes it shorter: whoever touches what was
     cut off is ended by a signal. A memfd keeps its length by F_SEAL_SHRINK.
   - handles, count, slots, buckets, last_epoch, keys, key_count: as of vbr_open_shared.
   Returns:
   - VBR_OK: it is open.
   - VBR_BAD_SHAPE, VBR_BAD_COUNT, VBR_BAD_KEYS.
   - VBR_NO_ROOM: the file is shorter.
   - VBR_NO_MEMORY: the file can't be mapped, and nothing was written to it; or the process had no memory to note that it was mapped.
   Leaves: what vbr_open_shared leaves. What was in the file is lost once it is mapped.

       if (vbr_open_shared_in(file, &handle, 2, 1024, 64, 12345, NULL, 0) != VBR_OK) return 1; */
VBR_NODISCARD vbr_answer vbr_open_shared_in(int file, vbr_shared_handle **handles, size_t count, uint32_t slots, uint32_t buckets,
                                            uint64_t last_epoch, const uint64_t *keys,
                                            size_t key_count) VBR_NOEXCEPT VBR_NONNULL_SECOND;

/* Opens a map in a file, as vbr_map_open_shared does otherwise.
   Parameters:
   - file: open for reading and writing, with vbr_shared_size bytes or more: one of memfd_create, to be looked at by its name, or of a
     tmpfs with large pages. It may be closed afterwards. While a process has the map, nobody makes it shorter: whoever touches what was
     cut off is ended by a signal. A memfd keeps its length by F_SEAL_SHRINK.
   - handles, count, slots, buckets, last_epoch, entries, entry_count: as of vbr_map_open_shared.
   Returns:
   - VBR_OK: it is open.
   - VBR_BAD_SHAPE, VBR_BAD_COUNT, VBR_BAD_KEYS.
   - VBR_NO_ROOM: the file is shorter.
   - VBR_NO_MEMORY: the file can't be mapped, and nothing was written to it; or the process had no memory to note that it was mapped.
   Leaves: what vbr_map_open_shared leaves. What was in the file is lost once it is mapped.

       if (vbr_map_open_shared_in(file, &handle, 2, 1024, 64, 12345, NULL, 0) != VBR_OK) return 1; */
VBR_NODISCARD vbr_answer vbr_map_open_shared_in(int file, vbr_shared_handle **handles, size_t count, uint32_t slots, uint32_t buckets,
                                                uint64_t last_epoch, const vbr_entry *entries,
                                                size_t entry_count) VBR_NOEXCEPT VBR_NONNULL_SECOND;

/* Returns how many bytes the mapping of a set or a map of this shape has.
   Parameters: slots, buckets.
   - count: how many handles it has.
   Returns: that number: enough to renew it in this shape while it is full. Pages that aren't touched take no memory.
   Leaves: all as it was.

       if (ftruncate(file, (off_t)vbr_shared_size(2, 1024, 64)) != 0) return 1; */
VBR_NODISCARD size_t vbr_shared_size(size_t count, uint32_t slots, uint32_t buckets) VBR_NOEXCEPT;

/* Sets the mark of a handle, before a call by it or before several.
   Parameters:
   - handle: one that no other process or thread uses.
   Returns: nothing.
   Leaves: the mark set, by which vbr_inherit knows that a process died in a call. It is one store into the handle.
   Notes: If it is left out, vbr_inherit takes a half-written handle for a whole one.

       vbr_begin(&handle[1]); // a call is under way from here, or several */
static inline void vbr_begin(vbr_shared_handle *handle) VBR_NOEXCEPT {
    __atomic_store_n(&handle->both.in_call, 1, __ATOMIC_RELAXED);
    __atomic_signal_fence(__ATOMIC_SEQ_CST);
}

/* Clears the mark of a handle, after the call, or the last of several.
   Parameters:
   - handle: as of vbr_begin.
   Returns: nothing.
   Leaves: the mark cleared, by one store too.

       vbr_end(&handle[1]); // to here */
static inline void vbr_end(vbr_shared_handle *handle) VBR_NOEXCEPT {
    __atomic_signal_fence(__ATOMIC_SEQ_CST);
    __atomic_store_n(&handle->both.in_call, 0, __ATOMIC_RELAXED);
}

/* Takes over the handle of a process that is dead, as waitpid has reported.
   Parameters:
   - handle: that of the dead process. Any process that has the mapping may do it. All others may be in calls meanwhile.
   Returns:
   - VBR_YES: no call was under way, and the handle is as the last call left it, with its slots.
   - VBR_NO: a call was under way, which was made or it wasn't.
   - VBR_NO_HANDLE: it is empty, or belongs to no mapping that this process has.
   Leaves: after VBR_NO the handle without its mark and the slots that it kept. Up to 66 slots are lost until the next renewal.

       vbr_answer inherited = vbr_inherit(&handle[1]); // VBR_YES: it is whole; VBR_NO: its slots are lost for now */
VBR_NODISCARD vbr_answer vbr_inherit(vbr_shared_handle *handle) VBR_NOEXCEPT VBR_NONNULL;

/* Lets all handles go on over a fresh set of this shape with the keys that are there, or over a fresh map, as vbr_renew_all does.
   Parameters: slots, buckets, last_epoch.
   - handles: the array that an opening gave. Any process may do it, while no process is between vbr_begin and vbr_end, nor in a call
     without them.
   Returns:
   - VBR_OK: it is renewed.
   - VBR_BAD_SHAPE.
   - VBR_NO_HANDLE: a handle is empty, or this process hasn't the mapping.
   - VBR_NO_ROOM: there are more keys than slots.
   - VBR_NO_MEMORY: the mapping has no room for the fresh set.
   Leaves: what vbr_renew_all leaves. All go on with the handles that they have, and the slots that dead processes lost are won back.
   Notes: Once all handles are found full, those whose process died in a call are inherited, whatever the answer is then.

       vbr_answer renewed = vbr_renew_shared(handle, 10 + 3 * 64 + 66, 16, VBR_MAX_EPOCH); // VBR_OK: no slot is lost any more */
VBR_NODISCARD vbr_answer vbr_renew_shared(vbr_shared_handle *handles, uint32_t slots, uint32_t buckets,
                                          uint64_t last_epoch) VBR_NOEXCEPT VBR_NONNULL;

/* Moves the handles of a set side by side, for the calls that take all of them.
   Parameters:
   - handles: the array that an opening gave.
   Returns: these handles, as many as were opened, in their order; or a null pointer if the array isn't that of a set which this process
   has.
   Leaves: those of the array empty. From this call until vbr_spread no process may make a call by the array.
   Notes: Reports, closes and ends take these handles. For renewals use vbr_renew_shared: vbr_renew_all wants each of them whole.

       vbr_end_all(vbr_gather(handle), 2); // all are given up, and the set is gone */
VBR_NODISCARD vbr_handle *vbr_gather(vbr_shared_handle *handles) VBR_NOEXCEPT VBR_NONNULL;

/* Moves the handles of a map side by side, for the calls that take all of them.
   Parameters:
   - handles: the array that an opening gave.
   Returns: these handles, as many as were opened, in their order; or a null pointer if the array isn't that of a map which this process
   has.
   Leaves: those of the array empty. From this call until vbr_spread no process may make a call by the array.
   Notes: Reports, closes and ends take these handles. For renewals use vbr_renew_shared: vbr_map_renew_all wants each of them whole.

       vbr_answer reported = vbr_map_report_all(vbr_map_gather(handle), 3, entries, 8, &report); // the handles stay gathered */
VBR_NODISCARD vbr_map_handle *vbr_map_gather(vbr_shared_handle *handles) VBR_NOEXCEPT VBR_NONNULL;

/* Moves the handles back into the array, as far as they are still open.
   Parameters:
   - handles: as of vbr_gather.
   Returns: nothing.
   Leaves: none side by side. It does nothing if this process hasn't the mapping.

       vbr_spread(handle); // and they go on where they were */
void vbr_spread(vbr_shared_handle *handles) VBR_NOEXCEPT VBR_NONNULL;

/* Takes the mapping out of this process, with handles and all.
   Parameters:
   - handles: the array that an opening gave. No thread of this process may be in a call.
   Returns: nothing.
   Leaves: the other processes with theirs. With the last one the memory is freed. It does nothing if this process hasn't the mapping.

       vbr_unmap_shared(handle); // and handle isn't used any more */
void vbr_unmap_shared(vbr_shared_handle *handles) VBR_NOEXCEPT VBR_NONNULL;

#undef VBR_NONNULL_SECOND

#ifdef __cplusplus
}
#endif
#endif
