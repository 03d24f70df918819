/* The library with one fault in what processes share, whose number FAULT names in the environment: what looks for faults has to find
   it. Link with -Wl,--wrap=NAME for each __wrap_NAME of the object.

    1 an inherit leaves the mark of a process that died in a call, and nobody clears it
    2 an inherit after a death in a call gives the handle the pool that it had at the opening, or at the last renewal
    3 an inherit after a death in a call lets the handle go on as it is, half written
    4 an inherit after a death in a call says that there was none
    5 an inherit after a death between two calls gives up the slots of the handle
    6 a renewal answers that it is done, and does nothing
    7 an opening in a file that is too short makes it longer
    8 an opening in a file writes to it before it looks how long it is

   The third leaves most slots where they are: it is wrong at the few instructions that move the pool of a handle. */
#define _GNU_SOURCE
#include "faulty.h"

#include <string.h>
#include <sys/types.h>
#include <unistd.h>

/* The handles of the last map that was opened; and what they own, as it was then or at the last renewal, for the second fault. A block of a
   mapping has its size before it. */
enum { MOST = 64, LINE = 64, BOX = 2048 };
static vbr_shared_handle *first;
static size_t handle_count;
static unsigned char boxes[MOST][BOX];

static size_t size_of_box(const vbr_shared_handle *handle) {
    size_t size;
    memcpy(&size, (const unsigned char *)handle->both.owned - LINE, sizeof size);
    return size <= BOX ? size : 0;
}

static void keep_boxes(vbr_shared_handle *handles, size_t count) {
    first = handles, handle_count = count <= MOST ? count : MOST;
    for (size_t i = 0; i < handle_count; i++) memcpy(boxes[i], handles[i].both.owned, size_of_box(&handles[i]));
}

static int is_of_map(const vbr_shared_handle *handle) { return first && handle >= first && handle < first + handle_count; }

/* As if it had died in a call. */
static void forget_slots(vbr_shared_handle *handle) {
    handle->both.in_call = 1;
    (void)!__real_vbr_inherit(handle);
}

static void put_back_box(vbr_shared_handle *handle) { memcpy(handle->both.owned, boxes[handle - first], size_of_box(handle)); }

vbr_answer __wrap_vbr_map_open_shared(vbr_shared_handle **handles, size_t count, uint32_t slots, uint32_t buckets, uint64_t last_epoch,
                                      const vbr_entry *entries, size_t entry_count) {
    vbr_answer answer = __real_vbr_map_open_shared(handles, count, slots, buckets, last_epoch, entries, entry_count);
    if (answer == VBR_OK) keep_boxes(*handles, count);
    return answer;
}

vbr_answer __wrap_vbr_open_shared_in(int file, vbr_shared_handle **handles, size_t count, uint32_t slots, uint32_t buckets, uint64_t last_epoch,
                                     const uint64_t *keys, size_t key_count) {
    if (fault() == 7) (void)!ftruncate(file, (off_t)vbr_shared_size(count, slots, buckets));
    if (fault() == 8) (void)!pwrite(file, &(uint64_t){0}, sizeof(uint64_t), 0);
    return __real_vbr_open_shared_in(file, handles, count, slots, buckets, last_epoch, keys, key_count);
}

vbr_answer __wrap_vbr_inherit(vbr_shared_handle *handle) {
    if (!is_of_map(handle)) return __real_vbr_inherit(handle);
    uint32_t mark = handle->both.in_call;
    if (fault() == 3 || fault() == 4) handle->both.in_call = 0;
    vbr_answer answer = __real_vbr_inherit(handle);
    if (answer == VBR_YES && !mark && fault() == 5) forget_slots(handle);
    if (answer < 0 || !mark) return answer;
    if (fault() == 1) handle->both.in_call = mark;
    if (fault() == 2) put_back_box(handle);
    return fault() == 4 ? VBR_YES : VBR_NO;
}

vbr_answer __wrap_vbr_renew_shared(vbr_shared_handle *handles, uint32_t slots, uint32_t buckets, uint64_t last_epoch) {
    if (fault() == 6) return VBR_OK;
    vbr_answer answer = __real_vbr_renew_shared(handles, slots, buckets, last_epoch);
    if (answer == VBR_OK && fault() == 2 && handles == first) keep_boxes(handles, handle_count);
    return answer;
}
