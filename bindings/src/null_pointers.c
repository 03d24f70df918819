/* The calls for which a pointer may be null. The proved exports are of a pointer that is there; in the archive they have the names
   close_handle, drop_handle, map_close_handle, map_drop_handle, map_get_found, map_replace_found and so on, and these stand before them.

   - A handle that is given up: vbr_close answers as for an empty handle, and vbr_drop does nothing, as free does. The same holds for
     vbr_map_close and vbr_map_drop.
   - Where a call writes a value or what was there: a program that doesn't ask for it passes null.
   - Keys and answers, if no key is looked up.

   Some proved exports also get a number that the interface has once. A look-up of several keys (has_all_keys, map_has_all_keys,
   map_get_all_keys) gets how many answers there are: as many as keys. A report with slots (report_keys_slots,
   map_report_entries_slots) gets how much room the slots have: as much as the keys or entries.

   Handles that are ended (end_handles, map_end_handles) may have copies among them: what a handle and its copies own is ended once.
   The calls of all handles see by its pass that a handle stands twice, and refuse it; an end has no answer, and its handles may be
   of several sets.

   It includes nothing, so that the kit's compiler makes the same bytes of it on every machine. */
enum { VBR_NO_HANDLE = -4 }; /* of vbr.h */

typedef unsigned long word;

/* A handle as vbr.h has it. */
typedef struct handle {
    void *owned;
    unsigned steps, in_call, opening;
} handle;

static void swap_owned(handle *one, handle *other)
{
    void *owned = one->owned;
    one->owned = other->owned;
    other->owned = owned;
}

/* Of a heap, whose greatest is at the front: what stands here goes down to its place. */
static void sink(handle *handles, word at, word count)
{
    for (word below; (below = 2 * at + 1) < count; at = below) {
        if (below + 1 < count && (word)handles[below].owned < (word)handles[below + 1].owned) below++;
        if ((word)handles[at].owned >= (word)handles[below].owned) return;
        swap_owned(&handles[at], &handles[below]);
    }
}

/* Puts what handles own in order, unless it is, and empties all but one of those that own the same. The handles are ended next, and
   then nobody sees which of them owned what. */
static void keep_once(handle *handles, word count)
{
    word next = 1;
    while (next < count && (word)handles[next - 1].owned < (word)handles[next].owned) next++;
    if (next >= count) return;
    for (word at = count / 2; at > 0;) sink(handles, --at, count);
    for (word end = count - 1; end > 0; end--) {
        swap_owned(&handles[0], &handles[end]);
        sink(handles, 0, end);
    }
    for (next = 1; next < count; next++)
        if (handles[next].owned == handles[next - 1].owned) handles[next - 1].owned = 0;
}

/* What follows is made of bindings/interface/vbr.h.in by tools/interface. */

void has_all_keys(void *handle, const word *keys, word count, int *answers, word answer_count, unsigned steps);
void vbr_has_all_within(void *handle, const word *keys, word count, int *answers, unsigned steps);
int close_handle(void *handle, word *keys, word room, void *report);
int vbr_close(void *handle, word *keys, word room, void *report);
void drop_handle(void *handle);
void vbr_drop(void *handle);
void end_handles(void *handles, word count);
void vbr_end_all(void *handles, word count);
int map_remove_found(void *handle, word key, word *value, unsigned steps);
int vbr_map_remove_within(void *handle, word key, word *value, unsigned steps);
int map_get_found(void *handle, word key, word *value, unsigned steps);
int vbr_map_get_within(void *handle, word key, word *value, unsigned steps);
int map_replace_found(void *handle, word key, word value, word *there, unsigned steps);
int vbr_map_replace_within(void *handle, word key, word value, word *there, unsigned steps);
int map_put_found(void *handle, word key, word value, word *there, unsigned steps);
int vbr_map_put_within(void *handle, word key, word value, word *there, unsigned steps);
int map_fetch_add_found(void *handle, word key, word delta, word *there, unsigned steps);
int vbr_map_fetch_add_within(void *handle, word key, word delta, word *there, unsigned steps);
int map_get_or_insert_found(void *handle, word key, word value, word *there, unsigned steps);
int vbr_map_get_or_insert_within(void *handle, word key, word value, word *there, unsigned steps);
int map_compare_exchange_found(void *handle, word key, word expected, word value, word *there, unsigned steps);
int vbr_map_compare_exchange_within(void *handle, word key, word expected, word value, word *there, unsigned steps);
int map_remove_if_found(void *handle, word key, word expected, word *there, unsigned steps);
int vbr_map_remove_if_within(void *handle, word key, word expected, word *there, unsigned steps);
void map_has_all_keys(void *handle, const word *keys, word count, int *answers, word answer_count, unsigned steps);
void vbr_map_has_all_within(void *handle, const word *keys, word count, int *answers, unsigned steps);
void map_get_all_keys(void *handle, const word *keys, word count, void *found, word found_count, unsigned steps);
void vbr_map_get_all_within(void *handle, const word *keys, word count, void *found, unsigned steps);
int map_close_handle(void *handle, void *entries, word room, void *report);
int vbr_map_close(void *handle, void *entries, word room, void *report);
void map_drop_handle(void *handle);
void vbr_map_drop(void *handle);
void map_end_handles(void *handles, word count);
void vbr_map_end_all(void *handles, word count);
int map_put_held_found(void *handle, word key, word value, word *there, unsigned steps);
int vbr_map_put_held_within(void *handle, word key, word value, word *there, unsigned steps);
int report_keys_slots(void *handles, word count, word *keys, word room, unsigned *slots, word slot_room, void *report);
int vbr_report_slots(void *handles, word count, word *keys, unsigned *slots, word room, void *report);
int map_report_entries_slots(void *handles, word count, void *entries, word room, unsigned *slots, word slot_room, void *report);
int vbr_map_report_slots(void *handles, word count, void *entries, unsigned *slots, word room, void *report);

void vbr_has_all_within(void *handle, const word *keys, word count, int *answers, unsigned steps)
{
    if (count) has_all_keys(handle, keys, count, answers, count, steps);
}

int vbr_close(void *handle, word *keys, word room, void *report)
{
    return handle ? close_handle(handle, keys, room, report) : VBR_NO_HANDLE;
}

void vbr_drop(void *handle)
{
    if (handle) drop_handle(handle);
}

void vbr_end_all(void *handles, word count)
{
    keep_once(handles, count);
    end_handles(handles, count);
}

int vbr_map_remove_within(void *handle, word key, word *value, unsigned steps)
{
    if (value) return map_remove_found(handle, key, value, steps);
    return map_remove_found(handle, key, &(word){0}, steps);
}

int vbr_map_get_within(void *handle, word key, word *value, unsigned steps)
{
    if (value) return map_get_found(handle, key, value, steps);
    return map_get_found(handle, key, &(word){0}, steps);
}

int vbr_map_replace_within(void *handle, word key, word value, word *there, unsigned steps)
{
    return map_replace_found(handle, key, value, there ? there : &(word){0}, steps);
}

int vbr_map_put_within(void *handle, word key, word value, word *there, unsigned steps)
{
    return map_put_found(handle, key, value, there ? there : &(word){0}, steps);
}

int vbr_map_fetch_add_within(void *handle, word key, word delta, word *there, unsigned steps)
{
    return map_fetch_add_found(handle, key, delta, there ? there : &(word){0}, steps);
}

int vbr_map_get_or_insert_within(void *handle, word key, word value, word *there, unsigned steps)
{
    return map_get_or_insert_found(handle, key, value, there ? there : &(word){0}, steps);
}

int vbr_map_compare_exchange_within(void *handle, word key, word expected, word value, word *there, unsigned steps)
{
    return map_compare_exchange_found(handle, key, expected, value, there ? there : &(word){0}, steps);
}

int vbr_map_remove_if_within(void *handle, word key, word expected, word *there, unsigned steps)
{
    return map_remove_if_found(handle, key, expected, there ? there : &(word){0}, steps);
}

void vbr_map_has_all_within(void *handle, const word *keys, word count, int *answers, unsigned steps)
{
    if (count) map_has_all_keys(handle, keys, count, answers, count, steps);
}

void vbr_map_get_all_within(void *handle, const word *keys, word count, void *found, unsigned steps)
{
    if (count) map_get_all_keys(handle, keys, count, found, count, steps);
}

int vbr_map_close(void *handle, void *entries, word room, void *report)
{
    return handle ? map_close_handle(handle, entries, room, report) : VBR_NO_HANDLE;
}

void vbr_map_drop(void *handle)
{
    if (handle) map_drop_handle(handle);
}

void vbr_map_end_all(void *handles, word count)
{
    keep_once(handles, count);
    map_end_handles(handles, count);
}

int vbr_map_put_held_within(void *handle, word key, word value, word *there, unsigned steps)
{
    return map_put_held_found(handle, key, value, there ? there : &(word){0}, steps);
}

int vbr_report_slots(void *handles, word count, word *keys, unsigned *slots, word room, void *report)
{
    return report_keys_slots(handles, count, keys, room, slots, room, report);
}

int vbr_map_report_slots(void *handles, word count, void *entries, unsigned *slots, word room, void *report)
{
    return map_report_entries_slots(handles, count, entries, room, slots, room, report);
}
