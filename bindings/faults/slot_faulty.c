/* The library with one fault of what stands in slots of sets, or with -DOF_MAPS of maps, whose number FAULT names in the environment:
   slot_calls has to find those of sets, and slot_records those of maps. Link with -Wl,--wrap=NAME for each __wrap_NAME of the object.

    1 the question whether a slot is an entry's own still is answered yes, whatever stands there
    2 a replacement by a slot in hand takes the place of whatever entry is there
    3 a remove of one entry takes out whatever entry is there
    4 a replacement by a slot in hand now and then is lost: it is answered yes, and the slot is put back
    5 a hold now and then gives the number of a slot that an entry stands in
    6 a look-up now and then names the entry that the one before it of its thread found
    7 a walk now and then names the entry that its call before found
    8 a report tells the slots of two entries the other way round

   The second and the fourth are of maps alone. */
#include "faulty.h"

#include <sched.h>

/* What this thread found last, by a look-up and by a walk. */
static _Thread_local vbr_incarnation found, walked;

/* Gives what was found before in place of this, if it is so now and there was one; else keeps this. */
static void gives_one_before(int number, vbr_incarnation *at, vbr_incarnation *before) {
    if (before->birth && now(number)) *at = *before;
    else *before = *at;
}

vbr_answer WRAP(is_still)(a_handle *handle, const vbr_incarnation *at) {
    vbr_answer told = REAL(is_still)(handle, at);
    return told == VBR_NO && fault() == 1 ? VBR_YES : told;
}

#ifdef OF_MAPS
vbr_answer WRAP(replace_held_within)(a_handle *handle, uint64_t key, const vbr_incarnation *at, uint64_t value, uint32_t steps) {
    if (now(4)) return CALL(let_go)(handle);
    vbr_answer told = REAL(replace_held_within)(handle, key, at, value, steps);
    if (told != VBR_NO || fault() != 2 || CALL(has_within)(handle, key, steps) != VBR_YES) return told;
    return CALL(put_held_within)(handle, key, value, NULL, steps) >= 0 ? VBR_YES : VBR_OUT_OF_STEPS;
}
#endif

vbr_answer WRAP(remove_entry_within)(a_handle *handle, uint64_t key, const vbr_incarnation *at, uint32_t steps) {
    if (now(3)) sched_yield(); /* so that others change the entry more often */
    vbr_answer told = REAL(remove_entry_within)(handle, key, at, steps);
    return told == VBR_NO && fault() == 3 ? CALL(remove_within)(handle, key WITH(NULL), steps) : told;
}

vbr_answer WRAP(hold_within)(a_handle *handle, uint32_t *slot, uint32_t steps) {
    vbr_answer told = REAL(hold_within)(handle, slot, steps);
    if (told == VBR_YES && found.birth && now(5)) *slot = found.slot;
    return told;
}

vbr_answer WRAP(get_entry_within)(a_handle *handle, uint64_t key, vbr_incarnation *at, uint32_t steps) {
    vbr_answer told = REAL(get_entry_within)(handle, key, at, steps);
    if (told == VBR_YES) gives_one_before(6, at, &found);
    if (now(1)) sched_yield(); /* so that the slot is handed out anew more often */
    return told;
}

vbr_answer WRAP(next_at_within)(a_handle *handle, vbr_cursor *cursor, uint64_t *key, vbr_incarnation *at, uint32_t steps) {
    vbr_answer told = REAL(next_at_within)(handle, cursor, key, at, steps);
    if (told == VBR_YES) gives_one_before(7, at, &walked);
    return told;
}

vbr_answer WRAP(report_slots)(a_handle *handles, size_t count, an_item *items, uint32_t *slots, size_t room, vbr_report *report) {
    vbr_answer told = REAL(report_slots)(handles, count, items, slots, room, report);
    if (told == VBR_YES && report->live > 1 && fault() == 8) {
        uint32_t first = slots[0];
        slots[0] = slots[1], slots[1] = first;
    }
    return told;
}
