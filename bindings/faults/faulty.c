/* The library with one fault of its sets, or with -DOF_MAPS of its maps, whose number FAULT names in the environment: what looks
   for faults has to find it. Link with -Wl,--wrap=NAME for each __wrap_NAME of the object.

    1 an insert now and then answers yes for a key that is there
    2 a remove now and then removes nothing, and answers yes; of a map with the value
    3 an insert now and then is lost
    4 a look-up now and then answers no for a key that is there
    5 a report is short of a key
    6 a report has no epoch
    7 a remove answers what a look-up just before it answered: two threads may both remove one key
    8 a call is refused with a budget that is promised to be enough
    9 an opening tests the handles first
   10 a refused opening keeps memory
   11 an opening with several keys leaves out the last one
   12 an insert takes effect only as its thread makes its next call
   13 a remove now and then leaves its node in the list
   14 a walk now and then passes a key by
   15 a walk now and then gives a key twice
   16 a walk gives the key that its call before found, which may be gone by then
   17 a walk that is refused loses the rest of its bucket
   18 a call of a walk that gives no key writes
   19 a look-up now and then begins anew, though nothing moved: it takes twice the steps
   20 a remove now and then begins anew, though nothing moved
   21 an insert now and then begins anew twice, though nothing moved
   22 a `has` now and then answers as the last one of its thread did, if that was of the same key and the thread has neither
      inserted nor removed it since
   23 a report by all handles is short of a key
   24 a renewal loses a key
   25 a balance now and then is one too great
   26 a handle that stands twice in place of all is taken for two
   27 a walk goes on over a renewal
   28 a walk now and then is refused as if the set had been renewed

   One thread alone can't see the seventh and the twelfth, and four threads don't look for the eighth, ninth and tenth. The
   twelfth leaves each thread's own answers right: it shows only where the program orders calls of several. So does the
   twenty-second, of what is inserted and removed. The thirteenth leaves all answers right while there are slots, and the
   nineteenth to twenty-first leave right whatever is answered: they show only in what is refused for want of steps. What can be
   wrong with values alone is in map_faulty.c. */
#include "faulty.h"

#include <sched.h>

/* LOOK_UP tells of a key, and in a map its value too, which GIVE writes; KEY is that of what a walk gives. */
#ifdef OF_MAPS
#define LOOK_UP REAL(get_within)
#define GIVE(to, value) ((to) ? (void)(*(to) = (value)) : (void)0)
#define KEY(item) (item).key
#else
#define LOOK_UP REAL(has_within)
#define GIVE(to, value) ((void)(value))
#define KEY(item) (item)
#endif

/* The insert that this thread has still to make, for the twelfth fault. */
static _Thread_local struct an_insert {
    a_handle *handle;
    uint64_t key WITH(value);
} late;

static void make_late(void) {
    if (!late.handle) return;
    sched_yield(); /* so that others look meanwhile, also where processors are few */
    (void)!REAL(insert_within)(late.handle, late.key WITH(late.value), 1 << 20);
    late.handle = NULL;
}

/* What the last `has` of this thread returned, for the twenty-second fault; of none where it has changed the key since. */
static _Thread_local struct {
    void *of; /* the handle's */
    uint64_t key;
    vbr_answer answer;
    unsigned count; /* how many there were */
} looked;

static int is_looked(const a_handle *handle, uint64_t key) { return looked.of && looked.of == handle->owned && looked.key == key; }

static void forget_look(uint64_t key) {
    if (looked.key == key) looked.of = NULL;
}

vbr_answer WRAP(open)(a_handle *handles, size_t count, uint32_t slots, uint32_t buckets, uint64_t last_epoch) {
    static void *kept;
    for (size_t i = 0; fault() == 9 && i < count; i++) if (handles[i].owned) return VBR_IN_USE;
    vbr_answer answer = REAL(open)(handles, count, slots, buckets, last_epoch);
    if (fault() == 10 && answer == VBR_IN_USE) kept = realloc(kept, 1);
    return answer;
}

vbr_answer WRAP(open_with)(a_handle *handles, size_t count, uint32_t slots, uint32_t buckets, uint64_t last_epoch,
                           const an_item *items, size_t item_count) {
    if (fault() == 11 && item_count > 1) item_count--;
    return REAL(open_with)(handles, count, slots, buckets, last_epoch, items, item_count);
}

vbr_answer WRAP(insert_within)(a_handle *handle, uint64_t key WITH(uint64_t value), uint32_t budget) {
    if (fault() == 8 && budget < 100 && budget >= 8 && handle->owned) return VBR_OUT_OF_STEPS;
    make_late();
    forget_look(key);
    if (fault() == 12 && REAL(has_within)(handle, key, budget) == VBR_NO) {
        late = (struct an_insert){handle, key WITH(value)};
        return VBR_YES;
    }
    vbr_answer answer = REAL(insert_within)(handle, key WITH(value), now(21) ? budget / 3 : budget);
    if (answer == VBR_NO && now(1)) return VBR_YES;
    if (answer == VBR_YES && now(3)) (void)!REAL(remove_within)(handle, key WITH(&(uint64_t){0}), budget);
    return answer;
}

/* Answers what a look-up does, and removes the key if it is there by then. */
static vbr_answer remove_after_look_up(a_handle *handle, uint64_t key WITH(uint64_t *value), uint32_t budget) {
    uint64_t seen = 0;
    vbr_answer answer = LOOK_UP(handle, key WITH(&seen), budget);
    if (now(7)) sched_yield(); /* so that others remove it meanwhile, also where processors are few */
    vbr_answer removed = REAL(remove_within)(handle, key WITH(&(uint64_t){0}), budget);
    if (removed < 0) return removed;
    if (answer == VBR_YES) GIVE(value, seen);
    return answer;
}

vbr_answer WRAP(remove_within)(a_handle *handle, uint64_t key WITH(uint64_t *value), uint32_t budget) {
    make_late();
    forget_look(key);
    if (now(2)) return LOOK_UP(handle, key WITH(value), budget);
    if (now(13)) { /* the least budget that is answered leaves no step to unlink */
        for (uint32_t least = 0; least < budget; least++) {
            vbr_answer answer = REAL(remove_within)(handle, key WITH(value), least);
            if (answer != VBR_OUT_OF_STEPS) return answer;
        }
    }
    if (fault() == 7) return remove_after_look_up(handle, key WITH(value), budget);
    return REAL(remove_within)(handle, key WITH(value), now(20) ? budget / 2 : budget);
}

vbr_answer WRAP(has_within)(a_handle *handle, uint64_t key, uint32_t budget) {
    make_late();
    if (is_looked(handle, key) && now(22)) return looked.answer;
    vbr_answer answer = REAL(has_within)(handle, key, now(19) ? budget / 2 : budget);
    looked.of = answer < 0 ? NULL : handle->owned;
    looked.key = key;
    looked.answer = answer;
    if (fault() == 22 && ++looked.count % 16 == 0) sched_yield(); /* so that others change the key before the next call, also where processors are few */
    return answer == VBR_YES && now(4) ? VBR_NO : answer;
}

#ifdef OF_MAPS
vbr_answer __wrap_vbr_map_get_within(vbr_map_handle *handle, uint64_t key, uint64_t *value, uint32_t budget) {
    uint64_t unasked = 0;
    if (!value) value = &unasked;
    uint64_t old = *value;
    make_late();
    vbr_answer answer = __real_vbr_map_get_within(handle, key, value, now(19) ? budget / 2 : budget);
    return answer == VBR_YES && now(4) ? *value = old, VBR_NO : answer;
}

/* It is an insert, too, for the twelfth fault, and a remove_if is the next call after one. */
vbr_answer __wrap_vbr_map_get_or_insert_within(vbr_map_handle *handle, uint64_t key, uint64_t value, uint64_t *found, uint32_t budget) {
    make_late();
    forget_look(key);
    if (fault() == 12 && REAL(has_within)(handle, key, budget) == VBR_NO) {
        late = (struct an_insert){handle, key, value};
        return VBR_NO;
    }
    return __real_vbr_map_get_or_insert_within(handle, key, value, found, budget);
}

vbr_answer __wrap_vbr_map_remove_if_within(vbr_map_handle *handle, uint64_t key, uint64_t expected, uint64_t *found, uint32_t budget) {
    make_late();
    forget_look(key);
    return __real_vbr_map_remove_if_within(handle, key, expected, found, budget);
}
#endif

/* The key after a place of a walk of this thread, as it was found by the call before, for the sixteenth fault. */
static _Thread_local struct {
    const vbr_cursor *of;
    vbr_cursor place, after;
    an_item item;
} ahead;

static vbr_answer next_found_before(a_handle *handle, vbr_cursor *cursor, an_item *item, uint32_t budget) {
    vbr_answer answer = VBR_YES;
    if (ahead.of == cursor && ahead.place.bucket == cursor->bucket && ahead.place.from == cursor->from) {
        *item = ahead.item, *cursor = ahead.after;
    } else {
        answer = REAL(next_within)(handle, cursor, item, budget);
    }
    ahead.place = ahead.after = *cursor;
    ahead.of = NULL;
    if (answer == VBR_YES && REAL(next_within)(handle, &ahead.after, &ahead.item, budget) == VBR_YES) ahead.of = cursor;
    return answer;
}

vbr_answer WRAP(next_within)(a_handle *handle, vbr_cursor *cursor, an_item *item, uint32_t budget) {
    vbr_cursor before = *cursor;
    an_item old = *item;
    make_late();
    if (fault() == 16) return next_found_before(handle, cursor, item, budget);
    if (now(28)) return VBR_RESHAPED;
    vbr_answer answer = REAL(next_within)(handle, cursor, item, budget);
    if (answer == VBR_RESHAPED && fault() == 27) {
        cursor->opening = handle->opening;
        return REAL(next_within)(handle, cursor, item, budget);
    }
    if (answer == VBR_YES && now(14)) {
        *item = old;
        return REAL(next_within)(handle, cursor, item, budget);
    }
    if (answer == VBR_YES && now(15)) *cursor = before;
    if (answer == VBR_OUT_OF_STEPS && fault() == 17) cursor->bucket++, cursor->from = 0;
    if (answer != VBR_YES && fault() == 18) KEY(*item) = 1;
    return answer;
}

vbr_answer WRAP(close)(a_handle *handle, an_item *items, size_t room, vbr_report *report) {
    make_late();
    vbr_answer answer = REAL(close)(handle, items, room, report);
    if (answer == VBR_YES && fault() == 5 && report->live > 0) report->live--, report->free++;
    if (answer == VBR_YES && fault() == 6) report->epoch = 0;
    return answer;
}

/* Whether the first of the handles comes again, for the twenty-sixth fault. */
static int is_taken_twice(const a_handle *handles, size_t count) {
    for (size_t i = 1; fault() == 26 && i < count; i++) if (handles[i].owned == handles[0].owned) return 1;
    return 0;
}

vbr_answer WRAP(report_all)(a_handle *handles, size_t count, an_item *items, size_t room, vbr_report *report) {
    make_late();
    if (is_taken_twice(handles, count)) return VBR_YES;
    vbr_answer answer = REAL(report_all)(handles, count, items, room, report);
    if (answer == VBR_YES && fault() == 23 && report->live > 0) report->live--, report->free++;
    return answer;
}

vbr_answer WRAP(renew_all)(a_handle *handles, size_t count, uint32_t slots, uint32_t buckets, uint64_t last_epoch) {
    vbr_cursor cursor = VBR_CURSOR_BEGIN;
    an_item first;
    make_late();
    if (is_taken_twice(handles, count)) return VBR_OK;
    vbr_answer answer = REAL(renew_all)(handles, count, slots, buckets, last_epoch);
    if (answer == VBR_OK && fault() == 24 && REAL(next_within)(&handles[0], &cursor, &first, UINT32_MAX) == VBR_YES)
        (void)!REAL(remove_within)(&handles[0], KEY(first) WITH(&(uint64_t){0}), UINT32_MAX);
    return answer;
}

int64_t WRAP(balance)(const a_handle *handle) {
    make_late();
    return REAL(balance)(handle) + now(25);
}
