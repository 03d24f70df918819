/* Records beside the entries of a set or a map, one for each slot: for values of any size, in fixed memory.

       struct account { char owner[32]; uint64_t balance; };
       static vbr_records accounts;
       if (vbr_records_open(&accounts, vbr_map_slots(&map[0]), sizeof(struct account), NULL) != VBR_OK) return 1;

       if (vbr_map_hold(&map[0], &slot) != VBR_YES) return 1;   // the slot is this handle's alone
       vbr_records_write(&accounts, slot, &mine);               // and so is its record
       vbr_answer added = vbr_map_insert_held(&map[0], 5, 0);   // VBR_YES: both are those of key 5

       vbr_answer there = vbr_map_records_read(&map[1], &accounts, 5, &seen, &at); // VBR_YES: seen is that record, whole

   A record is written while its slot is held, and then never again, so an entry has one record for as long as it is there. To change the
   record of a key, hold another slot, write the whole record there, and put that slot in place of the entry that was read, by
   vbr_map_replace_held. The old record stays as it is for those who still read it. Nobody frees it: it goes where its slot goes.

   A reader copies a record, and then asks whether the slot is still the entry's own. If it isn't, it finds the key again. So it holds
   nobody up, takes no memory, and begins anew only if others took the entry out, or changed it, while it copied. Which record belongs to
   which entry is proved for the calls of vbr.h; that copies are whole is argued, and tested.

   The words of records are atomic: a writer stores each with release, and a reader loads each with acquire. That costs nothing on x86-64.
   Fences would do too, but ThreadSanitizer doesn't know them. What the first comment of vbr.h says of calls holds of these. It is written
   for GCC and Clang, in C99 to C23 and C++11 to C++23.

   Parameters:
   - records: open ones, of the set or the map whose slots or handles are given. */
#ifndef VBR_RECORDS_H
#define VBR_RECORDS_H

#include "vbr.h"

#include <stdlib.h>
#include <string.h>

#ifdef __cplusplus
#define VBR_RECORDS_AS(type, pointer) static_cast<type>(pointer)
#else
#define VBR_RECORDS_AS(type, pointer) ((type)(pointer))
#endif

/* A record for each slot of a set or a map. All zero: none. Many threads may use it at a time. While one thread opens, moves, closes
   or renews it, no other uses it.

       static vbr_records accounts; */
typedef struct vbr_records {
    uint64_t *words;
    size_t bytes;   /* of each record */
    size_t each;    /* how many words that is */
    uint32_t slots; /* how many records */
    uint32_t is_given;
} vbr_records;

/* Returns how many bytes the records of so many slots take.
   Parameters: slots.
   - bytes: how many each record has.
   Returns: that number, in whole words of 8 bytes for each record; SIZE_MAX if no block is so large.
   Leaves: all as it was.

       size_t size = vbr_records_size(vbr_map_slots(&map[0]), sizeof(struct account)); */
VBR_NODISCARD static inline size_t vbr_records_size(uint32_t slots, size_t bytes) VBR_NOEXCEPT {
    size_t each = bytes / 8 + (bytes % 8 != 0);
    return slots && each > SIZE_MAX / 8 / slots ? SIZE_MAX : 8 * each * slots;
}

/* Opens records, one for each slot of a set or a map.
   Parameters:
   - records: all zero.
   - slots, bytes: as of vbr_records_size.
   - block: null, and the memory is taken by calloc; or vbr_records_size bytes, which are zero, and aligned as words of 64 bits are. These
     stay the program's, so records may lie in memory that processes share.
   Returns:
   - VBR_OK: they are open.
   - VBR_IN_USE.
   - VBR_BAD_SHAPE: slots or bytes is 0.
   - VBR_NO_MEMORY.
   Leaves: the records, of zeros.

       if (vbr_records_open(&accounts, vbr_map_slots(&map[0]), sizeof(struct account), NULL) != VBR_OK) return 1; */
VBR_NODISCARD static inline vbr_answer vbr_records_open(vbr_records *records, uint32_t slots, size_t bytes, void *block) VBR_NOEXCEPT {
    size_t size = vbr_records_size(slots, bytes);
    if (records->words) return VBR_IN_USE;
    if (!slots || !bytes) return VBR_BAD_SHAPE;
    void *words = block;
    if (!block && size < SIZE_MAX) words = calloc(size / 8, 8);
    if (!words) return VBR_NO_MEMORY;
    records->words = VBR_RECORDS_AS(uint64_t *, words);
    records->bytes = bytes;
    records->each = size / 8 / slots;
    records->slots = slots;
    records->is_given = block ? 1 : 0;
    return VBR_OK;
}

/* Frees the memory of records, unless it was given.
   Parameters: records.
   Returns: nothing. It can't fail.
   Leaves: the records closed, and all zero.

       vbr_records_close(&accounts); */
VBR_NONNULL static inline void vbr_records_close(vbr_records *records) VBR_NOEXCEPT {
    if (!records->is_given) free(records->words);
    memset(records, 0, sizeof *records);
}

/* Writes the record of a held slot.
   Parameters: records.
   - slot: one that the caller has in hand. Its record may be written several times, until an entry is made of it, and never after that.
   - data: as many bytes as a record has.
   Returns: nothing.
   Leaves: the record for whoever finds the entry that is then made of the slot.

       vbr_records_write(&accounts, slot, &mine); */
VBR_NONNULL static inline void vbr_records_write(vbr_records *records, uint32_t slot, const void *data) VBR_NOEXCEPT {
    const unsigned char *from = VBR_RECORDS_AS(const unsigned char *, data);
    uint64_t *to = &records->words[slot * records->each], word = 0;
    size_t left = records->bytes;
    for (; left >= 8; left -= 8, from += 8) {
        memcpy(&word, from, 8);
        __atomic_store_n(to++, word, __ATOMIC_RELEASE); /* who loads it sees that the slot has come into a hand */
    }
    if (!left) return;
    word = 0;
    memcpy(&word, from, left);
    __atomic_store_n(to, word, __ATOMIC_RELEASE);
}

/* Copies the record of a slot, as it is, for a loop of your own.
   Parameters: records.
   - slot: any slot.
   - data: where the copy is written, as many bytes as a record has.
   Returns: nothing.
   Leaves: the record as it was.
   Notes: The copy counts for nothing until vbr_is_still or vbr_map_is_still has said yes to the entry that was found there before.
   Until then it may mix two records: follow no pointer and no index in it. vbr_records_read does all that. Of a held slot the copy is
   what was written.

       vbr_records_copy(&accounts, at.slot, &seen);
       if (vbr_map_is_still(&map[1], &at) == VBR_YES) copied++; // else it was changed meanwhile: find the key again */
VBR_NONNULL static inline void vbr_records_copy(const vbr_records *records, uint32_t slot, void *data) VBR_NOEXCEPT {
    unsigned char *to = VBR_RECORDS_AS(unsigned char *, data);
    const uint64_t *from = &records->words[slot * records->each];
    size_t left = records->bytes;
    uint64_t word;
    for (; left >= 8; left -= 8, to += 8) {
        word = __atomic_load_n(from++, __ATOMIC_ACQUIRE); /* so the question comes after it, and after what its writer did before */
        memcpy(to, &word, 8);
    }
    if (!left) return;
    word = __atomic_load_n(from, __ATOMIC_ACQUIRE);
    memcpy(to, &word, left);
}

/* Reads the record of a key of a set.
   Parameters: handle, records, key.
   - data: where its record is written as it was before the key was inserted, after VBR_YES; else it is set to zero, byte by byte.
   - at: where its entry is written, after VBR_YES. Else what is there means nothing.
   Returns:
   - VBR_YES: the entry was there at a moment of the call, with this record, whole.
   - VBR_NO: the key is absent.
   - VBR_NO_HANDLE, VBR_OUT_OF_STEPS.
   Leaves: the set as it was: all its steps are loads.
   Notes: It looks up, copies, and asks. It does so again only if the slot was handed out anew while it copied. Each look-up has the
   budget of the handle.

       vbr_answer there = vbr_records_read(&handle[1], &accounts, 5, &seen, &at); // VBR_YES: seen is that record, whole */
VBR_NODISCARD VBR_NONNULL static inline vbr_answer vbr_records_read(vbr_handle *handle, const vbr_records *records, uint64_t key,
                                                                    void *data, vbr_incarnation *at) VBR_NOEXCEPT {
    vbr_answer told;
    while ((told = vbr_get_entry(handle, key, at)) == VBR_YES) {
        vbr_records_copy(records, at->slot, data);
        if (vbr_is_still(handle, at) == VBR_YES) return VBR_YES;
    }
    memset(data, 0, records->bytes);
    return told;
}

/* Reads the record of a key of a map.
   Parameters: handle, records, key.
   - data: where its record is written as it was before the key was given its value, after VBR_YES; else it is set to zero, byte by byte.
   - at: where its entry is written, with its value, which is free for other use: a length, or what is read more often than the record,
     after VBR_YES. Else what is there means nothing.
   Returns:
   - VBR_YES: the entry was there at a moment of the call, with this record, whole.
   - VBR_NO: the key is absent.
   - VBR_NO_HANDLE, VBR_OUT_OF_STEPS.
   Leaves: the map as it was: all its steps are loads.
   Notes: It looks up, copies, and asks. It does so again only if the slot was handed out anew while it copied. Each look-up has the
   budget of the handle.

       vbr_answer there = vbr_map_records_read(&map[1], &accounts, 5, &seen, &at); // VBR_YES: seen is that record, whole */
VBR_NODISCARD VBR_NONNULL static inline vbr_answer vbr_map_records_read(vbr_map_handle *handle, const vbr_records *records, uint64_t key,
                                                                        void *data, vbr_incarnation *at) VBR_NOEXCEPT {
    vbr_answer told;
    while ((told = vbr_map_get_entry(handle, key, at)) == VBR_YES) {
        vbr_records_copy(records, at->slot, data);
        if (vbr_map_is_still(handle, at) == VBR_YES) return VBR_YES;
    }
    memset(data, 0, records->bytes);
    return told;
}

/* Gives the next key of a walk with its record, as vbr_next_at gives one with its entry.
   Parameters: handle, records.
   - cursor: where the walk stands.
   - key, data, at: as of vbr_next_at and vbr_records_read: unless VBR_YES, the record is zero, and the others mean nothing.
   Returns:
   - VBR_YES: the key had this entry and this record at a moment of the call.
   - VBR_NO: the walk is at its end.
   - VBR_NO_HANDLE, VBR_RESHAPED, VBR_OUT_OF_STEPS.
   Leaves: what vbr_next leaves.

       do {
           told = vbr_records_next(&handle[0], &cursor, &accounts, &key, &seen, &at);
           if (told == VBR_YES) sum += seen.balance; // the key had this record during the call
       } while (told == VBR_YES || told == VBR_OUT_OF_STEPS); // at the end it is VBR_NO */
VBR_NODISCARD VBR_NONNULL static inline vbr_answer vbr_records_next(vbr_handle *handle, vbr_cursor *cursor, const vbr_records *records,
                                                                    uint64_t *key, void *data, vbr_incarnation *at) VBR_NOEXCEPT {
    vbr_answer told;
    vbr_cursor before = *cursor;
    while ((told = vbr_next_at(handle, cursor, key, at)) == VBR_YES) {
        vbr_records_copy(records, at->slot, data);
        if (vbr_is_still(handle, at) == VBR_YES) return VBR_YES;
        told = vbr_records_read(handle, records, *key, data, at); /* it was added anew meanwhile, or is gone */
        if (told < 0) *cursor = before;
        if (told != VBR_NO) return told;
        before = *cursor;
    }
    memset(data, 0, records->bytes);
    return told;
}

/* Gives the next key of a walk with its record, as vbr_map_next_at gives one with its entry.
   Parameters: handle, records.
   - cursor: where the walk stands.
   - key, data, at: as of vbr_map_next_at and vbr_map_records_read: unless VBR_YES, the record is zero, and the others mean nothing.
   Returns:
   - VBR_YES: the key had this entry and this record at a moment of the call.
   - VBR_NO: the walk is at its end.
   - VBR_NO_HANDLE, VBR_RESHAPED, VBR_OUT_OF_STEPS.
   Leaves: what vbr_map_next leaves.

       do {
           told = vbr_map_records_next(&map[0], &cursor, &accounts, &key, &seen, &at);
           if (told == VBR_YES) sum += seen.balance; // the key had this record during the call
       } while (told == VBR_YES || told == VBR_OUT_OF_STEPS); // at the end it is VBR_NO */
VBR_NODISCARD VBR_NONNULL static inline vbr_answer vbr_map_records_next(vbr_map_handle *handle, vbr_cursor *cursor,
                                                                        const vbr_records *records, uint64_t *key, void *data,
                                                                        vbr_incarnation *at) VBR_NOEXCEPT {
    vbr_answer told;
    vbr_cursor before = *cursor;
    while ((told = vbr_map_next_at(handle, cursor, key, at)) == VBR_YES) {
        vbr_records_copy(records, at->slot, data);
        if (vbr_map_is_still(handle, at) == VBR_YES) return VBR_YES;
        told = vbr_map_records_read(handle, records, *key, data, at); /* it was changed meanwhile, or is gone */
        if (told < 0) *cursor = before;
        if (told != VBR_NO) return told;
        before = *cursor;
    }
    memset(data, 0, records->bytes);
    return told;
}

/* What both renewals do at the end: the records go with their entries, to the first `count` slots. It is no part of the interface. */
VBR_NONNULL static inline void vbr_records_carry(vbr_records *records, vbr_records *fresh, const uint32_t *slots, uint32_t count) VBR_NOEXCEPT {
    for (uint32_t i = 0; i < count; i++)
        memcpy(&fresh->words[i * fresh->each], &records->words[slots[i] * records->each], 8 * fresh->each);
    vbr_records_close(records);
    *records = *fresh;
}

/* Renews a set by vbr_renew_all and carries its records over to the slots that its keys have then.
   Parameters: handles, count, slots, buckets, last_epoch, records.
   - block: null, and calloc gives the memory of the fresh records; or another block than the old one, as vbr_records_open takes it.
   Returns: what vbr_renew_all returns, though not tested in that order.
   Leaves: what vbr_renew_all leaves; a refusal leaves the records as they were too.
   Notes: It takes 12 bytes for each slot besides, while it runs. No other thread may use the set or the records meanwhile.

       vbr_answer renewed = vbr_records_renew_all(handle, 2, 2048 + 2 * 64, 2048, VBR_MAX_EPOCH, &accounts, NULL); // VBR_OK: twice as large */
VBR_NODISCARD static inline vbr_answer vbr_records_renew_all(vbr_handle *handles, size_t count, uint32_t slots, uint32_t buckets,
                                                             uint64_t last_epoch, vbr_records *records, void *block) VBR_NOEXCEPT {
    vbr_records fresh;
    vbr_report report;
    memset(&fresh, 0, sizeof fresh), memset(&report, 0, sizeof report);
    vbr_answer told = vbr_records_open(&fresh, slots, records->bytes, block);
    if (told != VBR_OK) return told;
    uint64_t *keys = VBR_RECORDS_AS(uint64_t *, calloc(records->slots, sizeof *keys));
    uint32_t *old = VBR_RECORDS_AS(uint32_t *, calloc(records->slots, sizeof *old));
    told = keys && old ? vbr_report_slots(handles, count, keys, old, records->slots, &report) : VBR_NO_MEMORY;
    if (told == VBR_YES) told = vbr_renew_all(handles, count, slots, buckets, last_epoch);
    if (told == VBR_OK) vbr_records_carry(records, &fresh, old, report.live);
    else vbr_records_close(&fresh);
    free(keys), free(old);
    return told;
}

/* Renews a map by vbr_map_renew_all and carries its records over to the slots that its keys have then.
   Parameters: handles, count, slots, buckets, last_epoch, records.
   - block: null, and calloc gives the memory of the fresh records; or another block than the old one, as vbr_records_open takes it.
   Returns: what vbr_map_renew_all returns, though not tested in that order.
   Leaves: what vbr_map_renew_all leaves; a refusal leaves the records as they were too.
   Notes: It takes 20 bytes for each slot besides, while it runs. No other thread may use the map or the records meanwhile.

       vbr_answer renewed = vbr_map_records_renew_all(map, 2, 2048 + 2 * 64, 2048, VBR_MAX_EPOCH, &accounts, NULL); // VBR_OK: twice as large */
VBR_NODISCARD static inline vbr_answer vbr_map_records_renew_all(vbr_map_handle *handles, size_t count, uint32_t slots,
                                                                 uint32_t buckets, uint64_t last_epoch, vbr_records *records,
                                                                 void *block) VBR_NOEXCEPT {
    vbr_records fresh;
    vbr_report report;
    memset(&fresh, 0, sizeof fresh), memset(&report, 0, sizeof report);
    vbr_answer told = vbr_records_open(&fresh, slots, records->bytes, block);
    if (told != VBR_OK) return told;
    vbr_entry *entries = VBR_RECORDS_AS(vbr_entry *, calloc(records->slots, sizeof *entries));
    uint32_t *old = VBR_RECORDS_AS(uint32_t *, calloc(records->slots, sizeof *old));
    told = entries && old ? vbr_map_report_slots(handles, count, entries, old, records->slots, &report) : VBR_NO_MEMORY;
    if (told == VBR_YES) told = vbr_map_renew_all(handles, count, slots, buckets, last_epoch);
    if (told == VBR_OK) vbr_records_carry(records, &fresh, old, report.live);
    else vbr_records_close(&fresh);
    free(entries), free(old);
    return told;
}

/* The old name of vbr_records_renew_all, for one version. */
VBR_NODISCARD VBR_DEPRECATED("vbr_records_renew_all") static inline vbr_answer vbr_records_renew(
    vbr_handle *handles, size_t count, uint32_t slots, uint32_t buckets, uint64_t last_epoch, vbr_records *records, void *block) VBR_NOEXCEPT {
    return vbr_records_renew_all(handles, count, slots, buckets, last_epoch, records, block);
}

/* The old name of vbr_map_records_renew_all, for one version. */
VBR_NODISCARD VBR_DEPRECATED("vbr_map_records_renew_all") static inline vbr_answer vbr_map_records_renew(
    vbr_map_handle *handles, size_t count, uint32_t slots, uint32_t buckets, uint64_t last_epoch, vbr_records *records, void *block) VBR_NOEXCEPT {
    return vbr_map_records_renew_all(handles, count, slots, buckets, last_epoch, records, block);
}

#endif
