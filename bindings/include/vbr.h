/* A hash set of 64-bit keys, and a map from such keys to 64-bit values, which threads share, in fixed memory and without a lock.

       vbr_handle handle[2] = {{0}};                        // two handles, each in one call at a time
       if (vbr_open(handle, 2, 1024 + 2 * 64, 1024, VBR_MAX_EPOCH) != VBR_OK) return 1; // slots, buckets, last epoch
       vbr_answer added = vbr_insert(&handle[0], 5);        // VBR_YES: 5 was absent
       vbr_answer there = vbr_has(&handle[1], 5);           // VBR_YES, from another thread too
       vbr_end_all(handle, 2);                              // and their memory is freed

   Compare an answer with VBR_YES: refusals are negative, hence true in an `if`. Link with -lvbr (`pkg-config --cflags --libs vbr`).
   What holds for every call (maps, owners, pointers, threads, order, walks, sizes, budgets) is in vbr(3), which is made of docs/C.md
   and docs/USING.md. This header needs C99 or C++11, or a later standard. It is tried with GCC and Clang.

   The comment of a call says what it does, and then has its parameters, its answers, and what it leaves. The answers of a call that is
   made come first, and then its refusals, in the order in which they are tested; those for want of steps, a slot or an epoch come as the
   call meets them. The list of answers says what a refusal means, and a call what it adds. A refusal says that no key and no value was
   changed, and nothing written, unless the call says otherwise. Calls on keys, walks, and calls by a slot take no memory and never wait. A
   call whose name ends in _within makes at most `steps` steps, in place of the budget of the handle, and is the same otherwise.

   No pointer is null, unless the call says so. Each is aligned for its type, and names as many elements as the number beside it says, or
   one. They are initialised. Meanwhile nobody else writes them, nor reads what the call writes. Nobody tests this: otherwise the behaviour
   is undefined.

   Parameters:
   - handle: one that is in no other call. It goes to another thread by what orders the two, as a lock or a join.
   - handles, count: all that were opened with one set or map, each once, in any order. None is in another call.
   - key, value, expected: any number.
   - slots, buckets, last_epoch: the shape, within VBR_MAX_SLOTS, VBR_MAX_BUCKETS and vbr_max_epoch.
   - report: where the report is written. */
#ifndef VBR_H
#define VBR_H

#include <stddef.h>
#include <stdint.h>

#ifdef __cplusplus
extern "C" {
#endif

/* Versions and attributes */

/* The version of this header, and the same as one number. vbr_version returns the library's.

       if (VBR_VERSION < 3000) return 1; // the header is older than 0.3.0 */
#define VBR_VERSION_MAJOR 0
#define VBR_VERSION_MINOR 3
#define VBR_VERSION_PATCH 0
#define VBR_VERSION (VBR_VERSION_MAJOR * 1000000u + VBR_VERSION_MINOR * 1000u + VBR_VERSION_PATCH)

/* VBR_NODISCARD: an answer that is thrown away may be a refusal. VBR_NOEXCEPT: no call throws or unwinds. VBR_NONNULL: no pointer may
   be null. VBR_NONNULL_REST: only the first may be. VBR_NONNULL_FIRST: the first may not. */
#if (defined(__cplusplus) && __cplusplus >= 201703L) || (defined(__STDC_VERSION__) && __STDC_VERSION__ > 201710L)
#define VBR_NODISCARD [[nodiscard]]
#elif defined(__GNUC__)
#define VBR_NODISCARD __attribute__((warn_unused_result))
#else
#define VBR_NODISCARD
#endif
#ifdef __GNUC__
#define VBR_DEPRECATED(instead) __attribute__((deprecated(instead)))
#else
#define VBR_DEPRECATED(instead)
#endif
#ifdef __cplusplus
#define VBR_NOEXCEPT noexcept
#else
#define VBR_NOEXCEPT
#endif
#ifdef __GNUC__
#define VBR_NONNULL __attribute__((nonnull))
#define VBR_NONNULL_REST __attribute__((nonnull(2, 4)))
#define VBR_NONNULL_FIRST __attribute__((nonnull(1)))
#else
#define VBR_NONNULL
#define VBR_NONNULL_REST
#define VBR_NONNULL_FIRST
#endif

/* Makes a call whose answer doesn't matter. A cast to void alone still warns with GCC.

       VBR_IGNORE(vbr_insert(&handle[0], 7)); // whether 7 was absent, there, or refused */
#define VBR_IGNORE(call) ((void)!(call))

/* Returns the library's version.
   Parameters: none.
   Returns: the version as one number, equal to VBR_VERSION if header and library match. It can't fail.
   Leaves: all as it was. It needs no handle.

       if (vbr_version() != VBR_VERSION) return 1; // the library is of another version than the header */
VBR_NODISCARD uint32_t vbr_version(void) VBR_NOEXCEPT;

/* Numbers and answers */

/* The most slots and buckets of a set, and the most handles that vbr_open, vbr_open_with and vbr_open_seeded open; vbr_open_many opens
   more.

       uint32_t slots = 1024 + 64 * VBR_MAX_FEW_HANDLES, buckets = 1024;
       if (slots > VBR_MAX_SLOTS || buckets > VBR_MAX_BUCKETS) return 1; // else vbr_open answers VBR_BAD_SHAPE
       vbr_handle most[VBR_MAX_FEW_HANDLES] = {{0}};
       if (vbr_open(most, VBR_MAX_FEW_HANDLES, slots, buckets, VBR_MAX_EPOCH) != VBR_OK) return 1; */
#define VBR_MAX_SLOTS 2147483647u
#define VBR_MAX_BUCKETS 2147483648u
#define VBR_MAX_FEW_HANDLES 64u

/* A last epoch that every shape accepts: the greatest for 16,777,215 slots. With more slots it stands for the greatest that they leave room
   for. Small sets may have a greater one: see vbr_max_epoch.

       if (vbr_open(most, VBR_MAX_FEW_HANDLES, slots, buckets, VBR_MAX_EPOCH) != VBR_OK) return 1; */
#define VBR_MAX_EPOCH 549755813887ull

/* Returns the greatest last epoch of a set or a map with this many slots.
   Parameters:
   - slots: any number.
   Returns: that epoch, or 0 if none can have so many slots. The more bits their number has, the fewer are left for the epoch.
   Leaves: all as it was.

       uint64_t last = vbr_max_epoch(1024 + 2 * 64); // 2^52 - 1, which is more than VBR_MAX_EPOCH */
VBR_NODISCARD static inline uint64_t vbr_max_epoch(uint32_t slots) VBR_NOEXCEPT {
    uint64_t most = UINT64_MAX >> 1;
    if (slots == 0 || slots > VBR_MAX_SLOTS) return 0;
    for (; slots > 0; slots >>= 1) most >>= 1;
    return most;
}

/* The most handles that vbr_open_many and vbr_map_open_many accept.

       static vbr_handle many[1000];
       if (1000 > VBR_MAX_MANY_HANDLES) return 1; // else vbr_open_many answers VBR_BAD_COUNT */
#define VBR_MAX_MANY_HANDLES 65536u

#ifdef __GNUC__
#define VBR_MAX_HANDLES _Pragma("GCC warning \"VBR_MAX_HANDLES is the old name of VBR_MAX_FEW_HANDLES, for one version\"") VBR_MAX_FEW_HANDLES
#else
#define VBR_MAX_HANDLES VBR_MAX_FEW_HANDLES
#endif

/* The default budget, called ample. Enough for any call on a key while buckets are short, unless others disturb it more than a hundred
   times while it runs: vbr(3) says what disturbs a call, and gives the numbers. A call of a walk may run out of it if it passes many
   empty buckets. A call that may take a slot, given just this number, has one step more for each 64 slots above 16,777,216.

       handle[0].steps = VBR_AMPLE_STEPS; // which 0 says too */
#define VBR_AMPLE_STEPS 400000u

/* The answer of a call. Negative numbers are refusals. It takes 32 bits, whatever size a compiler gives enums.

       uint32_t steps = 1;
       vbr_answer told = vbr_insert_within(&handle[0], 5, steps); // one step is too few
       while (told == VBR_OUT_OF_STEPS && steps < 1u << 30) told = vbr_insert_within(&handle[0], 5, steps *= 2);
       if (told < 0) return 1; // it was refused, and no call was made */
#if defined(__cplusplus) || (defined(__STDC_VERSION__) && __STDC_VERSION__ >= 202311L)
typedef enum vbr_answer : int32_t {
#elif defined(__GNUC__)
typedef enum __attribute__((mode(SI))) vbr_answer {
#else
typedef enum vbr_answer {
#endif
    VBR_OK = 0,            /* done */
    VBR_NO = 0,            /* the answer is no, as the call says */
    VBR_YES = 1,           /* the answer is yes, as the call says */
    VBR_OTHER = 2,         /* the key is there with another value, and nothing was changed */
    VBR_OUT_OF_STEPS = -1, /* the budget is spent; no call was made; a greater budget may help */
    VBR_NO_SLOT = -2,      /* the handle found no slot for a node; no call was made */
    VBR_EPOCH_SPENT = -3,  /* a node is wanted and the last epoch is spent; no call was made; renew the set */
    VBR_NO_HANDLE = -4,    /* the handle, or one of them, is empty, or null where null is allowed; nothing was done */
    VBR_IN_USE = -5,       /* what is to be opened isn't empty, or a handle is on loan; nothing was done */
    VBR_BAD_SHAPE = -6,    /* slots, buckets or last_epoch is out of range; nothing was done */
    VBR_BAD_COUNT = -7,    /* count is not from 1 to 64, of open_many, open_shared and lender_init_many to
                              65,536; nothing was done */
    VBR_NO_MEMORY = -8,    /* there is no memory; handles stay as they were */
    VBR_LOST = -9,         /* the handle was the last, and a pass is missing; the set is gone, and its memory is freed.
                              A dropped handle gives its pass back, and a forgotten one keeps its set open (VBR_NO),
                              so no program is known to get this */
    VBR_BAD_KEYS = -10,    /* the keys do not ascend, or there are more than slots; nothing was done */
    VBR_NO_ROOM = -11,     /* there is no room for all keys; handles stay as they were. A report says how many keys
                              there are. Of open_shared_in: the file is too short, and nothing was done */
    VBR_MISSING = -12,     /* not all handles that were opened, each once; they stay as they were */
    VBR_MIXED = -13,       /* handles of different sets; they stay as they were. A probe finds it, which is tested and
                              not proved: do not rely on it */
    VBR_HELD = -14,        /* a slot is in hand, and the call would take another one; or the call asks for one, and none
                              is in hand; nothing was done */
    VBR_RESHAPED = -15     /* the walk began on another opening: the set was renewed since, or the handle was opened anew;
                              nothing is given, and the cursor stays; begin anew, from VBR_CURSOR_BEGIN */
} vbr_answer;
#ifdef __cplusplus
static_assert(sizeof(vbr_answer) == 4, "the library answers by 32 bits");
#elif defined(__STDC_VERSION__) && __STDC_VERSION__ >= 201112L
_Static_assert(sizeof(vbr_answer) == 4, "the library answers by 32 bits");
#endif

/* Says what an answer means, in a few words, for a message.
   Parameters:
   - answer: any number.
   Returns: the text, "no slot" of VBR_NO_SLOT. VBR_OK and VBR_NO are one number, so they have one: "no; of an opening or a renewal,
   done". Any other number gets a text as well.
   Leaves: all as it was. The text belongs to the library, and stays.

       printf("the insert: %s\n", vbr_answer_text(told)); */
VBR_NODISCARD const char *vbr_answer_text(vbr_answer answer) VBR_NOEXCEPT;

/* Handles */

/* A handle to a set. Initialise it with {0}, or {} in C++, or set only `steps`, the budget of calls that don't name one; 0 stands
   for VBR_AMPLE_STEPS. A program sets `steps` before the opening or between two calls, and no call writes it. `in_call` marks a
   handle that processes share: vbr_begin and vbr_end of vbr_shared.h set and clear it, and in other handles it stays 0. If a program
   defines VBR_CHECKED ahead of this header, each call marks its handle there, and one by a handle that is marked ends the program by
   abort, with a sentence: two threads use the handle at a time. vbr_checked.h says more. `owned` and `opening`
   belong to the library.

       vbr_handle handle[2] = {{0}};
       handle[1].steps = 5000; // the calls by this handle make at most so many steps */
typedef struct vbr_handle {
    void *owned;
    uint32_t steps;
    uint32_t in_call;
    uint32_t opening;
} vbr_handle;

/* Returns the budget of a handle's calls.
   Parameters: handle.
   Returns: its `steps`, or VBR_AMPLE_STEPS if that is 0.
   Leaves: all as it was.

       uint32_t steps = vbr_steps_of(&handle[0]); // VBR_AMPLE_STEPS, unless handle[0].steps is another */
VBR_NODISCARD static inline uint32_t vbr_steps_of(const vbr_handle *handle) VBR_NOEXCEPT {
    return handle->steps ? handle->steps : VBR_AMPLE_STEPS;
}

/* What a closed set held.

       vbr_report report = {0}; */
typedef struct vbr_report {
    uint64_t epoch;  /* the epoch */
    uint32_t live;   /* how many keys were in the set */
    uint32_t marked; /* how many removed nodes were still in a list */
    uint32_t free;   /* how many slots had no node in a list */
} vbr_report;

/* Opening a set */

/* Opens an empty set, and fills these handles.
   Parameters: slots, buckets, last_epoch.
   - handles, count: from 1 to 64 that are empty: each is {0}, or has only a budget.
   Returns:
   - VBR_OK: it is open.
   - VBR_BAD_SHAPE.
   - VBR_BAD_COUNT: no handle is read before this is tested.
   - VBR_IN_USE, VBR_NO_MEMORY.
   Leaves: the handles full. Each has taken its reserve, as vbr_reserve says.

       vbr_handle handle[2] = {{0}};
       if (vbr_open(handle, 2, 1024 + 2 * 64, 1024, VBR_MAX_EPOCH) != VBR_OK) return 1; */
VBR_NODISCARD vbr_answer vbr_open(vbr_handle *handles, size_t count, uint32_t slots, uint32_t buckets,
                                  uint64_t last_epoch) VBR_NOEXCEPT VBR_NONNULL;

/* Opens a set of these keys, which ascend, each above the one before, and fills the handles as vbr_open does.
   Parameters:
   - handles, count, slots, buckets, last_epoch: as of vbr_open.
   - keys, key_count: so many keys.
   Returns:
   - VBR_OK: it is open. The epoch is 1.
   - VBR_BAD_SHAPE, VBR_BAD_COUNT, VBR_IN_USE, VBR_BAD_KEYS, VBR_NO_MEMORY.
   Leaves: what vbr_open leaves.
   Notes: It takes the memory of vbr_open, and while it runs 8 bytes more for each key. It goes once over the keys.

       static const uint64_t some[3] = {2, 5, 9};
       if (vbr_open_with(handle, 2, 1024 + 2 * 64, 1024, VBR_MAX_EPOCH, some, 3) != VBR_OK) return 1; */
VBR_NODISCARD vbr_answer vbr_open_with(vbr_handle *handles, size_t count, uint32_t slots, uint32_t buckets, uint64_t last_epoch,
                                       const uint64_t *keys, size_t key_count) VBR_NOEXCEPT VBR_NONNULL;

/* Opens a set with its keys spread over the buckets by this seed, as vbr_open_with does otherwise.
   Parameters:
   - handles, count, slots, buckets, last_epoch: as of vbr_open.
   - seed: any number; vbr(3) says which one to choose. With the same seed and number of buckets each key has the same bucket, so
     walks have the same order and calls take as many steps. With 0 keys are multiplied by 2^64 over the golden ratio, as all
     libraries before 0.3.0 did.
   - keys, key_count: as of vbr_open_with, and there may be none.
   Returns: what vbr_open_with returns.
   Leaves: what vbr_open_with leaves.

       if (vbr_open_seeded(handle, 2, 1024 + 2 * 64, 1024, VBR_MAX_EPOCH, 7, some, 3) != VBR_OK) return 1; */
VBR_NODISCARD vbr_answer vbr_open_seeded(vbr_handle *handles, size_t count, uint32_t slots, uint32_t buckets, uint64_t last_epoch,
                                         uint64_t seed, const uint64_t *keys, size_t key_count) VBR_NOEXCEPT VBR_NONNULL;

/* Returns a seed that the system draws at random, as vbr_open does: by getrandom, and without waiting.
   Parameters: none.
   Returns: the seed. If the system has no random number yet, shortly after its start, or refuses the call, it is made from the time
   and an address of the stack: it differs from call to call, and somebody outside may guess it. It can't fail.
   Leaves: all as it was.

       vbr_answer renewed = vbr_renew_all_seeded(handle, 2, 2048 + 2 * 64, 2048, VBR_MAX_EPOCH, vbr_random_seed()); */
VBR_NODISCARD uint64_t vbr_random_seed(void) VBR_NOEXCEPT;

/* Opens a set with up to VBR_MAX_MANY_HANDLES handles, as vbr_open_with does otherwise.
   Parameters:
   - handles, count: from 1 to VBR_MAX_MANY_HANDLES that are empty. Each may keep 64 slots, as always, so a thousand need 64,000
     slots more than keys.
   - slots, buckets, last_epoch: as of vbr_open.
   - keys, key_count: as of vbr_open_with. There may be none: then the number is 0, and `keys` is any aligned address that isn't
     null, such as that of a word.
   Returns: what vbr_open_with returns, tested in the same order; VBR_BAD_COUNT if count isn't in that range.
   Leaves: what vbr_open_with leaves.
   Notes: No call on a key takes more steps for more handles. Calls that take all handles take time in proportion to their number.

       static vbr_handle many[1000];
       static vbr_handle others[1000]; // which are to open without keys
       if (vbr_open_many(many, 1000, 1024 + 1000 * 64, 1024, VBR_MAX_EPOCH, some, 3) != VBR_OK) return 1;
       if (vbr_open_many(others, 1000, 1024 + 1000 * 64, 1024, VBR_MAX_EPOCH, &key, 0) != VBR_OK) return 1; // it is empty */
VBR_NODISCARD vbr_answer vbr_open_many(vbr_handle *handles, size_t count, uint32_t slots, uint32_t buckets, uint64_t last_epoch,
                                       const uint64_t *keys, size_t key_count) VBR_NOEXCEPT VBR_NONNULL;

/* Opens a set for many handles with its keys spread by this seed, as vbr_open_many does otherwise.
   Parameters:
   - handles, count, slots, buckets, last_epoch, keys, key_count: as of vbr_open_many.
   - seed: as of vbr_open_seeded.
   Returns: what vbr_open_many returns.
   Leaves: what vbr_open_many leaves.

       static vbr_handle seeded[1000];
       if (vbr_open_many_seeded(seeded, 1000, 1024 + 1000 * 64, 1024, VBR_MAX_EPOCH, 7, some, 3) != VBR_OK) return 1; */
VBR_NODISCARD vbr_answer vbr_open_many_seeded(vbr_handle *handles, size_t count, uint32_t slots, uint32_t buckets,
                                              uint64_t last_epoch, uint64_t seed, const uint64_t *keys,
                                              size_t key_count) VBR_NOEXCEPT VBR_NONNULL;

/* Calls on keys */

/* Adds a key.
   Parameters: handle, key.
   Returns:
   - VBR_YES: the key was absent, and is added.
   - VBR_NO: it was there.
   - VBR_NO_HANDLE, VBR_HELD, VBR_OUT_OF_STEPS.
   - VBR_NO_SLOT: the key is absent. Have other handles give their slots back (vbr_give_slots_back), remove keys, or try again.
   - VBR_EPOCH_SPENT: the key is absent.
   Leaves: after VBR_YES the handle's reserve for the next inserts topped up, as vbr_reserve says.
   Notes: While the other handles stand still, 18n + 82 steps are enough, or 18n + w + 20 if that is more, with n nodes in the
   bucket of the key and w = slots / 64, rounded up.

       if (vbr_insert(&handle[0], 5) == VBR_YES) added++; // this call added 5 */
VBR_NODISCARD static inline vbr_answer vbr_insert(vbr_handle *handle, uint64_t key) VBR_NOEXCEPT VBR_NONNULL;

/* Adds a key within a budget of `steps`, as vbr_insert does.

       told = vbr_insert_within(&handle[0], 7, 500); // at most 500 steps */
VBR_NODISCARD vbr_answer vbr_insert_within(vbr_handle *handle, uint64_t key, uint32_t steps) VBR_NOEXCEPT VBR_NONNULL;

/* Takes a key out.
   Parameters: handle, key.
   Returns:
   - VBR_YES: the key was there, and is taken out.
   - VBR_NO: it was absent.
   - VBR_NO_HANDLE, VBR_OUT_OF_STEPS.
   Leaves: after VBR_YES the key's node out of its list, unless the budget ended first. Then the next insert or remove that passes
   the node takes it out.
   Notes: While the other handles stand still, 9n + 11 steps are enough, with n nodes in the bucket of the key.

       if (vbr_remove(&handle[1], 5) == VBR_YES) taken++; // this call took 5 out */
VBR_NODISCARD static inline vbr_answer vbr_remove(vbr_handle *handle, uint64_t key) VBR_NOEXCEPT VBR_NONNULL;

/* Takes a key out within a budget of `steps`, as vbr_remove does.

       told = vbr_remove_within(&handle[0], 7, 500); // at most 500 steps */
VBR_NODISCARD vbr_answer vbr_remove_within(vbr_handle *handle, uint64_t key, uint32_t steps) VBR_NOEXCEPT VBR_NONNULL;

/* Looks a key up.
   Parameters: handle, key.
   Returns:
   - VBR_YES: the key is there.
   - VBR_NO: it is absent.
   - VBR_NO_HANDLE, VBR_OUT_OF_STEPS.
   Leaves: all that another thread can see as it was: its steps are loads.
   Notes: While the other handles stand still, 5n + 11 steps are enough, with n nodes in the bucket of the key.

       if (vbr_has(&handle[1], 5) == VBR_YES) there++; // 5 was there during the call */
VBR_NODISCARD static inline vbr_answer vbr_has(vbr_handle *handle, uint64_t key) VBR_NOEXCEPT VBR_NONNULL;

/* Looks a key up within a budget of `steps`, as vbr_has does.

       told = vbr_has_within(&handle[1], 7, 500); // at most 500 steps */
VBR_NODISCARD vbr_answer vbr_has_within(vbr_handle *handle, uint64_t key, uint32_t steps) VBR_NOEXCEPT VBR_NONNULL;

/* Looks `count` keys up, in their order, each by a call of its own.
   Parameters: handle.
   - keys, count: these keys. With a count of 0 the pointers other than `handle` may be null.
   - answers: as many; answers[i] is set to what vbr_has returns for keys[i].
   Returns: nothing. A refusal of one look-up says nothing about the others.
   Leaves: what vbr_has leaves.
   Notes: Use it for many keys of a set that is larger than the cache. Before the look-ups of sixteen keys it loads what they begin
   with, so that they wait for memory together. These loads don't count as steps.

       vbr_has_all(&handle[0], wanted, 3, answers);
       for (int i = 0; i < 3; i++) there += answers[i] == VBR_YES; // wanted[i] was there during its call */
static inline void vbr_has_all(vbr_handle *handle, const uint64_t *keys, size_t count,
                               vbr_answer *answers) VBR_NOEXCEPT VBR_NONNULL_FIRST;

/* Looks keys up within a budget of `steps` for each key, as vbr_has_all does.

       vbr_has_all_within(&handle[0], wanted, 3, answers, 500); // at most 500 steps for each key */
void vbr_has_all_within(vbr_handle *handle, const uint64_t *keys, size_t count, vbr_answer *answers,
                        uint32_t steps) VBR_NOEXCEPT VBR_NONNULL_FIRST;

/* Walks */

/* Where a walk stands: before the first key, or after the one that was given last. Its 16 bytes may be copied and kept, and a walk
   goes on from a copy as well, and by any handle of the set. The first call notes of which opening the handle is; once the set is
   renewed, calls answer VBR_RESHAPED. With a handle of another set, or any other bytes in it, the walk is refused or continues as a
   different one, and nothing is unsafe.

       vbr_cursor cursor = VBR_CURSOR_BEGIN; // before the first key */
typedef struct vbr_cursor {
    uint32_t bucket; /* these are the library's */
    uint32_t opening;
    uint64_t from;
} vbr_cursor;
#define VBR_CURSOR_BEGIN {0, 0, 0}

/* Gives the next key of a walk, by loads alone.
   Parameters: handle.
   - cursor: where the walk stands.
   - key: where the next key is written, after VBR_YES alone.
   Returns:
   - VBR_YES: one is left, which was there during the call.
   - VBR_NO: the walk is at its end: no key is left.
   - VBR_NO_HANDLE, VBR_RESHAPED.
   - VBR_OUT_OF_STEPS: call again, and with twice the budget if that may have been too small. The cursor has come to a later bucket
     then, or the budget was too small for its bucket. With n nodes there, 5n + 11 steps are enough while the other handles stand
     still, and (m + 1)(5(n + m) + 11) if they disturb the call there m times.
   Leaves: the cursor after the key that was given, and at VBR_OUT_OF_STEPS as far as it has come. After the last node of a bucket
   it is before the next bucket, so a walk doesn't enter the bucket again.
   Notes: It enters the cursor's bucket at its head. It makes three steps for each bucket that it enters, three for a removed node
   that is still in its list, and five for any other node. If others disturb it in a bucket, it goes over that bucket again, at most
   once for each disturbance. vbr(3) says what a walk gives, and which budget takes it further.

       do {
           told = vbr_next(&handle[0], &cursor, &key);
           if (told == VBR_YES) sum += key; // the key was there during the call
       } while (told == VBR_YES || told == VBR_OUT_OF_STEPS); // at the end it is VBR_NO */
VBR_NODISCARD static inline vbr_answer vbr_next(vbr_handle *handle, vbr_cursor *cursor, uint64_t *key) VBR_NOEXCEPT VBR_NONNULL;

/* Gives the next key of a walk within a budget of `steps`, as vbr_next does.

       told = vbr_next_within(&handle[0], &cursor, &key, 5000); // at most 5000 steps */
VBR_NODISCARD vbr_answer vbr_next_within(vbr_handle *handle, vbr_cursor *cursor, uint64_t *key,
                                         uint32_t steps) VBR_NOEXCEPT VBR_NONNULL;

/* What a handle knows */

/* Returns the epoch that the handle read last in a call.
   Parameters: handle.
   Returns: that epoch; 1 before its first call, and 0 for an empty handle. Renew the set before it reaches vbr_last_epoch.
   Leaves: all as it was. It makes no step, so others may have advanced the epoch since.

       int is_near = vbr_epoch(&handle[0]) + 1000 >= vbr_last_epoch(&handle[0]); // then renew the set */
VBR_NODISCARD uint64_t vbr_epoch(const vbr_handle *handle) VBR_NOEXCEPT VBR_NONNULL;

/* Returns the last epoch that the set was opened with.
   Parameters: handle.
   Returns: that number, and 0 for an empty handle.
   Leaves: all as it was.

       uint64_t left = vbr_last_epoch(&handle[0]) - vbr_epoch(&handle[0]); */
VBR_NODISCARD uint64_t vbr_last_epoch(const vbr_handle *handle) VBR_NOEXCEPT VBR_NONNULL;

/* Returns how many slots the set was opened with.
   Parameters: handle.
   Returns: that number, and 0 for an empty handle.
   Leaves: all as it was.

       uint32_t most = vbr_slots(&handle[0]) - 2 * 64; // so many keys have room for certain */
VBR_NODISCARD uint32_t vbr_slots(const vbr_handle *handle) VBR_NOEXCEPT VBR_NONNULL;

/* Returns how many buckets the set was opened with.
   Parameters: handle.
   Returns: that number, and 0 for an empty handle.
   Leaves: all as it was.

       int is_crowded = 3 > 2 * vbr_buckets(&handle[0]); // three keys, and more than two for each bucket */
VBR_NODISCARD uint32_t vbr_buckets(const vbr_handle *handle) VBR_NOEXCEPT VBR_NONNULL;

/* Returns a seed below 2^63 that spreads keys over the buckets as those of the set are spread.
   Parameters: handle.
   Returns: the seed that the set was opened with, drawn or given; if that is 2^63 or more, its equivalent, which is 2^63 less; 0
   for an empty handle.
   Leaves: all as it was.

       uint64_t seed = vbr_seed(&handle[0]); // opens a set whose keys have the same buckets */
VBR_NODISCARD uint64_t vbr_seed(const vbr_handle *handle) VBR_NOEXCEPT VBR_NONNULL;

/* Returns how many keys the handle's calls have added, less those that they took out.
   Parameters: handle.
   Returns: the number of inserts that were answered VBR_YES, less that of removes that were. Of the handles that were opened
   together the first begins with the keys that the set opened with, the others with 0; an empty handle has 0.
   Leaves: all as it was. It makes no step.
   Notes: While no call is under way, the balances of all handles of a set add up to the number of its keys. A handle takes its
   balance along when it is closed. vbr(3) says what the sum means while calls are made.

       int64_t keys = vbr_balance(&handle[0]) + vbr_balance(&handle[1]); // no call is under way */
VBR_NODISCARD int64_t vbr_balance(const vbr_handle *handle) VBR_NOEXCEPT VBR_NONNULL;

/* Returns how often calls by the handle broke a traversal off, since others had changed what it read, and began it anew.
   Parameters: handle.
   Returns: that number since the opening or the last renewal, and 0 for an empty handle. It is counted for those who operate a
   program, and tested; nothing is proved of it.
   Leaves: all as it was. It makes no step.

       uint64_t again = vbr_restarts(&handle[0]); // 0 while no other thread makes calls */
VBR_NODISCARD uint64_t vbr_restarts(const vbr_handle *handle) VBR_NOEXCEPT VBR_NONNULL;

/* Returns how many removed nodes calls by the handle met on their way, and unlinked for others.
   Parameters: handle.
   Returns: that number, of which vbr_restarts says the rest.
   Leaves: all as it was. It makes no step.

       uint64_t helped = vbr_helps(&handle[0]); // removes of others that were held up */
VBR_NODISCARD uint64_t vbr_helps(const vbr_handle *handle) VBR_NOEXCEPT VBR_NONNULL;

/* Returns how often calls by the handle advanced the epoch.
   Parameters: handle.
   Returns: that number, of which vbr_restarts says the rest. The epoch is one more than those of all handles together, while none
   was renewed.
   Leaves: all as it was. It makes no step.

       uint64_t advanced = vbr_advances(&handle[0]) + vbr_advances(&handle[1]); // the epoch less 1 */
VBR_NODISCARD uint64_t vbr_advances(const vbr_handle *handle) VBR_NOEXCEPT VBR_NONNULL;

/* Returns how many slots lie in the pool that all handles share.
   Parameters: handle.
   Returns: that number, at most that of the slots, and 0 for an empty handle. It is exact while no call is under way, and else what
   others take and give meanwhile may be counted or not.
   Leaves: all as it was. It loads one word for each 64 slots, and makes no step.

       uint32_t pooled = vbr_free_about(&handle[0]); // besides, each handle keeps some to itself */
VBR_NODISCARD uint32_t vbr_free_about(const vbr_handle *handle) VBR_NOEXCEPT VBR_NONNULL;

/* Slots of a handle */

/* Puts the slots that the handle keeps to itself into the pool that all handles share, where any of them finds them.
   Parameters:
   - handle: one that won't insert for a while.
   Returns: how many it gave back, at most 64, and 0 for an empty handle. It can't fail.
   Leaves: the handle without slots of its own. Its next insert that adds a key takes slots in reserve again, as vbr_reserve says.
   Notes: It makes one step for each slot, makes no call on the set, and takes no memory. A handle that is closed or dropped does so
   by itself.

       uint32_t given = vbr_give_slots_back(&handle[0]); // handle[1] can have them now */
static inline uint32_t vbr_give_slots_back(vbr_handle *handle) VBR_NOEXCEPT VBR_NONNULL;
uint32_t vbr_spare(vbr_handle *handle) VBR_NOEXCEPT VBR_NONNULL VBR_DEPRECATED("vbr_give_slots_back"); /* the old name, for one version */

/* Takes slots for the handle's next inserts out of the pool that all handles share.
   Parameters: handle.
   - wanted: how many the handle then keeps to itself, or 63 if that is less.
   Returns: how many it took: fewer only if one pass over all slots finds no more, and 0 for an empty handle. It can't fail.
   Leaves: these slots for this handle alone. vbr_give_slots_back does the opposite.
   Notes: It makes at most one step for each slot that it takes, one for each 64 slots of the set, and one for each slot that others
   take out of that pool meanwhile. It makes no call on the set, and takes no memory.

   A handle keeps a reserve by itself: 32 slots, or slots / (8 * handles) if that is less, so none in a set with fewer than 8 slots
   for each handle. With 64 slots or more for each it takes them when it is opened or renewed, in as many tries. A try fails at a
   slot that has a key, and the next one is up to 64 slots further on. So it takes all if the set opens empty, and often none if it
   opens with thousands of keys. After an insert that added a key, if more than an eighth of the reserve is lacking, it makes up to
   5 tries to take a slot, within the budget of the call. So a handle that takes a key out before each one that it puts in, as a
   full cache does, advances the epoch in about one of 30 inserts, and not in each. With r slots in reserve, one insert in r + 1
   advances the epoch. Call this to hold more than 32, or in a small set. Inserts take the handle's own slots first, so inserts that
   fill the set use the reserve up. The reserve is part of the 64 slots that are counted for each handle. A handle that won't insert
   may give it back at once.

       uint32_t taken = vbr_reserve(&handle[0], 32); // for its next inserts */
uint32_t vbr_reserve(vbr_handle *handle, uint32_t wanted) VBR_NOEXCEPT VBR_NONNULL;

/* Reports, closes and renewals */

/* Closes a handle; the last one of a set ends it, with a report.
   Parameters:
   - handle: it may be null, as an empty one.
   - keys, room: an array of `room` elements, where the keys, ascending, are written, after VBR_YES alone. Elements after the last
     key are left alone. An array as long as the set has slots always suffices.
   - report: where the report is written, after VBR_YES and VBR_NO_ROOM alone.
   Returns:
   - VBR_YES: it was the last, and the set is closed.
   - VBR_NO: other handles of its set are open.
   - VBR_NO_HANDLE.
   - VBR_NO_MEMORY: it is the last. Only then is memory needed, which is freed again.
   - VBR_LOST.
   - VBR_NO_ROOM: it is the last, and there are more keys than `room`: so many as report->live says.
   Leaves: the handle empty, and its slots given back, as by vbr_give_slots_back, and its pass. After VBR_NO_MEMORY and VBR_NO_ROOM
   it is still full: close it again, drop it, or go on with it.

       vbr_answer first = vbr_close(&handle[0], keys, 8, &report); // VBR_NO: the other handle is open
       vbr_answer last = vbr_close(&handle[1], keys, 8, &report);  // VBR_YES: report.live keys are in front of keys */
VBR_NODISCARD vbr_answer vbr_close(vbr_handle *handle, uint64_t *keys, size_t room,
                                   vbr_report *report) VBR_NOEXCEPT VBR_NONNULL_REST;

/* Closes a set by all handles that were opened with it, with a report.
   Parameters:
   - handles, count, keys, room, report: as of vbr_report_all.
   Returns: what vbr_report_all returns; after VBR_YES it is closed.
   Leaves: after VBR_YES the handles empty, and else as they were. The keys are what all calls on these handles left.
   Notes: It takes the memory of a close.

       vbr_answer closed = vbr_close_all(handle, 2, keys, 8, &report); // VBR_YES: report.live is 3, keys are 2, 5, 9 */
VBR_NODISCARD vbr_answer vbr_close_all(vbr_handle *handles, size_t count, uint64_t *keys, size_t room,
                                       vbr_report *report) VBR_NOEXCEPT VBR_NONNULL;

/* Reports what is in a set by all handles that were opened with it.
   Parameters: handles, count.
   - keys, room, report: written as by vbr_close.
   Returns:
   - VBR_YES: it is reported.
   - VBR_NO_HANDLE.
   - VBR_MISSING: the handles are fewer than were opened, or count is 0.
   - VBR_MIXED.
   - VBR_MISSING: a handle stands there twice, as a copy.
   - VBR_NO_MEMORY.
   - VBR_NO_ROOM: there are more keys than `room`: so many as report->live says.
   Leaves: the handles as they were; they go on.
   Notes: It takes the memory of a close.

       vbr_answer told = vbr_report_all(handle, 2, keys, 8, &report); // VBR_YES: report.live keys are in front of keys */
VBR_NODISCARD vbr_answer vbr_report_all(vbr_handle *handles, size_t count, uint64_t *keys, size_t room,
                                        vbr_report *report) VBR_NOEXCEPT VBR_NONNULL;

/* Lets all handles of a set go on over a fresh one of this shape, with the keys that were in it.
   Parameters: handles, count, slots, buckets, last_epoch.
   Returns:
   - VBR_OK: it is renewed.
   - VBR_BAD_SHAPE, VBR_NO_HANDLE.
   - VBR_MISSING: the handles are not as many as were opened.
   - VBR_MIXED.
   - VBR_MISSING: a handle stands there twice, as a copy.
   - VBR_NO_ROOM: there are more keys than slots, which the handles' balances show if there is no memory for a report.
   - VBR_NO_MEMORY.
   Leaves: the set at epoch 1, with the seed that it had. The first handle's balance is the number of keys, and the others' is 0.
   Walks that have begun are refused from then on, by VBR_RESHAPED. Each handle has taken its reserve. A refusal leaves the handles
   as they were, and they go on.
   Notes: It takes the memory of a report and of an opening with the keys while the old set is still there, whose memory is freed
   afterwards.

       vbr_answer renewed = vbr_renew_all(handle, 2, 2048 + 2 * 64, 2048, VBR_MAX_EPOCH); // VBR_OK: twice as large */
VBR_NODISCARD vbr_answer vbr_renew_all(vbr_handle *handles, size_t count, uint32_t slots, uint32_t buckets,
                                       uint64_t last_epoch) VBR_NOEXCEPT VBR_NONNULL;

/* Lets all handles go on over a fresh set with its keys spread by this seed, as vbr_renew_all does otherwise.
   Parameters: handles, count, slots, buckets, last_epoch.
   - seed: as of vbr_open_seeded.
   Returns: what vbr_renew_all returns.
   Leaves: what vbr_renew_all leaves, but for the seed.

       vbr_answer renewed = vbr_renew_all_seeded(handle, 2, 2048 + 2 * 64, 2048, VBR_MAX_EPOCH, vbr_random_seed()); */
VBR_NODISCARD vbr_answer vbr_renew_all_seeded(vbr_handle *handles, size_t count, uint32_t slots, uint32_t buckets,
                                              uint64_t last_epoch, uint64_t seed) VBR_NOEXCEPT VBR_NONNULL;

/* Releases a handle, and makes no report.
   Parameters:
   - handle: empty or full; it may be null, and then nothing is done.
   Returns: nothing. It needs no memory, and can't fail.
   Leaves: the handle empty, and its slots and its pass given back as by a close. The last handle of the set that is closed still
   gets the report. If the last one is dropped, the set ends.

       vbr_drop(&handle[0]); // the close of handle[1] gets the report */
void vbr_drop(vbr_handle *handle) VBR_NOEXCEPT;

/* Releases all these handles, each as vbr_drop does.
   Parameters:
   - handles, count: in any order. They may belong to several sets, or be empty. One that stands there twice, as a copy, is released
     once. No other thread may be in a call on one of them.
   Returns: nothing. It takes no time for a report, and no memory.
   Leaves: the handles empty. With the last handle of a set its memory is freed, and nothing is reported.

       vbr_end_all(handle, 2); // nothing is reported, and the memory of the set is freed */
void vbr_end_all(vbr_handle *handles, size_t count) VBR_NOEXCEPT VBR_NONNULL;

/* Handles and entries of maps */

/* A handle to a map, as vbr_handle is one to a set. It is a type of its own, so a compiler refuses a set's handle in its place.

       vbr_map_handle map[2] = {{0}}; */
typedef struct vbr_map_handle {
    void *owned;
    uint32_t steps;
    uint32_t in_call;
    uint32_t opening;
} vbr_map_handle;

/* Returns the budget of a handle's calls.
   Parameters: handle.
   Returns: its `steps`, or VBR_AMPLE_STEPS if that is 0.
   Leaves: all as it was.

       uint32_t steps = vbr_map_steps_of(&map[0]); // VBR_AMPLE_STEPS, unless map[0].steps is another */
VBR_NODISCARD static inline uint32_t vbr_map_steps_of(const vbr_map_handle *handle) VBR_NOEXCEPT {
    return handle->steps ? handle->steps : VBR_AMPLE_STEPS;
}

/* A key with its value.

       static const vbr_entry some[3] = {{2, 20}, {5, 50}, {9, 90}}; */
typedef struct vbr_entry {
    uint64_t key;
    uint64_t value;
} vbr_entry;

/* Opening a map */

/* Opens an empty map, and fills these handles.
   Parameters: slots, buckets, last_epoch.
   - handles, count: from 1 to 64 that are empty: each is {0}, or has only a budget.
   Returns:
   - VBR_OK: it is open.
   - VBR_BAD_SHAPE.
   - VBR_BAD_COUNT: no handle is read before this is tested.
   - VBR_IN_USE, VBR_NO_MEMORY.
   Leaves: the handles full. Each has taken its reserve, as vbr_reserve says.

       vbr_map_handle map[2] = {{0}};
       if (vbr_map_open(map, 2, 1024 + 2 * 64, 1024, VBR_MAX_EPOCH) != VBR_OK) return 1; */
VBR_NODISCARD vbr_answer vbr_map_open(vbr_map_handle *handles, size_t count, uint32_t slots, uint32_t buckets,
                                      uint64_t last_epoch) VBR_NOEXCEPT VBR_NONNULL;

/* Opens a map of these entries, whose keys ascend, each above the one before, and fills the handles as vbr_map_open does.
   Parameters:
   - handles, count, slots, buckets, last_epoch: as of vbr_map_open.
   - entries, entry_count: so many entries.
   Returns:
   - VBR_OK: it is open. The epoch is 1.
   - VBR_BAD_SHAPE, VBR_BAD_COUNT, VBR_IN_USE, VBR_BAD_KEYS, VBR_NO_MEMORY.
   Leaves: what vbr_map_open leaves.
   Notes: It takes the memory of vbr_map_open, and while it runs 48 bytes more for each entry. It goes once over the entries.

       static const vbr_entry some[3] = {{2, 20}, {5, 50}, {9, 90}};
       if (vbr_map_open_with(map, 2, 1024 + 2 * 64, 1024, VBR_MAX_EPOCH, some, 3) != VBR_OK) return 1; */
VBR_NODISCARD vbr_answer vbr_map_open_with(vbr_map_handle *handles, size_t count, uint32_t slots, uint32_t buckets,
                                           uint64_t last_epoch, const vbr_entry *entries,
                                           size_t entry_count) VBR_NOEXCEPT VBR_NONNULL;

/* Opens a map with its keys spread over the buckets by this seed, as vbr_map_open_with does otherwise.
   Parameters:
   - handles, count, slots, buckets, last_epoch: as of vbr_map_open.
   - seed: as of vbr_open_seeded.
   - entries, entry_count: as of vbr_map_open_with, and there may be none.
   Returns: what vbr_map_open_with returns.
   Leaves: what vbr_map_open_with leaves.

       if (vbr_map_open_seeded(map, 2, 1024 + 2 * 64, 1024, VBR_MAX_EPOCH, 7, some_entries, 3) != VBR_OK) return 1; */
VBR_NODISCARD vbr_answer vbr_map_open_seeded(vbr_map_handle *handles, size_t count, uint32_t slots, uint32_t buckets,
                                             uint64_t last_epoch, uint64_t seed, const vbr_entry *entries,
                                             size_t entry_count) VBR_NOEXCEPT VBR_NONNULL;

/* Opens a map with up to VBR_MAX_MANY_HANDLES handles, as vbr_map_open_with does otherwise.
   Parameters:
   - handles, count: from 1 to VBR_MAX_MANY_HANDLES that are empty. Each may keep 64 slots, as always, so a thousand need 64,000
     slots more than keys.
   - slots, buckets, last_epoch: as of vbr_map_open.
   - entries, entry_count: as of vbr_map_open_with. There may be none: then the number is 0, and `entries` is any aligned address
     that isn't null, such as that of an entry.
   Returns: what vbr_map_open_with returns, tested in the same order; VBR_BAD_COUNT if count isn't in that range.
   Leaves: what vbr_map_open_with leaves.
   Notes: No call on a key takes more steps for more handles. Calls that take all handles take time in proportion to their number.

       static vbr_map_handle many[1000];
       static vbr_map_handle other_maps[1000]; // which are to open without entries
       if (vbr_map_open_many(many, 1000, 1024 + 1000 * 64, 1024, VBR_MAX_EPOCH, some, 3) != VBR_OK) return 1;
       if (vbr_map_open_many(other_maps, 1000, 1024 + 1000 * 64, 1024, VBR_MAX_EPOCH, &entry, 0) != VBR_OK) return 1; // it is empty */
VBR_NODISCARD vbr_answer vbr_map_open_many(vbr_map_handle *handles, size_t count, uint32_t slots, uint32_t buckets,
                                           uint64_t last_epoch, const vbr_entry *entries,
                                           size_t entry_count) VBR_NOEXCEPT VBR_NONNULL;

/* Opens a map for many handles with its keys spread by this seed, as vbr_map_open_many does otherwise.
   Parameters:
   - handles, count, slots, buckets, last_epoch, entries, entry_count: as of vbr_map_open_many.
   - seed: as of vbr_open_seeded.
   Returns: what vbr_map_open_many returns.
   Leaves: what vbr_map_open_many leaves.

       static vbr_map_handle seeded_maps[1000];
       if (vbr_map_open_many_seeded(seeded_maps, 1000, 1024 + 1000 * 64, 1024, VBR_MAX_EPOCH, 7, some_entries, 3) != VBR_OK) return 1; */
VBR_NODISCARD vbr_answer vbr_map_open_many_seeded(vbr_map_handle *handles, size_t count, uint32_t slots, uint32_t buckets,
                                                  uint64_t last_epoch, uint64_t seed, const vbr_entry *entries,
                                                  size_t entry_count) VBR_NOEXCEPT VBR_NONNULL;

/* Calls on keys and their values */

/* Adds a key with its value.
   Parameters: handle, key, value.
   Returns:
   - VBR_YES: the key was absent, and is added.
   - VBR_NO: it was there, and keeps the value that it has.
   - VBR_NO_HANDLE, VBR_HELD, VBR_OUT_OF_STEPS.
   - VBR_NO_SLOT: the key is absent. Have other handles give their slots back (vbr_map_give_slots_back), remove keys, or try again.
   - VBR_EPOCH_SPENT: the key is absent.
   Leaves: after VBR_YES the handle's reserve for the next inserts topped up, as vbr_reserve says.
   Notes: While the other handles stand still, 18n + 82 steps are enough, or 18n + w + 20 if that is more, with n nodes in the
   bucket of the key and w = slots / 64, rounded up.

       if (vbr_map_insert(&map[0], 5, 70) == VBR_YES) added++; // this call stored 70 for 5 */
VBR_NODISCARD static inline vbr_answer vbr_map_insert(vbr_map_handle *handle, uint64_t key,
                                                      uint64_t value) VBR_NOEXCEPT VBR_NONNULL;

/* Adds a key with its value within a budget of `steps`, as vbr_map_insert does.

       told = vbr_map_insert_within(&map[0], 7, 70, 500); // at most 500 steps */
VBR_NODISCARD vbr_answer vbr_map_insert_within(vbr_map_handle *handle, uint64_t key, uint64_t value,
                                               uint32_t steps) VBR_NOEXCEPT VBR_NONNULL;

/* Takes a key out with its value.
   Parameters: handle, key.
   - value: null, or where the value of the entry that this call took is written, after VBR_YES alone.
   Returns:
   - VBR_YES: the key was there, and is taken out.
   - VBR_NO: it was absent.
   - VBR_NO_HANDLE, VBR_OUT_OF_STEPS.
   Leaves: after VBR_YES the key's node out of its list, unless the budget ended first. Then the next insert or remove that passes
   the node takes it out.
   Notes: While the other handles stand still, 9n + 11 steps are enough, with n nodes in the bucket of the key.

       if (vbr_map_remove(&map[1], 5, &value) == VBR_YES) taken++; // this call took 5 out, with its value */
VBR_NODISCARD static inline vbr_answer vbr_map_remove(vbr_map_handle *handle, uint64_t key,
                                                      uint64_t *value) VBR_NOEXCEPT VBR_NONNULL_FIRST;

/* Takes a key out with its value within a budget of `steps`, as vbr_map_remove does.

       told = vbr_map_remove_within(&map[0], 7, NULL, 500); // at most 500 steps; whatever value it had */
VBR_NODISCARD vbr_answer vbr_map_remove_within(vbr_map_handle *handle, uint64_t key, uint64_t *value,
                                               uint32_t steps) VBR_NOEXCEPT VBR_NONNULL_FIRST;

/* Looks a key up and gives its value.
   Parameters: handle, key.
   - value: null, or where its value is written, after VBR_YES alone.
   Returns:
   - VBR_YES: the key is there.
   - VBR_NO: it is absent.
   - VBR_NO_HANDLE, VBR_OUT_OF_STEPS.
   Leaves: the map as it was: its steps are loads.
   Notes: While the other handles stand still, 5n + 11 steps are enough, with n nodes in the bucket of the key.

       if (vbr_map_get(&map[1], 5, &value) == VBR_YES) there++; // 5 had this value during the call */
VBR_NODISCARD static inline vbr_answer vbr_map_get(vbr_map_handle *handle, uint64_t key,
                                                   uint64_t *value) VBR_NOEXCEPT VBR_NONNULL_FIRST;

/* Looks a key up and gives its value within a budget of `steps`, as vbr_map_get does.

       told = vbr_map_get_within(&map[0], 7, &value, 500); // at most 500 steps */
VBR_NODISCARD vbr_answer vbr_map_get_within(vbr_map_handle *handle, uint64_t key, uint64_t *value,
                                            uint32_t steps) VBR_NOEXCEPT VBR_NONNULL_FIRST;

/* Gives a key that is there another value, so that no call finds it absent meanwhile.
   Parameters: handle, key, value.
   - there: null, or where the value that it had is written, after VBR_YES alone.
   Returns:
   - VBR_YES: the key was there, and has the new value.
   - VBR_NO: it was absent, and nothing was changed.
   - VBR_NO_HANDLE, VBR_HELD, VBR_OUT_OF_STEPS.
   - VBR_NO_SLOT, VBR_EPOCH_SPENT: the key was there at a moment.
   Leaves: after VBR_YES the new value in a slot that it took. The old value has given its own back.
   Notes: As many steps as for vbr_map_insert are enough.

       if (vbr_map_replace(&map[0], 5, 72, &found) == VBR_YES) changed++; // 5 had the value found, and has 72 */
VBR_NODISCARD static inline vbr_answer vbr_map_replace(vbr_map_handle *handle, uint64_t key, uint64_t value,
                                                       uint64_t *there) VBR_NOEXCEPT VBR_NONNULL_FIRST;

/* Gives a key that is there another value within a budget of `steps`, as vbr_map_replace does.

       told = vbr_map_replace_within(&map[0], 7, 71, &value, 500); // at most 500 steps */
VBR_NODISCARD vbr_answer vbr_map_replace_within(vbr_map_handle *handle, uint64_t key, uint64_t value, uint64_t *there,
                                                uint32_t steps) VBR_NOEXCEPT VBR_NONNULL_FIRST;

/* Gives a key this value, whether it is there or not.
   Parameters: handle, key, value.
   - there: null, or where the value that it had is written, after VBR_YES alone.
   Returns:
   - VBR_YES: the key was there, and has the new value.
   - VBR_NO: it was absent, and is inserted.
   - VBR_NO_HANDLE, VBR_HELD, VBR_OUT_OF_STEPS, VBR_NO_SLOT, VBR_EPOCH_SPENT.
   Leaves: what vbr_map_replace leaves, or after VBR_NO what vbr_map_insert leaves when it adds a key.
   Notes: As many steps as for vbr_map_insert are enough.

       if (vbr_map_put(&map[1], 6, 60, NULL) == VBR_NO) added++; // 6 was absent; either way it has 60 */
VBR_NODISCARD static inline vbr_answer vbr_map_put(vbr_map_handle *handle, uint64_t key, uint64_t value,
                                                   uint64_t *there) VBR_NOEXCEPT VBR_NONNULL_FIRST;

/* Gives a key this value within a budget of `steps`, as vbr_map_put does.

       told = vbr_map_put_within(&map[0], 7, 72, NULL, 500); // at most 500 steps */
VBR_NODISCARD vbr_answer vbr_map_put_within(vbr_map_handle *handle, uint64_t key, uint64_t value, uint64_t *there,
                                            uint32_t steps) VBR_NOEXCEPT VBR_NONNULL_FIRST;

/* Adds a number modulo 2^64 to the value of a key, or inserts the key with it: a counter, in one call.
   Parameters: handle, key.
   - delta: what is added; 2^64 - n takes n off.
   - there: null, or where the value that it had is written, after VBR_YES alone.
   Returns:
   - VBR_YES: the key was there, and has the sum.
   - VBR_NO: it was absent, and is inserted with delta.
   - VBR_NO_HANDLE, VBR_HELD, VBR_OUT_OF_STEPS, VBR_NO_SLOT, VBR_EPOCH_SPENT.
   Leaves: what vbr_map_put leaves.
   Notes: No other call comes between the value that it had and the sum, so no addition is lost. Its budget and its cost are those
   of a put.

       if (vbr_map_fetch_add(&map[0], 6, 1, &before) == VBR_YES) counted++; // 6 had the value before, and has one more */
VBR_NODISCARD static inline vbr_answer vbr_map_fetch_add(vbr_map_handle *handle, uint64_t key, uint64_t delta,
                                                         uint64_t *there) VBR_NOEXCEPT VBR_NONNULL_FIRST;

/* Adds a number to the value of a key, or inserts the key with it, within a budget of `steps`, as vbr_map_fetch_add does.

       told = vbr_map_fetch_add_within(&map[0], 7, 2, &value, 500); // at most 500 steps */
VBR_NODISCARD vbr_answer vbr_map_fetch_add_within(vbr_map_handle *handle, uint64_t key, uint64_t delta, uint64_t *there,
                                                  uint32_t steps) VBR_NOEXCEPT VBR_NONNULL_FIRST;

/* Gives the value of a key, or inserts the key with this one: a get or an insert, in one call.
   Parameters: handle, key, value.
   - there: null, or where the value that it has is written, after VBR_YES alone.
   Returns:
   - VBR_YES: the key is there, and keeps its value.
   - VBR_NO: it was absent, and is inserted.
   - VBR_NO_HANDLE, VBR_HELD, VBR_OUT_OF_STEPS.
   - VBR_NO_SLOT, VBR_EPOCH_SPENT: the key is absent.
   Leaves: after VBR_NO what vbr_map_insert leaves when it adds a key.
   Notes: As many steps as for vbr_map_insert are enough.

       if (vbr_map_get_or_insert(&map[0], 5, 1, &found) == VBR_YES) there++; // 5 had the value found, and keeps it */
VBR_NODISCARD static inline vbr_answer vbr_map_get_or_insert(vbr_map_handle *handle, uint64_t key, uint64_t value,
                                                             uint64_t *there) VBR_NOEXCEPT VBR_NONNULL_FIRST;

/* Gives the value of a key, or inserts it, within a budget of `steps`, as vbr_map_get_or_insert does.

       told = vbr_map_get_or_insert_within(&map[0], 7, 73, &value, 500); // at most 500 steps */
VBR_NODISCARD vbr_answer vbr_map_get_or_insert_within(vbr_map_handle *handle, uint64_t key, uint64_t value, uint64_t *there,
                                                      uint32_t steps) VBR_NOEXCEPT VBR_NONNULL_FIRST;

/* Gives a key another value if it has the one that is expected.
   Parameters: handle, key, expected, value.
   - there: null, or where the value that it had is written, after VBR_YES and VBR_OTHER alone.
   Returns:
   - VBR_YES: the key had the expected value, and has the new one.
   - VBR_OTHER: it is there with another value, and nothing was changed.
   - VBR_NO: it is absent, and nothing was changed.
   - VBR_NO_HANDLE, VBR_HELD, VBR_OUT_OF_STEPS.
   - VBR_NO_SLOT, VBR_EPOCH_SPENT: the key had the expected value at a moment.
   Leaves: after VBR_YES what vbr_map_replace leaves; else it is a look-up.
   Notes: A value that is computed from the one found is stored so, and no other thread's is lost. Two more steps than for
   vbr_map_insert are enough.

       vbr_answer told = vbr_map_get(&map[0], 5, &seen) == VBR_YES ? VBR_OTHER : VBR_NO;
       while (told == VBR_OTHER) // until nobody else has changed it since it was seen
           told = vbr_map_compare_exchange(&map[0], 5, seen, seen + 1, &seen); */
VBR_NODISCARD static inline vbr_answer vbr_map_compare_exchange(vbr_map_handle *handle, uint64_t key, uint64_t expected,
                                                                uint64_t value, uint64_t *there) VBR_NOEXCEPT VBR_NONNULL_FIRST;

/* Gives a key another value if it has the one that is expected, within a budget of `steps`, as vbr_map_compare_exchange does.

       told = vbr_map_compare_exchange_within(&map[0], 7, 72, 74, NULL, 500); // at most 500 steps */
VBR_NODISCARD vbr_answer vbr_map_compare_exchange_within(vbr_map_handle *handle, uint64_t key, uint64_t expected, uint64_t value,
                                                         uint64_t *there, uint32_t steps) VBR_NOEXCEPT VBR_NONNULL_FIRST;

/* Takes a key out if it has the value that is expected.
   Parameters: handle, key, expected.
   - there: null, or where the value that it had is written, after VBR_YES and VBR_OTHER alone.
   Returns:
   - VBR_YES: the key had the expected value, and is taken out.
   - VBR_OTHER: it is there with another value, and nothing was changed.
   - VBR_NO: it is absent, and nothing was changed.
   - VBR_NO_HANDLE, VBR_OUT_OF_STEPS.
   Leaves: after VBR_YES what vbr_map_remove leaves; else it is a look-up.
   Notes: As many steps as for vbr_map_remove are enough.

       if (vbr_map_remove_if(&map[0], 6, 61, &found) == VBR_OTHER) kept++; // 6 has the value found, and is still there */
VBR_NODISCARD static inline vbr_answer vbr_map_remove_if(vbr_map_handle *handle, uint64_t key, uint64_t expected,
                                                         uint64_t *there) VBR_NOEXCEPT VBR_NONNULL_FIRST;

/* Takes a key out if it has the value that is expected, within a budget of `steps`, as vbr_map_remove_if does.

       told = vbr_map_remove_if_within(&map[0], 7, 75, &value, 500); // at most 500 steps */
VBR_NODISCARD vbr_answer vbr_map_remove_if_within(vbr_map_handle *handle, uint64_t key, uint64_t expected, uint64_t *there,
                                                  uint32_t steps) VBR_NOEXCEPT VBR_NONNULL_FIRST;

/* Looks a key up without its value.
   Parameters: handle, key.
   Returns:
   - VBR_YES: the key is there.
   - VBR_NO: it is absent.
   - VBR_NO_HANDLE, VBR_OUT_OF_STEPS.
   Leaves: the map as it was: its steps are loads, two less than those of vbr_map_get.

       if (vbr_map_has(&map[0], 5) == VBR_YES) there++; // 5 was there during the call */
VBR_NODISCARD static inline vbr_answer vbr_map_has(vbr_map_handle *handle, uint64_t key) VBR_NOEXCEPT VBR_NONNULL;

/* Looks a key up within a budget of `steps`, as vbr_map_has does.

       told = vbr_map_has_within(&map[0], 7, 500); // at most 500 steps */
VBR_NODISCARD vbr_answer vbr_map_has_within(vbr_map_handle *handle, uint64_t key, uint32_t steps) VBR_NOEXCEPT VBR_NONNULL;

/* Looks `count` keys up without their values, in their order, each by a call of its own.
   Parameters: handle.
   - keys, count: these keys. With a count of 0 the pointers other than `handle` may be null.
   - answers: as many; answers[i] is set to what vbr_map_has returns for keys[i].
   Returns: nothing. A refusal of one look-up says nothing about the others.
   Leaves: what vbr_map_has leaves.
   Notes: It is for many keys, as vbr_has_all is.

       vbr_map_has_all(&map[0], wanted, 3, answers);
       for (int i = 0; i < 3; i++) there += answers[i] == VBR_YES; // wanted[i] was there during its call */
static inline void vbr_map_has_all(vbr_map_handle *handle, const uint64_t *keys, size_t count,
                                   vbr_answer *answers) VBR_NOEXCEPT VBR_NONNULL_FIRST;

/* Looks keys up within a budget of `steps` for each key, as vbr_map_has_all does.

       vbr_map_has_all_within(&map[0], wanted, 3, answers, 500); // at most 500 steps for each key */
void vbr_map_has_all_within(vbr_map_handle *handle, const uint64_t *keys, size_t count, vbr_answer *answers,
                            uint32_t steps) VBR_NOEXCEPT VBR_NONNULL_FIRST;

/* What vbr_map_get_all writes for a key.

       vbr_found given[3]; */
typedef struct vbr_found {
    uint64_t value;    /* the value of the key if the answer is VBR_YES, else 0 */
    vbr_answer answer; /* VBR_YES, VBR_NO, VBR_OUT_OF_STEPS or VBR_NO_HANDLE */
} vbr_found;

/* Looks `count` keys up and gives their values, as vbr_has_all looks keys up.
   Parameters: handle.
   - keys, count: as of vbr_has_all.
   - found: as many; found[i] is set to what vbr_map_get returns for keys[i], and the value.
   Returns: nothing. A refusal of one look-up says nothing about the others.
   Leaves: what vbr_map_get leaves.

       vbr_map_get_all(&map[0], wanted, 3, given);
       for (int i = 0; i < 3; i++) sum += given[i].value; // 0 if wanted[i] isn't there */
static inline void vbr_map_get_all(vbr_map_handle *handle, const uint64_t *keys, size_t count,
                                   vbr_found *found) VBR_NOEXCEPT VBR_NONNULL_FIRST;

/* Looks keys up and gives their values within a budget of `steps` for each key, as vbr_map_get_all does.

       vbr_map_get_all_within(&map[0], wanted, 3, given, 500); // at most 500 steps for each key */
void vbr_map_get_all_within(vbr_map_handle *handle, const uint64_t *keys, size_t count, vbr_found *found,
                            uint32_t steps) VBR_NOEXCEPT VBR_NONNULL_FIRST;

/* Gives the next key of a walk with its value, by loads alone.
   Parameters: handle.
   - cursor: where the walk stands.
   - entry: where the next entry is written, after VBR_YES alone.
   Returns:
   - VBR_YES: one is left: the two were in the map together at a moment of the call.
   - VBR_NO: the walk is at its end: no key is left.
   - VBR_NO_HANDLE, VBR_RESHAPED.
   - VBR_OUT_OF_STEPS: call again, and with twice the budget if that may have been too small.
   Leaves: the cursor after the key that was given, and at VBR_OUT_OF_STEPS as far as it has come.
   Notes: What vbr_next says of its steps holds here too. In a map the value takes two steps more.

       do {
           told = vbr_map_next(&map[0], &cursor, &entry);
           if (told == VBR_YES) sum += entry.value; // the key had this value during the call
       } while (told == VBR_YES || told == VBR_OUT_OF_STEPS); // at the end it is VBR_NO */
VBR_NODISCARD static inline vbr_answer vbr_map_next(vbr_map_handle *handle, vbr_cursor *cursor,
                                                    vbr_entry *entry) VBR_NOEXCEPT VBR_NONNULL;

/* Gives the next entry of a walk within a budget of `steps`, as vbr_map_next does.

       told = vbr_map_next_within(&map[0], &cursor, &entry, 5000); // at most 5000 steps */
VBR_NODISCARD vbr_answer vbr_map_next_within(vbr_map_handle *handle, vbr_cursor *cursor, vbr_entry *entry,
                                             uint32_t steps) VBR_NOEXCEPT VBR_NONNULL;

/* What a handle to a map knows, and its slots */

/* Returns the epoch that the handle read last in a call.
   Parameters: handle.
   Returns: that epoch; 1 before its first call, and 0 for an empty handle. Renew the map before it reaches vbr_map_last_epoch.
   Leaves: all as it was. It makes no step, so others may have advanced the epoch since.

       int is_near = vbr_map_epoch(&map[0]) + 1000 >= vbr_map_last_epoch(&map[0]); // then renew the map */
VBR_NODISCARD uint64_t vbr_map_epoch(const vbr_map_handle *handle) VBR_NOEXCEPT VBR_NONNULL;

/* Returns the last epoch that the map was opened with.
   Parameters: handle.
   Returns: that number, and 0 for an empty handle.
   Leaves: all as it was.

       uint64_t left = vbr_map_last_epoch(&map[0]) - vbr_map_epoch(&map[0]); */
VBR_NODISCARD uint64_t vbr_map_last_epoch(const vbr_map_handle *handle) VBR_NOEXCEPT VBR_NONNULL;

/* Returns how many slots the map was opened with.
   Parameters: handle.
   Returns: that number, and 0 for an empty handle.
   Leaves: all as it was.

       uint32_t most = vbr_map_slots(&map[0]) - 2 * 64; // so many keys have room for certain */
VBR_NODISCARD uint32_t vbr_map_slots(const vbr_map_handle *handle) VBR_NOEXCEPT VBR_NONNULL;

/* Returns how many buckets the map was opened with.
   Parameters: handle.
   Returns: that number, and 0 for an empty handle.
   Leaves: all as it was.

       int is_crowded = 3 > 2 * vbr_map_buckets(&map[0]); // three keys, and more than two for each bucket */
VBR_NODISCARD uint32_t vbr_map_buckets(const vbr_map_handle *handle) VBR_NOEXCEPT VBR_NONNULL;

/* Returns a seed below 2^63 that spreads keys over the buckets as those of the map are spread.
   Parameters: handle.
   Returns: the seed that the map was opened with, drawn or given; if that is 2^63 or more, its equivalent, which is 2^63 less; 0
   for an empty handle.
   Leaves: all as it was.

       uint64_t seed = vbr_map_seed(&map[0]); // opens a map whose keys have the same buckets */
VBR_NODISCARD uint64_t vbr_map_seed(const vbr_map_handle *handle) VBR_NOEXCEPT VBR_NONNULL;

/* Returns how many keys the handle's calls have added, less those that they took out.
   Parameters: handle.
   Returns: that number. Of the handles that were opened together the first begins with the keys that the map opened with, the
   others with 0; an empty handle has 0.
   Leaves: all as it was. It makes no step.
   Notes: A call that changes a value leaves it as it was. What vbr_balance says of the sum over all handles holds here too.

       int64_t entered = vbr_map_balance(&map[0]) + vbr_map_balance(&map[1]); // no call is under way */
VBR_NODISCARD int64_t vbr_map_balance(const vbr_map_handle *handle) VBR_NOEXCEPT VBR_NONNULL;

/* Returns how often calls by the handle broke a traversal off, since others had changed what it read, and began it anew.
   Parameters: handle.
   Returns: that number since the opening or the last renewal, and 0 for an empty handle. It is counted for those who operate a
   program, and tested; nothing is proved of it.
   Leaves: all as it was. It makes no step.

       uint64_t began = vbr_map_restarts(&map[0]); // 0 while no other thread makes calls */
VBR_NODISCARD uint64_t vbr_map_restarts(const vbr_map_handle *handle) VBR_NOEXCEPT VBR_NONNULL;

/* Returns how many removed nodes calls by the handle met on their way, and unlinked for others.
   Parameters: handle.
   Returns: that number, of which vbr_map_restarts says the rest.
   Leaves: all as it was. It makes no step.

       uint64_t unlinked = vbr_map_helps(&map[0]); // removes of others that were held up */
VBR_NODISCARD uint64_t vbr_map_helps(const vbr_map_handle *handle) VBR_NOEXCEPT VBR_NONNULL;

/* Returns how often calls by the handle advanced the epoch.
   Parameters: handle.
   Returns: that number, of which vbr_map_restarts says the rest. The epoch is one more than those of all handles together, while
   none was renewed.
   Leaves: all as it was. It makes no step.

       uint64_t moved = vbr_map_advances(&map[0]) + vbr_map_advances(&map[1]); // the epoch less 1 */
VBR_NODISCARD uint64_t vbr_map_advances(const vbr_map_handle *handle) VBR_NOEXCEPT VBR_NONNULL;

/* Returns how many slots lie in the pool that all handles share.
   Parameters: handle.
   Returns: that number, at most that of the slots, and 0 for an empty handle. It is exact while no call is under way, and else what
   others take and give meanwhile may be counted or not.
   Leaves: all as it was. It loads one word for each 64 slots, and makes no step.

       uint32_t shared = vbr_map_free_about(&map[0]); // besides, each handle keeps some to itself */
VBR_NODISCARD uint32_t vbr_map_free_about(const vbr_map_handle *handle) VBR_NOEXCEPT VBR_NONNULL;

/* Puts the slots that the handle keeps to itself into the pool that all handles share, where any of them finds them.
   Parameters:
   - handle: one that won't insert for a while.
   Returns: how many it gave back, at most 64, and 0 for an empty handle. It can't fail.
   Leaves: the handle without slots of its own. Its next insert that adds a key takes slots in reserve again, as vbr_reserve says.
   Notes: It makes one step for each slot, makes no call on the map, and takes no memory. A handle that is closed or dropped does so
   by itself.

       uint32_t spared = vbr_map_give_slots_back(&map[0]); // map[1] can have them now */
static inline uint32_t vbr_map_give_slots_back(vbr_map_handle *handle) VBR_NOEXCEPT VBR_NONNULL;
uint32_t vbr_map_spare(vbr_map_handle *handle) VBR_NOEXCEPT VBR_NONNULL VBR_DEPRECATED("vbr_map_give_slots_back"); /* the old name, for one version */

/* Takes slots for the handle's next inserts out of the pool that all handles share.
   Parameters: handle.
   - wanted: how many the handle then keeps to itself, or 63 if that is less.
   Returns: how many it took: fewer only if one pass over all slots finds no more, and 0 for an empty handle. It can't fail.
   Leaves: these slots for this handle alone. vbr_map_give_slots_back does the opposite.
   Notes: What vbr_reserve says of its steps, and of the reserve that a handle keeps by itself, holds here too.

       uint32_t reserved = vbr_map_reserve(&map[0], 32); // for its next inserts */
uint32_t vbr_map_reserve(vbr_map_handle *handle, uint32_t wanted) VBR_NOEXCEPT VBR_NONNULL;

/* Reports, closes and renewals of maps */

/* Closes a handle; the last one of a map ends it, with a report.
   Parameters:
   - handle: it may be null, as an empty one.
   - entries, room: an array of `room` elements, where the entries, ascending by key, are written, after VBR_YES alone. Elements
     after the last entry are left alone. An array as long as the map has slots always suffices.
   - report: where the report is written, after VBR_YES and VBR_NO_ROOM alone.
   Returns:
   - VBR_YES: it was the last, and the map is closed.
   - VBR_NO: other handles of its map are open.
   - VBR_NO_HANDLE.
   - VBR_NO_MEMORY: it is the last. Only then is memory needed, which is freed again.
   - VBR_LOST.
   - VBR_NO_ROOM: it is the last, and there are more entries than `room`: so many as report->live says.
   Leaves: the handle empty, and its slots given back, as by vbr_map_give_slots_back, and its pass. After VBR_NO_MEMORY and
   VBR_NO_ROOM it is still full: close it again, drop it, or go on with it.

       vbr_answer first = vbr_map_close(&map[0], entries, 8, &report); // VBR_NO: the other handle is open
       vbr_answer last = vbr_map_close(&map[1], entries, 8, &report);  // VBR_YES: report.live entries are in front of entries */
VBR_NODISCARD vbr_answer vbr_map_close(vbr_map_handle *handle, vbr_entry *entries, size_t room,
                                       vbr_report *report) VBR_NOEXCEPT VBR_NONNULL_REST;

/* Closes a map by all handles that were opened with it, with a report.
   Parameters:
   - handles, count, entries, room, report: as of vbr_map_report_all.
   Returns: what vbr_map_report_all returns; after VBR_YES it is closed.
   Leaves: after VBR_YES the handles empty, and else as they were. The entries are what all calls on these handles left.
   Notes: It takes the memory of a close.

       vbr_answer closed = vbr_map_close_all(map, 2, entries, 8, &report); // VBR_YES: three entries, {2, 20} the first of them */
VBR_NODISCARD vbr_answer vbr_map_close_all(vbr_map_handle *handles, size_t count, vbr_entry *entries, size_t room,
                                           vbr_report *report) VBR_NOEXCEPT VBR_NONNULL;

/* Reports what is in a map by all handles that were opened with it.
   Parameters: handles, count.
   - entries, room, report: written as by vbr_map_close.
   Returns:
   - VBR_YES: it is reported.
   - VBR_NO_HANDLE.
   - VBR_MISSING: the handles are fewer than were opened, or count is 0.
   - VBR_MIXED.
   - VBR_MISSING: a handle stands there twice, as a copy.
   - VBR_NO_MEMORY.
   - VBR_NO_ROOM: there are more entries than `room`: so many as report->live says.
   Leaves: the handles as they were; they go on.
   Notes: It takes the memory of a close.

       vbr_answer told = vbr_map_report_all(map, 2, entries, 8, &report); // VBR_YES: report.live entries are in front of entries */
VBR_NODISCARD vbr_answer vbr_map_report_all(vbr_map_handle *handles, size_t count, vbr_entry *entries, size_t room,
                                            vbr_report *report) VBR_NOEXCEPT VBR_NONNULL;

/* Lets all handles of a map go on over a fresh one of this shape, with the entries that were in it.
   Parameters: handles, count, slots, buckets, last_epoch.
   Returns:
   - VBR_OK: it is renewed.
   - VBR_BAD_SHAPE, VBR_NO_HANDLE.
   - VBR_MISSING: the handles are not as many as were opened.
   - VBR_MIXED.
   - VBR_MISSING: a handle stands there twice, as a copy.
   - VBR_NO_ROOM: there are more keys than slots, which the handles' balances show if there is no memory for a report.
   - VBR_NO_MEMORY.
   Leaves: the map at epoch 1, with the seed that it had. The first handle's balance is the number of keys, and the others' is 0.
   Walks that have begun are refused from then on, by VBR_RESHAPED. Each handle has taken its reserve. A refusal leaves the handles
   as they were, and they go on.
   Notes: It takes the memory of a report and of an opening with the entries while the old map is still there, whose memory is freed
   afterwards.

       vbr_answer renewed = vbr_map_renew_all(map, 2, 2048 + 2 * 64, 2048, VBR_MAX_EPOCH); // VBR_OK: twice as large */
VBR_NODISCARD vbr_answer vbr_map_renew_all(vbr_map_handle *handles, size_t count, uint32_t slots, uint32_t buckets,
                                           uint64_t last_epoch) VBR_NOEXCEPT VBR_NONNULL;

/* Lets all handles go on over a fresh map with its keys spread by this seed, as vbr_map_renew_all does otherwise.
   Parameters: handles, count, slots, buckets, last_epoch.
   - seed: as of vbr_open_seeded.
   Returns: what vbr_map_renew_all returns.
   Leaves: what vbr_map_renew_all leaves, but for the seed.

       vbr_answer renewed = vbr_map_renew_all_seeded(map, 2, 2048 + 2 * 64, 2048, VBR_MAX_EPOCH, vbr_random_seed()); */
VBR_NODISCARD vbr_answer vbr_map_renew_all_seeded(vbr_map_handle *handles, size_t count, uint32_t slots, uint32_t buckets,
                                                  uint64_t last_epoch, uint64_t seed) VBR_NOEXCEPT VBR_NONNULL;

/* Releases a handle, and makes no report.
   Parameters:
   - handle: empty or full; it may be null, and then nothing is done.
   Returns: nothing. It needs no memory, and can't fail.
   Leaves: the handle empty, and its slots and its pass given back as by a close. The last handle of the map that is closed still
   gets the report. If the last one is dropped, the map ends.

       vbr_map_drop(&map[0]); // the close of map[1] gets the report */
void vbr_map_drop(vbr_map_handle *handle) VBR_NOEXCEPT;

/* Releases all these handles, each as vbr_map_drop does.
   Parameters:
   - handles, count: in any order. They may belong to several maps, or be empty. One that stands there twice, as a copy, is released
     once. No other thread may be in a call on one of them.
   Returns: nothing. It takes no time for a report, and no memory.
   Leaves: the handles empty. With the last handle of a map its memory is freed, and nothing is reported.

       vbr_map_end_all(map, 2); // nothing is reported, and the memory of the map is freed */
void vbr_map_end_all(vbr_map_handle *handles, size_t count) VBR_NOEXCEPT VBR_NONNULL;

/* Slots in hand, for records beside the entries */

/* Where an entry stands: the slot of its node, and the birth of that node; in a map also its value, and in a set 0. No other node that
   was ever in that slot has this birth. So it names one entry, which may have left meanwhile, and no later one with the same key. It
   stays valid until the set is renewed or closed.

       vbr_incarnation at = {0, 0, 0}; // what a call that finds the key writes */
typedef struct vbr_incarnation {
    uint64_t birth;
    uint64_t value;
    uint32_t slot; /* below vbr_slots */
} vbr_incarnation;

/* Takes a slot in hand, for a record that the program keeps beside it.
   Parameters: handle.
   - slot: where its number, which is below vbr_slots, is written, after VBR_YES alone.
   Returns:
   - VBR_YES: it is in hand.
   - VBR_NO_HANDLE, VBR_HELD, VBR_OUT_OF_STEPS, VBR_NO_SLOT, VBR_EPOCH_SPENT.
   Leaves: the slot in the hand of this handle alone, until a call makes it the node of a key, or it is let go. So a program may write
   the record of this slot meanwhile, and nobody else does. A close, a drop and a renewal put it back.
   Notes: A slot that is held is one of the 64 that are counted for each handle. While there is one, the calls that would take another
   answer VBR_HELD: insert, replace, put, fetch_add, get_or_insert, compare_exchange, and this one. Look-ups, walks, removes and reports
   go on.

       if (vbr_hold(&handle[0], &slot) == VBR_YES) beside[slot] = 7; // nobody else writes there */
VBR_NODISCARD static inline vbr_answer vbr_hold(vbr_handle *handle, uint32_t *slot) VBR_NOEXCEPT VBR_NONNULL;

/* Takes a slot in hand within a budget of `steps`, as vbr_hold does.

       told = vbr_hold_within(&handle[0], &slot, 500); // at most 500 steps */
VBR_NODISCARD vbr_answer vbr_hold_within(vbr_handle *handle, uint32_t *slot, uint32_t steps) VBR_NOEXCEPT VBR_NONNULL;

/* Takes a slot in hand, for a record that the program keeps beside it.
   Parameters: handle.
   - slot: where its number, which is below vbr_map_slots, is written, after VBR_YES alone.
   Returns:
   - VBR_YES: it is in hand.
   - VBR_NO_HANDLE, VBR_HELD, VBR_OUT_OF_STEPS, VBR_NO_SLOT, VBR_EPOCH_SPENT.
   Leaves: the slot in the hand of this handle alone, until a call makes it the node of a key, or it is let go. So a program may write
   the record of this slot meanwhile, and nobody else does. A close, a drop and a renewal put it back.
   Notes: What vbr_hold says of a held slot holds here too.

       if (vbr_map_hold(&map[0], &slot) == VBR_YES) beside[slot] = 7; // nobody else writes there */
VBR_NODISCARD static inline vbr_answer vbr_map_hold(vbr_map_handle *handle, uint32_t *slot) VBR_NOEXCEPT VBR_NONNULL;

/* Takes a slot in hand within a budget of `steps`, as vbr_map_hold does.

       told = vbr_map_hold_within(&map[0], &slot, 500); // at most 500 steps */
VBR_NODISCARD vbr_answer vbr_map_hold_within(vbr_map_handle *handle, uint32_t *slot, uint32_t steps) VBR_NOEXCEPT VBR_NONNULL;

/* Puts the held slot back.
   Parameters: handle.
   Returns:
   - VBR_YES: it was put back.
   - VBR_NO_HANDLE.
   - VBR_HELD: none is held.
   Leaves: no slot in hand. It makes at most one step.

       if (vbr_let_go(&handle[0]) == VBR_YES) let_go++; // and its record isn't written any more */
VBR_NODISCARD vbr_answer vbr_let_go(vbr_handle *handle) VBR_NOEXCEPT VBR_NONNULL;

/* Puts the held slot back.
   Parameters: handle.
   Returns:
   - VBR_YES: it was put back.
   - VBR_NO_HANDLE.
   - VBR_HELD: none is held.
   Leaves: no slot in hand. It makes at most one step.

       if (vbr_map_let_go(&map[0]) == VBR_YES) let_go++; // and its record isn't written any more */
VBR_NODISCARD vbr_answer vbr_map_let_go(vbr_map_handle *handle) VBR_NOEXCEPT VBR_NONNULL;

/* Adds a key by the slot that is held.
   Parameters: handle, key.
   Returns:
   - VBR_YES: the key was absent, and stands in this slot.
   - VBR_NO: it was there.
   - VBR_NO_HANDLE.
   - VBR_HELD: none is held.
   - VBR_OUT_OF_STEPS.
   Leaves: the slot held unless VBR_YES, and its record may still be written. After VBR_YES none is held, and the handle tops up its
   reserve, as vbr_reserve says.

       if (vbr_insert_held(&handle[0], 5) == VBR_YES) added++; // 5 stands in this slot, with what was written beside it */
VBR_NODISCARD static inline vbr_answer vbr_insert_held(vbr_handle *handle, uint64_t key) VBR_NOEXCEPT VBR_NONNULL;

/* Adds a key within a budget of `steps`, as vbr_insert_held does.

       told = vbr_insert_held_within(&handle[0], 7, 500); // at most 500 steps */
VBR_NODISCARD vbr_answer vbr_insert_held_within(vbr_handle *handle, uint64_t key, uint32_t steps) VBR_NOEXCEPT VBR_NONNULL;

/* Adds a key with its value by the slot that is held.
   Parameters: handle, key, value.
   Returns:
   - VBR_YES: the key was absent, and stands in this slot.
   - VBR_NO: it was there, and keeps its value.
   - VBR_NO_HANDLE.
   - VBR_HELD: none is held.
   - VBR_OUT_OF_STEPS.
   Leaves: the slot held unless VBR_YES, and its record may still be written. After VBR_YES none is held, and the handle tops up its
   reserve, as vbr_reserve says.

       if (vbr_map_insert_held(&map[0], 5, 70) == VBR_YES) added++; // 5 stands in this slot, with what was written beside it */
VBR_NODISCARD static inline vbr_answer vbr_map_insert_held(vbr_map_handle *handle, uint64_t key,
                                                           uint64_t value) VBR_NOEXCEPT VBR_NONNULL;

/* Adds a key with its value within a budget of `steps`, as vbr_map_insert_held does.

       told = vbr_map_insert_held_within(&map[0], 7, 71, 500); // at most 500 steps */
VBR_NODISCARD vbr_answer vbr_map_insert_held_within(vbr_map_handle *handle, uint64_t key, uint64_t value,
                                                    uint32_t steps) VBR_NOEXCEPT VBR_NONNULL;

/* Gives a key this value by the slot that is held, in place of the very entry that was found.
   Parameters: handle, key, value.
   - at: the entry that was found.
   Returns:
   - VBR_YES: the key still had that entry, and this slot took its place.
   - VBR_NO: it is absent, or has another entry by now, also one with the same value.
   - VBR_NO_HANDLE.
   - VBR_HELD: none is held.
   - VBR_OUT_OF_STEPS.
   Leaves: the slot held unless VBR_YES, and nothing changed. After VBR_YES none is held, and the slot of the old entry is given back as
   by vbr_map_replace.

       if (vbr_map_replace_held(&map[0], 5, &at, 71) == VBR_YES) changed++; // nobody had changed 5 since it was found */
VBR_NODISCARD static inline vbr_answer vbr_map_replace_held(vbr_map_handle *handle, uint64_t key, const vbr_incarnation *at,
                                                            uint64_t value) VBR_NOEXCEPT VBR_NONNULL;

/* Gives a key this value within a budget of `steps`, as vbr_map_replace_held does.

       told = vbr_map_replace_held_within(&map[0], 7, &at, 72, 500); // at most 500 steps */
VBR_NODISCARD vbr_answer vbr_map_replace_held_within(vbr_map_handle *handle, uint64_t key, const vbr_incarnation *at, uint64_t value,
                                                     uint32_t steps) VBR_NOEXCEPT VBR_NONNULL;

/* Gives a key this value by the slot that is held, whether it is there or not.
   Parameters: handle, key, value.
   - there: null, or where the value that it had is written, after VBR_YES alone.
   Returns:
   - VBR_YES: the key was there, and stands in the slot with the new value.
   - VBR_NO: it was absent, and is inserted in the slot.
   - VBR_NO_HANDLE.
   - VBR_HELD: none is held.
   - VBR_OUT_OF_STEPS: the slot is still held.
   Leaves: after VBR_YES and VBR_NO none held.

       if (vbr_map_put_held(&map[0], 6, 60, NULL) == VBR_NO) added++; // 6 was absent; either way it stands in this slot */
VBR_NODISCARD static inline vbr_answer vbr_map_put_held(vbr_map_handle *handle, uint64_t key, uint64_t value,
                                                        uint64_t *there) VBR_NOEXCEPT VBR_NONNULL_FIRST;

/* Gives a key this value within a budget of `steps`, as vbr_map_put_held does.

       told = vbr_map_put_held_within(&map[0], 7, 73, &value, 500); // at most 500 steps */
VBR_NODISCARD vbr_answer vbr_map_put_held_within(vbr_map_handle *handle, uint64_t key, uint64_t value, uint64_t *there,
                                                 uint32_t steps) VBR_NOEXCEPT VBR_NONNULL_FIRST;

/* Looks a key up and says where it stands.
   Parameters: handle, key.
   - at: where its entry is written, after VBR_YES alone.
   Returns:
   - VBR_YES: the key is there.
   - VBR_NO: it is absent.
   - VBR_NO_HANDLE, VBR_OUT_OF_STEPS.
   Leaves: what vbr_has leaves.
   Notes: Its steps are those of vbr_has, all loads.

       if (vbr_get_entry(&handle[1], 5, &at) == VBR_YES) there++; // 5 stood in at.slot during the call */
VBR_NODISCARD static inline vbr_answer vbr_get_entry(vbr_handle *handle, uint64_t key, vbr_incarnation *at) VBR_NOEXCEPT VBR_NONNULL;

/* Looks a key up within a budget of `steps`, as vbr_get_entry does.

       told = vbr_get_entry_within(&handle[1], 7, &at, 500); // at most 500 steps */
VBR_NODISCARD vbr_answer vbr_get_entry_within(vbr_handle *handle, uint64_t key, vbr_incarnation *at,
                                              uint32_t steps) VBR_NOEXCEPT VBR_NONNULL;

/* Looks a key up and says where it stands.
   Parameters: handle, key.
   - at: where its entry is written, with its value, after VBR_YES alone.
   Returns:
   - VBR_YES: the key is there.
   - VBR_NO: it is absent.
   - VBR_NO_HANDLE, VBR_OUT_OF_STEPS.
   Leaves: what vbr_map_get leaves.
   Notes: In a map its steps are those of vbr_map_get, all loads.

       if (vbr_map_get_entry(&map[1], 5, &at) == VBR_YES) there++; // 5 stood in at.slot, and had at.value */
VBR_NODISCARD static inline vbr_answer vbr_map_get_entry(vbr_map_handle *handle, uint64_t key,
                                                         vbr_incarnation *at) VBR_NOEXCEPT VBR_NONNULL;

/* Looks a key up within a budget of `steps`, as vbr_map_get_entry does.

       told = vbr_map_get_entry_within(&map[1], 7, &at, 500); // at most 500 steps */
VBR_NODISCARD vbr_answer vbr_map_get_entry_within(vbr_map_handle *handle, uint64_t key, vbr_incarnation *at,
                                                  uint32_t steps) VBR_NOEXCEPT VBR_NONNULL;

/* Says whether a slot still belongs to the entry that was found there.
   Parameters: handle.
   - at: the entry that was found.
   Returns:
   - VBR_YES: at each moment since the entry was found, no other node was in the slot, and nobody had it in hand. So a record that was
     copied from beside it in between is the entry's, and whole. The entry itself may have been taken out meanwhile.
   - VBR_NO: the slot was handed out anew, and what was copied belongs to no entry.
   - VBR_NO_HANDLE.
   Leaves: the set as it was. It makes one step, a load.

       if (vbr_is_still(&handle[1], &at) == VBR_YES) copied++; // what was copied since at was found is of this entry */
VBR_NODISCARD vbr_answer vbr_is_still(vbr_handle *handle, const vbr_incarnation *at) VBR_NOEXCEPT VBR_NONNULL;

/* Says whether a slot still belongs to the entry that was found there.
   Parameters: handle.
   - at: the entry that was found.
   Returns:
   - VBR_YES: at each moment since the entry was found, no other node was in the slot, and nobody had it in hand. So a record that was
     copied from beside it in between is the entry's, and whole. The entry itself may have been taken out meanwhile.
   - VBR_NO: the slot was handed out anew, and what was copied belongs to no entry.
   - VBR_NO_HANDLE.
   Leaves: the map as it was. It makes one step, a load.

       if (vbr_map_is_still(&map[1], &at) == VBR_YES) copied++; // what was copied since at was found is of this entry */
VBR_NODISCARD vbr_answer vbr_map_is_still(vbr_map_handle *handle, const vbr_incarnation *at) VBR_NOEXCEPT VBR_NONNULL;

/* Takes a key out if it still has the very entry that was found.
   Parameters: handle, key.
   - at: the entry that was found.
   Returns:
   - VBR_YES: the key had that entry, and is taken out.
   - VBR_NO: it is absent, or was taken out and added again since then; nothing was changed.
   - VBR_NO_HANDLE.
   - VBR_OUT_OF_STEPS: a budget that is enough for vbr_remove is enough.
   Leaves: what vbr_remove leaves.

       if (vbr_remove_entry(&handle[0], 5, &at) == VBR_YES) taken++; // 5 stood in at.slot all the while since it was found */
VBR_NODISCARD static inline vbr_answer vbr_remove_entry(vbr_handle *handle, uint64_t key,
                                                        const vbr_incarnation *at) VBR_NOEXCEPT VBR_NONNULL;

/* Takes a key out within a budget of `steps`, as vbr_remove_entry does.

       told = vbr_remove_entry_within(&handle[0], 7, &at, 500); // at most 500 steps */
VBR_NODISCARD vbr_answer vbr_remove_entry_within(vbr_handle *handle, uint64_t key, const vbr_incarnation *at,
                                                 uint32_t steps) VBR_NOEXCEPT VBR_NONNULL;

/* Takes a key out with its value if it still has the very entry that was found.
   Parameters: handle, key.
   - at: the entry that was found.
   Returns:
   - VBR_YES: the key had that entry, and is taken out.
   - VBR_NO: it is absent, or was taken out and added again, or given a value, even the same one, since then; nothing was changed.
   - VBR_NO_HANDLE.
   - VBR_OUT_OF_STEPS: a budget that is enough for vbr_map_remove is enough.
   Leaves: what vbr_map_remove leaves.

       if (vbr_map_remove_entry(&map[0], 5, &at) == VBR_YES) taken++; // nobody had changed 5 since it was found */
VBR_NODISCARD static inline vbr_answer vbr_map_remove_entry(vbr_map_handle *handle, uint64_t key,
                                                            const vbr_incarnation *at) VBR_NOEXCEPT VBR_NONNULL;

/* Takes a key out within a budget of `steps`, as vbr_map_remove_entry does.

       told = vbr_map_remove_entry_within(&map[0], 7, &at, 500); // at most 500 steps */
VBR_NODISCARD vbr_answer vbr_map_remove_entry_within(vbr_map_handle *handle, uint64_t key, const vbr_incarnation *at,
                                                     uint32_t steps) VBR_NOEXCEPT VBR_NONNULL;

/* Gives the next key of a walk and says where it stands.
   Parameters: handle.
   - cursor: where the walk stands.
   - key, at: where the next key and its entry are written, after VBR_YES alone.
   Returns:
   - VBR_YES: one is left, which stood there at a moment of the call.
   - VBR_NO: the walk is at its end.
   - VBR_NO_HANDLE, VBR_RESHAPED, VBR_OUT_OF_STEPS.
   Leaves: what vbr_next leaves. Its steps are those of vbr_next.

       do {
           told = vbr_next_at(&handle[0], &cursor, &key, &at);
           if (told == VBR_YES) walked += key; // the key stood in at.slot
       } while (told == VBR_YES || told == VBR_OUT_OF_STEPS); // at the end it is VBR_NO */
VBR_NODISCARD static inline vbr_answer vbr_next_at(vbr_handle *handle, vbr_cursor *cursor, uint64_t *key,
                                                   vbr_incarnation *at) VBR_NOEXCEPT VBR_NONNULL;

/* Gives the next key of a walk within a budget of `steps`, as vbr_next_at does.

       told = vbr_next_at_within(&handle[0], &cursor, &key, &at, 5000); // at most 5000 steps */
VBR_NODISCARD vbr_answer vbr_next_at_within(vbr_handle *handle, vbr_cursor *cursor, uint64_t *key, vbr_incarnation *at,
                                            uint32_t steps) VBR_NOEXCEPT VBR_NONNULL;

/* Gives the next key of a walk and says where it stands.
   Parameters: handle.
   - cursor: where the walk stands.
   - key, at: where the next key and its entry with its value are written, after VBR_YES alone.
   Returns:
   - VBR_YES: one is left, which stood there, and had this value, at a moment of the call.
   - VBR_NO: the walk is at its end.
   - VBR_NO_HANDLE, VBR_RESHAPED, VBR_OUT_OF_STEPS.
   Leaves: what vbr_map_next leaves. Its steps are those of vbr_map_next.

       do {
           told = vbr_map_next_at(&map[0], &cursor, &key, &at);
           if (told == VBR_YES) sum += at.value; // the key stood in at.slot, and had this value
       } while (told == VBR_YES || told == VBR_OUT_OF_STEPS); // at the end it is VBR_NO */
VBR_NODISCARD static inline vbr_answer vbr_map_next_at(vbr_map_handle *handle, vbr_cursor *cursor, uint64_t *key,
                                                       vbr_incarnation *at) VBR_NOEXCEPT VBR_NONNULL;

/* Gives the next key of a walk within a budget of `steps`, as vbr_map_next_at does.

       told = vbr_map_next_at_within(&map[0], &cursor, &key, &at, 5000); // at most 5000 steps */
VBR_NODISCARD vbr_answer vbr_map_next_at_within(vbr_map_handle *handle, vbr_cursor *cursor, uint64_t *key, vbr_incarnation *at,
                                                uint32_t steps) VBR_NOEXCEPT VBR_NONNULL;

/* Reports what is in a set and in which slots, as vbr_report_all does otherwise.
   Parameters: handles, count, report.
   - keys, slots, room: two arrays of `room` elements. keys[i] stands in slots[i].
   Returns: what vbr_report_all returns.
   Leaves: what vbr_report_all leaves. A renewal after it, with no call in between, gives keys[i] slot i: so the record beside slots[i]
   is the one to put beside slot i.

       vbr_answer told = vbr_report_slots(handle, 2, keys, slots, 8, &report); // VBR_YES: keys[i] stands in slots[i] */
VBR_NODISCARD vbr_answer vbr_report_slots(vbr_handle *handles, size_t count, uint64_t *keys, uint32_t *slots, size_t room,
                                          vbr_report *report) VBR_NOEXCEPT VBR_NONNULL;

/* Reports what is in a map and in which slots, as vbr_map_report_all does otherwise.
   Parameters: handles, count, report.
   - entries, slots, room: two arrays of `room` elements. entries[i] stands in slots[i].
   Returns: what vbr_map_report_all returns.
   Leaves: what vbr_map_report_all leaves. A renewal after it, with no call in between, gives entries[i] slot i: so the record beside
   slots[i] is the one to put beside slot i.

       vbr_answer told = vbr_map_report_slots(map, 2, entries, slots, 8, &report); // VBR_YES: entries[i] stands in slots[i] */
VBR_NODISCARD vbr_answer vbr_map_report_slots(vbr_map_handle *handles, size_t count, vbr_entry *entries, uint32_t *slots, size_t room,
                                              vbr_report *report) VBR_NOEXCEPT VBR_NONNULL;

#ifdef __cplusplus
}
#endif

#ifdef __SANITIZE_THREAD__
#include "vbr_tsan.h"
#elif defined(__has_feature)
#if __has_feature(thread_sanitizer)
#include "vbr_tsan.h"
#endif
#endif
#if defined(VBR_CHECKED) && !defined(VBR_TSAN_H)
#include "vbr_checked.h"
#endif
#ifdef VBR_STATS
#include "vbr_stats.h"
#endif

/* The calls without a budget: they use their handle's, and go by vbr_tsan.h if a program is compiled for ThreadSanitizer, by
   vbr_checked.h if it defines VBR_CHECKED, and by vbr_stats.h if it defines VBR_STATS. */

static inline vbr_answer vbr_insert(vbr_handle *handle, uint64_t key) VBR_NOEXCEPT {
    return vbr_insert_within(handle, key, vbr_steps_of(handle));
}
static inline vbr_answer vbr_remove(vbr_handle *handle, uint64_t key) VBR_NOEXCEPT {
    return vbr_remove_within(handle, key, vbr_steps_of(handle));
}
static inline vbr_answer vbr_has(vbr_handle *handle, uint64_t key) VBR_NOEXCEPT {
    return vbr_has_within(handle, key, vbr_steps_of(handle));
}
static inline void vbr_has_all(vbr_handle *handle, const uint64_t *keys, size_t count, vbr_answer *answers) VBR_NOEXCEPT {
    vbr_has_all_within(handle, keys, count, answers, vbr_steps_of(handle));
}
static inline vbr_answer vbr_next(vbr_handle *handle, vbr_cursor *cursor, uint64_t *key) VBR_NOEXCEPT {
    return vbr_next_within(handle, cursor, key, vbr_steps_of(handle));
}
static inline vbr_answer vbr_map_insert(vbr_map_handle *handle, uint64_t key, uint64_t value) VBR_NOEXCEPT {
    return vbr_map_insert_within(handle, key, value, vbr_map_steps_of(handle));
}
static inline vbr_answer vbr_map_remove(vbr_map_handle *handle, uint64_t key, uint64_t *value) VBR_NOEXCEPT {
    return vbr_map_remove_within(handle, key, value, vbr_map_steps_of(handle));
}
static inline vbr_answer vbr_map_get(vbr_map_handle *handle, uint64_t key, uint64_t *value) VBR_NOEXCEPT {
    return vbr_map_get_within(handle, key, value, vbr_map_steps_of(handle));
}
static inline vbr_answer vbr_map_replace(vbr_map_handle *handle, uint64_t key, uint64_t value, uint64_t *there) VBR_NOEXCEPT {
    return vbr_map_replace_within(handle, key, value, there, vbr_map_steps_of(handle));
}
static inline vbr_answer vbr_map_put(vbr_map_handle *handle, uint64_t key, uint64_t value, uint64_t *there) VBR_NOEXCEPT {
    return vbr_map_put_within(handle, key, value, there, vbr_map_steps_of(handle));
}
static inline vbr_answer vbr_map_fetch_add(vbr_map_handle *handle, uint64_t key, uint64_t delta, uint64_t *there) VBR_NOEXCEPT {
    return vbr_map_fetch_add_within(handle, key, delta, there, vbr_map_steps_of(handle));
}
static inline vbr_answer vbr_map_get_or_insert(vbr_map_handle *handle, uint64_t key, uint64_t value, uint64_t *there) VBR_NOEXCEPT {
    return vbr_map_get_or_insert_within(handle, key, value, there, vbr_map_steps_of(handle));
}
static inline vbr_answer vbr_map_compare_exchange(vbr_map_handle *handle, uint64_t key, uint64_t expected, uint64_t value,
                                                  uint64_t *there) VBR_NOEXCEPT {
    return vbr_map_compare_exchange_within(handle, key, expected, value, there, vbr_map_steps_of(handle));
}
static inline vbr_answer vbr_map_remove_if(vbr_map_handle *handle, uint64_t key, uint64_t expected, uint64_t *there) VBR_NOEXCEPT {
    return vbr_map_remove_if_within(handle, key, expected, there, vbr_map_steps_of(handle));
}
static inline vbr_answer vbr_map_has(vbr_map_handle *handle, uint64_t key) VBR_NOEXCEPT {
    return vbr_map_has_within(handle, key, vbr_map_steps_of(handle));
}
static inline void vbr_map_has_all(vbr_map_handle *handle, const uint64_t *keys, size_t count, vbr_answer *answers) VBR_NOEXCEPT {
    vbr_map_has_all_within(handle, keys, count, answers, vbr_map_steps_of(handle));
}
static inline void vbr_map_get_all(vbr_map_handle *handle, const uint64_t *keys, size_t count, vbr_found *found) VBR_NOEXCEPT {
    vbr_map_get_all_within(handle, keys, count, found, vbr_map_steps_of(handle));
}
static inline vbr_answer vbr_map_next(vbr_map_handle *handle, vbr_cursor *cursor, vbr_entry *entry) VBR_NOEXCEPT {
    return vbr_map_next_within(handle, cursor, entry, vbr_map_steps_of(handle));
}
static inline vbr_answer vbr_hold(vbr_handle *handle, uint32_t *slot) VBR_NOEXCEPT {
    return vbr_hold_within(handle, slot, vbr_steps_of(handle));
}
static inline vbr_answer vbr_map_hold(vbr_map_handle *handle, uint32_t *slot) VBR_NOEXCEPT {
    return vbr_map_hold_within(handle, slot, vbr_map_steps_of(handle));
}
static inline vbr_answer vbr_insert_held(vbr_handle *handle, uint64_t key) VBR_NOEXCEPT {
    return vbr_insert_held_within(handle, key, vbr_steps_of(handle));
}
static inline vbr_answer vbr_map_insert_held(vbr_map_handle *handle, uint64_t key, uint64_t value) VBR_NOEXCEPT {
    return vbr_map_insert_held_within(handle, key, value, vbr_map_steps_of(handle));
}
static inline vbr_answer vbr_map_replace_held(vbr_map_handle *handle, uint64_t key, const vbr_incarnation *at,
                                              uint64_t value) VBR_NOEXCEPT {
    return vbr_map_replace_held_within(handle, key, at, value, vbr_map_steps_of(handle));
}
static inline vbr_answer vbr_map_put_held(vbr_map_handle *handle, uint64_t key, uint64_t value, uint64_t *there) VBR_NOEXCEPT {
    return vbr_map_put_held_within(handle, key, value, there, vbr_map_steps_of(handle));
}
static inline vbr_answer vbr_get_entry(vbr_handle *handle, uint64_t key, vbr_incarnation *at) VBR_NOEXCEPT {
    return vbr_get_entry_within(handle, key, at, vbr_steps_of(handle));
}
static inline vbr_answer vbr_map_get_entry(vbr_map_handle *handle, uint64_t key, vbr_incarnation *at) VBR_NOEXCEPT {
    return vbr_map_get_entry_within(handle, key, at, vbr_map_steps_of(handle));
}
static inline vbr_answer vbr_remove_entry(vbr_handle *handle, uint64_t key, const vbr_incarnation *at) VBR_NOEXCEPT {
    return vbr_remove_entry_within(handle, key, at, vbr_steps_of(handle));
}
static inline vbr_answer vbr_map_remove_entry(vbr_map_handle *handle, uint64_t key, const vbr_incarnation *at) VBR_NOEXCEPT {
    return vbr_map_remove_entry_within(handle, key, at, vbr_map_steps_of(handle));
}
static inline vbr_answer vbr_next_at(vbr_handle *handle, vbr_cursor *cursor, uint64_t *key, vbr_incarnation *at) VBR_NOEXCEPT {
    return vbr_next_at_within(handle, cursor, key, at, vbr_steps_of(handle));
}
static inline vbr_answer vbr_map_next_at(vbr_map_handle *handle, vbr_cursor *cursor, uint64_t *key, vbr_incarnation *at) VBR_NOEXCEPT {
    return vbr_map_next_at_within(handle, cursor, key, at, vbr_map_steps_of(handle));
}

#ifdef __GNUC__
#pragma GCC diagnostic push
#pragma GCC diagnostic ignored "-Wdeprecated-declarations"
#endif
static inline uint32_t vbr_give_slots_back(vbr_handle *handle) VBR_NOEXCEPT {
    return vbr_spare(handle);
}
static inline uint32_t vbr_map_give_slots_back(vbr_map_handle *handle) VBR_NOEXCEPT {
    return vbr_map_spare(handle);
}
#ifdef __GNUC__
#pragma GCC diagnostic pop
#endif

#endif
