/* Handles that are lent: for programs whose threads come and go, or outnumber the handles of a set. A lender has open handles. A
   thread that wants to make calls borrows one, at once or not at all, and gives it back.

       vbr_handle handle[8] = {{0}};
       vbr_lender lender = {0};
       if (vbr_open(handle, 8, 1024 + 8 * 64, 1024, VBR_MAX_EPOCH) != VBR_OK) return 1;
       if (vbr_lender_init(&lender, handle, 8) != VBR_OK) return 1;

       vbr_handle *mine = vbr_lend(&lender);        // in any thread; NULL: all eight are lent
       if (mine) {
           vbr_answer added = vbr_insert(mine, 5);
           vbr_give_back(&lender, mine);
       }

   No call takes a lock or memory, and none waits. They stand above the calls of vbr.h, which are proved; this header is tested. A lender
   has words for 64 handles; for more, give vbr_lender_init_many some. No pointer that a call is given may be null. VBR_LEND_CHECKED says
   whether a program that gives a handle back twice, or to another lender, is ended with a sentence; a return is a second exchange then.

   The handles and the lender stay where they are while there are loans. A lender takes 8 KiB, since its words lie apart. The number of a
   loan is `mine - handle`: for data that lies beside each handle. vbr_lender_count_about says how many keys are in while threads run. A
   signal handler may borrow. Once all are given back, the handles are closed by vbr_close as always, or go on over a fresh set by
   vbr_lender_renew. Handles to a map are lent by the calls with `vbr_map_` in their names. It is written for GCC and Clang, in C99 to
   C++23.

   Parameters:
   - lender: all zero, or one that has handles by vbr_lender_init or vbr_lender_init_many. Many threads may use it at a time. */
#ifndef VBR_LEND_H
#define VBR_LEND_H

#include "vbr.h"

/* 1: a program is ended by abort, with a sentence on standard error, if it gives a handle back that isn't on loan, or gives one to a
   lender that didn't lend it. 0: neither is looked for. It is 1 unless NDEBUG is defined, and a program may define it otherwise ahead
   of this header; the files of a program may differ. A second return isn't found if the handle was lent again in between: VBR_CHECKED
   of vbr.h finds what follows, two threads in one handle.

       if (VBR_LEND_CHECKED) puts("a handle that is given back twice ends this program"); */
#ifndef VBR_LEND_CHECKED
#ifdef NDEBUG
#define VBR_LEND_CHECKED 0
#else
#define VBR_LEND_CHECKED 1
#endif
#endif
#if VBR_LEND_CHECKED
#include <stdlib.h>
#include <unistd.h>
#endif

/* What C and C++ write differently. It is no part of the interface. */
#ifdef __cplusplus
#define VBR_LENDS_NONE nullptr
#define VBR_LEND_ADDRESS(pointer) reinterpret_cast<uintptr_t>(pointer)
#else
#define VBR_LENDS_NONE NULL
#define VBR_LEND_ADDRESS(pointer) ((uintptr_t)(pointer))
#endif

/* Whether a handle is lent, for vbr_lender_init_many: 128 bytes, so no two of them share a cache line, wherever they lie. All zero:
   it isn't lent. `lent` is 1 during a loan, and 2 while a renewal has the handle. `keys` is how many keys the handle has added, as of its
   last return, and `carried` is how many of them its balance lacks since a renewal.

       static vbr_lend_word many_words[1000]; */
typedef struct vbr_lend_word {
    char before[60];
    uint32_t lent;
    char between[48]; /* so `keys` shares no cache line with `lent` either */
    int64_t carried;
    int64_t keys;
} vbr_lend_word;

/* Open handles of a set, and whether each is lent. All zero: no handles.

       vbr_lender lender = {0}; */
typedef struct vbr_lender {
    vbr_handle *handles;
    size_t count;
    size_t lends; /* how many handles may be lent: all, or 0 during a renewal */
    vbr_lend_word *many; /* one for each handle, or null: then its own are used */
    vbr_lend_word own[VBR_MAX_FEW_HANDLES];
} vbr_lender;

/* Open handles of a map, and whether each is lent.

       vbr_map_lender lender = {0}; */
typedef struct vbr_map_lender {
    vbr_map_handle *handles;
    size_t count;
    size_t lends;
    vbr_lend_word *many;
    vbr_lend_word own[VBR_MAX_FEW_HANDLES];
} vbr_map_lender;

/* Finds the words of both lenders. It is no part of the interface. */
#define VBR_LEND_WORDS(lender) ((lender)->many ? (lender)->many : (lender)->own)

/* The number of the handle that this thread was lent last, by either lender. It is no part of the interface. */
static __thread size_t vbr_lent_last;

/* What both lenders do: lends a free handle and returns its number, or SIZE_MAX if none is free or none may be lent.
   It is no part of the interface. */
VBR_NODISCARD VBR_NONNULL static inline size_t vbr_lend_number(vbr_lend_word *words, const size_t *lends) VBR_NOEXCEPT {
    size_t count = __atomic_load_n(lends, __ATOMIC_RELAXED), number = vbr_lent_last < count ? vbr_lent_last : 0, tried;
    for (tried = 0; tried < count; tried++) {
        if (!__atomic_load_n(&words[number].lent, __ATOMIC_RELAXED) && !__atomic_exchange_n(&words[number].lent, 1, __ATOMIC_ACQUIRE)) {
            vbr_lent_last = number;
            return number;
        }
        number = number + 1 < count ? number + 1 : 0;
    }
    return SIZE_MAX;
}

/* What both lenders do for a renewal: lends none from now on, takes each free handle, and says whether it took all. If not, it gives
   back those that it took, and still lends none. It is no part of the interface. */
VBR_NODISCARD VBR_NONNULL static inline int vbr_lend_takes_all(vbr_lend_word *words, size_t count, size_t *lends) VBR_NOEXCEPT {
    size_t taken = 0;
    uint32_t is_free = 0;
    __atomic_store_n(lends, 0, __ATOMIC_RELAXED);
    while (taken < count && __atomic_compare_exchange_n(&words[taken].lent, &is_free, 2, 0, __ATOMIC_ACQUIRE, __ATOMIC_RELAXED)) taken++;
    if (taken == count) return 1;
    while (taken > 0) __atomic_store_n(&words[--taken].lent, 0, __ATOMIC_RELEASE);
    return 0;
}

/* What both lenders do after a renewal: all are lent again. It is no part of the interface. */
VBR_NONNULL static inline void vbr_lend_gives_all(vbr_lend_word *words, size_t count, size_t *lends) VBR_NOEXCEPT {
    size_t i;
    for (i = 0; i < count; i++) __atomic_store_n(&words[i].lent, 0, __ATOMIC_RELEASE);
    __atomic_store_n(lends, count, __ATOMIC_RELAXED);
}

/* What both lenders count: the handles that are on loan. It is no part of the interface. */
VBR_NODISCARD VBR_NONNULL static inline size_t vbr_lend_out(const vbr_lend_word *words, size_t count) VBR_NOEXCEPT {
    size_t number, out = 0;
    for (number = 0; number < count; number++) out += __atomic_load_n(&words[number].lent, __ATOMIC_RELAXED) == 1;
    return out;
}

/* Tells how many keys a handle has added, given its balance, if that has changed. It is no part of the interface. */
VBR_NONNULL static inline void vbr_lend_tells(vbr_lend_word *word, int64_t balance) VBR_NOEXCEPT {
    if (word->carried + balance != __atomic_load_n(&word->keys, __ATOMIC_RELAXED)) __atomic_store_n(&word->keys, word->carried + balance, __ATOMIC_RELAXED);
}

/* What both lenders count: the keys, as of the last returns. It is no part of the interface. */
VBR_NODISCARD VBR_NONNULL static inline int64_t vbr_lend_keys(const vbr_lend_word *words, size_t count) VBR_NOEXCEPT {
    int64_t keys = 0;
    size_t number;
    for (number = 0; number < count; number++) keys += __atomic_load_n(&words[number].keys, __ATOMIC_RELAXED);
    return keys;
}

#if VBR_LEND_CHECKED
/* Ends the program. It is no part of the interface. */
VBR_NONNULL static inline void vbr_lend_ends(const char *sentence, size_t length) VBR_NOEXCEPT {
    VBR_IGNORE(write(STDERR_FILENO, sentence, length)); /* takes no lock, since a signal handler may borrow too */
    abort();
}

/* Ends the program if a handle isn't on loan that is given back, by what is found in its word. It is no part of the interface. */
static inline void vbr_lend_was_lent(uint32_t lent) VBR_NOEXCEPT {
    static const char twice[] = "vbr_lend.h: a handle is given back that isn't on loan: it was given back before, or another lender lent it\n";
    if (lent != 1) vbr_lend_ends(twice, sizeof twice - 1);
}

/* Ends the program if this isn't the word of a handle that is on loan: the one that lies so many bytes after the first.
   It is no part of the interface. */
VBR_NONNULL static inline void vbr_lend_checks(const vbr_lend_word *words, size_t count, uintptr_t offset) VBR_NOEXCEPT {
    static const char other[] = "vbr_lend.h: a handle is given back to a lender that didn't lend it: it isn't one of this lender's handles\n";
    if (offset % sizeof(vbr_handle) || offset / sizeof(vbr_handle) >= count) vbr_lend_ends(other, sizeof other - 1);
    vbr_lend_was_lent(__atomic_load_n(&words[offset / sizeof(vbr_handle)].lent, __ATOMIC_RELAXED));
}
#endif

/* What both lenders do last at a return. It is no part of the interface. */
VBR_NONNULL static inline void vbr_lend_takes_back(vbr_lend_word *word) VBR_NOEXCEPT {
#if VBR_LEND_CHECKED
    vbr_lend_was_lent(__atomic_exchange_n(&word->lent, 0, __ATOMIC_RELEASE));
#else
    __atomic_store_n(&word->lent, 0, __ATOMIC_RELEASE);
#endif
}

/* Begins to count the keys that handles have added. It is no part of the interface. */
VBR_NONNULL static inline void vbr_lend_counts(vbr_lend_word *words, const vbr_handle *handles, size_t count) VBR_NOEXCEPT {
    size_t number;
    for (number = 0; number < count; number++) {
        words[number].carried = 0;
        __atomic_store_n(&words[number].keys, vbr_balance(&handles[number]), __ATOMIC_RELAXED);
    }
}

/* Makes the keys those of the balances, by one store, so that no return changes them. It is no part of the interface. */
VBR_NONNULL static inline void vbr_lend_recounts(vbr_lend_word *words, const vbr_handle *handles, size_t count) VBR_NOEXCEPT {
    int64_t lacking = -vbr_lend_keys(words, count);
    size_t number;
    for (number = 0; number < count; number++) lacking += vbr_balance(&handles[number]);
    if (lacking) __atomic_store_n(&words->keys, words->keys + lacking, __ATOMIC_RELAXED);
    for (number = 0; number < count; number++) words[number].carried = words[number].keys - vbr_balance(&handles[number]);
}

/* Lends these handles from now on.
   Parameters:
   - lender: no thread may use it before.
   - handles, count: from 1 to VBR_MAX_FEW_HANDLES, open or empty.
   Returns:
   - VBR_OK: they may be borrowed.
   - VBR_BAD_COUNT.
   Leaves: none of them on loan; after VBR_BAD_COUNT the lender as it was.
   Notes: A program whose count is right for certain needn't look at the answer.

       vbr_lender lender = {0};
       if (vbr_lender_init(&lender, handle, 2) != VBR_OK) return 1; // VBR_BAD_COUNT: there are more than 64 */
VBR_NONNULL static inline vbr_answer vbr_lender_init(vbr_lender *lender, vbr_handle *handles, size_t count) VBR_NOEXCEPT {
    if (count - 1 >= VBR_MAX_FEW_HANDLES) return VBR_BAD_COUNT;
    lender->handles = handles;
    lender->count = count;
    lender->many = VBR_LENDS_NONE;
    vbr_lend_counts(lender->own, handles, count);
    vbr_lend_gives_all(lender->own, count, &lender->lends);
    return VBR_OK;
}

/* Lends up to VBR_MAX_MANY_HANDLES handles, as vbr_lender_init does otherwise.
   Parameters:
   - lender: as of vbr_lender_init.
   - handles, count: from 1 to VBR_MAX_MANY_HANDLES, open or empty.
   - words: one for each handle. They stay where they are as long as the lender is used.
   Returns: what vbr_lender_init returns; VBR_BAD_COUNT if count isn't in that range.
   Leaves: what vbr_lender_init leaves; after VBR_BAD_COUNT the words too as they were.

       if (vbr_lender_init_many(&of_many, many, 1000, many_words) != VBR_OK) return 1; // of handles that vbr_open_many opened */
VBR_NONNULL static inline vbr_answer vbr_lender_init_many(vbr_lender *lender, vbr_handle *handles, size_t count,
                                                          vbr_lend_word *words) VBR_NOEXCEPT {
    if (count - 1 >= VBR_MAX_MANY_HANDLES) return VBR_BAD_COUNT;
    lender->handles = handles;
    lender->count = count;
    lender->many = words;
    vbr_lend_counts(words, handles, count);
    vbr_lend_gives_all(words, count, &lender->lends);
    return VBR_OK;
}

/* Lends a free handle.
   Parameters: lender.
   Returns: the handle, or a null pointer if each was lent at some moment of the call, or they are being renewed.
   Leaves: the handle on loan, until it is given back.
   Notes: It takes no lock and no memory. It tries each handle at most once, so it never waits.

   It begins with the handle that this thread was lent last, by any lender. If that is free, a loan and its return are one atomic exchange
   on a word that other threads don't write. If there are no more threads than handles, each comes to have its own.

       vbr_handle *mine = vbr_lend(&lender); // NULL: both are lent */
VBR_NODISCARD VBR_NONNULL static inline vbr_handle *vbr_lend(vbr_lender *lender) VBR_NOEXCEPT {
    size_t number = vbr_lend_number(VBR_LEND_WORDS(lender), &lender->lends);
    return number == SIZE_MAX ? VBR_LENDS_NONE : &lender->handles[number];
}

/* Gives back a handle that was lent.
   Parameters: lender.
   - handle: one that was lent by this lender, and isn't in a call. Given back twice, it may be lent to two threads, and given to another lender
     it is lost to its own: VBR_LEND_CHECKED says whether these end the program.
   Returns: nothing.
   Leaves: the handle free, for whoever borrows it next. What is done with a handle before it is given back comes before what the next borrower
   does (a release and an acquire).

       vbr_give_back(&lender, mine); // and mine isn't used any more */
VBR_NONNULL static inline void vbr_give_back(vbr_lender *lender, vbr_handle *handle) VBR_NOEXCEPT {
    vbr_lend_word *word = VBR_LEND_WORDS(lender);
#if VBR_LEND_CHECKED
    vbr_lend_checks(word, lender->count, VBR_LEND_ADDRESS(handle) - VBR_LEND_ADDRESS(lender->handles));
#endif
    word += handle - lender->handles;
    vbr_lend_tells(word, vbr_balance(handle));
    vbr_lend_takes_back(word);
}

/* Returns how many handles are on loan.
   Parameters: lender.
   Returns: that number, exact if nobody borrows or gives back meanwhile, and 0 after the last return. Else it is of no one moment: the call
   looks at each handle once, one after another, and a handle is counted if it was on loan when it was looked at.
   Leaves: all as it was. It takes a load for each handle, and orders nothing.
   Notes: A handle that a renewal has isn't counted, unless a thread tried to borrow it just as the renewal took it.

       size_t out = vbr_lender_on_loan(&lender); // 1: mine */
VBR_NODISCARD VBR_NONNULL static inline size_t vbr_lender_on_loan(const vbr_lender *lender) VBR_NOEXCEPT {
    return vbr_lend_out(VBR_LEND_WORDS(lender), lender->count);
}

/* Returns how many keys are in, about.
   Parameters: lender.
   Returns: what the handles have added, less what they took out, as each was given back last; never a negative number. It is exact if no handle
   is on loan during the call. Else it is off by at most the updates of some loans: by one for each of their calls that added a key or took one
   out. These are the loans that began during the call, or weren't given back before it by the program's own synchronisation.
   Leaves: all as it was. It takes a load for each handle, from a cache line that a return writes if the loan changed how many keys there are.
   It orders nothing.
   Notes: It is the number of keys if the lender has all handles of the set, opened before it was given them, and all calls are made by loans.
   It goes on over renewals by vbr_lender_renew.

       int64_t about = vbr_lender_count_about(&lender); // 1: mine is back, and has added 5 */
VBR_NODISCARD VBR_NONNULL static inline int64_t vbr_lender_count_about(const vbr_lender *lender) VBR_NOEXCEPT {
    int64_t keys = vbr_lend_keys(VBR_LEND_WORDS(lender), lender->count);
    return keys > 0 ? keys : 0;
}

/* Adds up how many keys are in anew, after a renewal that wasn't the lender's.
   Parameters:
   - lender: one whose handles are all on loan to this thread, which called vbr_renew_all or vbr_records_renew_all on them.
   Returns: nothing.
   Leaves: vbr_lender_count_about right again. Without this call it goes wrong after such a renewal.

       vbr_lender_recount(&lender); // all handles are on loan to this thread */
VBR_NONNULL static inline void vbr_lender_recount(vbr_lender *lender) VBR_NOEXCEPT {
    if (lender->count) vbr_lend_recounts(VBR_LEND_WORDS(lender), lender->handles, lender->count);
}

/* Lets the handles go on over a fresh set of this shape, as vbr_renew_all does, once none is on loan.
   Parameters: slots, buckets, last_epoch.
   - lender: all zero, or one with handles. Only one thread at a time may renew it.
   Returns: what vbr_renew_all returns. These two are tested before it.
   - VBR_MISSING: the lender has no handles.
   - VBR_IN_USE: a handle is still on loan, so call it again when it may be back.
   Leaves: no handle to be lent after VBR_IN_USE, from the first call on. After any other answer what vbr_renew_all leaves, and all are lent
   again.
   Notes: It waits for nobody.

       while ((renewed = vbr_lender_renew(&lender, 2048 + 2 * 64, 2048, VBR_MAX_EPOCH)) == VBR_IN_USE) sched_yield(); // until all are back */
VBR_NODISCARD VBR_NONNULL static inline vbr_answer vbr_lender_renew(vbr_lender *lender, uint32_t slots, uint32_t buckets,
                                                                    uint64_t last_epoch) VBR_NOEXCEPT {
    vbr_answer answer;
    if (!lender->count) return VBR_MISSING;
    if (!vbr_lend_takes_all(VBR_LEND_WORDS(lender), lender->count, &lender->lends)) return VBR_IN_USE;
    answer = vbr_renew_all(lender->handles, lender->count, slots, buckets, last_epoch);
    vbr_lend_recounts(VBR_LEND_WORDS(lender), lender->handles, lender->count);
    vbr_lend_gives_all(VBR_LEND_WORDS(lender), lender->count, &lender->lends);
    return answer;
}

/* Lends again, after a renewal that was answered VBR_IN_USE and is given up.
   Parameters: lender.
   Returns: nothing.
   Leaves: each handle that isn't on loan free, and the set as it was.

       if (vbr_lender_renew(&lender, 1024 + 2 * 64, 1024, VBR_MAX_EPOCH) == VBR_IN_USE) vbr_lender_lend_on(&lender); // not now */
VBR_NONNULL static inline void vbr_lender_lend_on(vbr_lender *lender) VBR_NOEXCEPT {
    __atomic_store_n(&lender->lends, lender->count, __ATOMIC_RELAXED);
}

/* Begins to count the keys of a map that handles have added. It is no part of the interface. */
VBR_NONNULL static inline void vbr_map_lend_counts(vbr_lend_word *words, const vbr_map_handle *handles, size_t count) VBR_NOEXCEPT {
    size_t number;
    for (number = 0; number < count; number++) {
        words[number].carried = 0;
        __atomic_store_n(&words[number].keys, vbr_map_balance(&handles[number]), __ATOMIC_RELAXED);
    }
}

/* Makes the keys of a map those of the balances, by one store, so that no return changes them. It is no part of the interface. */
VBR_NONNULL static inline void vbr_map_lend_recounts(vbr_lend_word *words, const vbr_map_handle *handles, size_t count) VBR_NOEXCEPT {
    int64_t lacking = -vbr_lend_keys(words, count);
    size_t number;
    for (number = 0; number < count; number++) lacking += vbr_map_balance(&handles[number]);
    if (lacking) __atomic_store_n(&words->keys, words->keys + lacking, __ATOMIC_RELAXED);
    for (number = 0; number < count; number++) words[number].carried = words[number].keys - vbr_map_balance(&handles[number]);
}

/* Lends these handles to a map from now on.
   Parameters:
   - lender: no thread may use it before.
   - handles, count: from 1 to VBR_MAX_FEW_HANDLES, open or empty.
   Returns:
   - VBR_OK: they may be borrowed.
   - VBR_BAD_COUNT.
   Leaves: none of them on loan; after VBR_BAD_COUNT the lender as it was.
   Notes: A program whose count is right for certain needn't look at the answer.

       vbr_map_lender lender = {0};
       if (vbr_map_lender_init(&lender, map, 2) != VBR_OK) return 1; */
VBR_NONNULL static inline vbr_answer vbr_map_lender_init(vbr_map_lender *lender, vbr_map_handle *handles, size_t count) VBR_NOEXCEPT {
    if (count - 1 >= VBR_MAX_FEW_HANDLES) return VBR_BAD_COUNT;
    lender->handles = handles;
    lender->count = count;
    lender->many = VBR_LENDS_NONE;
    vbr_map_lend_counts(lender->own, handles, count);
    vbr_lend_gives_all(lender->own, count, &lender->lends);
    return VBR_OK;
}

/* Lends up to VBR_MAX_MANY_HANDLES handles to a map, as vbr_map_lender_init does otherwise.
   Parameters:
   - lender: as of vbr_map_lender_init.
   - handles, count: from 1 to VBR_MAX_MANY_HANDLES, open or empty.
   - words: one for each handle. They stay where they are as long as the lender is used.
   Returns: what vbr_map_lender_init returns; VBR_BAD_COUNT if count isn't in that range.
   Leaves: what vbr_map_lender_init leaves; after VBR_BAD_COUNT the words too as they were.

       if (vbr_map_lender_init_many(&of_many, many, 1000, many_words) != VBR_OK) return 1; */
VBR_NONNULL static inline vbr_answer vbr_map_lender_init_many(vbr_map_lender *lender, vbr_map_handle *handles, size_t count,
                                                              vbr_lend_word *words) VBR_NOEXCEPT {
    if (count - 1 >= VBR_MAX_MANY_HANDLES) return VBR_BAD_COUNT;
    lender->handles = handles;
    lender->count = count;
    lender->many = words;
    vbr_map_lend_counts(words, handles, count);
    vbr_lend_gives_all(words, count, &lender->lends);
    return VBR_OK;
}

/* Lends a free handle to a map.
   Parameters: lender.
   Returns: the handle, or a null pointer if each was lent at some moment of the call, or they are being renewed.
   Leaves: the handle on loan, until it is given back.
   Notes: It takes no lock and no memory. It tries each handle at most once, so it never waits.

   It begins with the handle that this thread was lent last, by any lender. If that is free, a loan and its return are one atomic exchange
   on a word that other threads don't write. If there are no more threads than handles, each comes to have its own.

       vbr_map_handle *mine = vbr_map_lend(&lender); // NULL: both are lent */
VBR_NODISCARD VBR_NONNULL static inline vbr_map_handle *vbr_map_lend(vbr_map_lender *lender) VBR_NOEXCEPT {
    size_t number = vbr_lend_number(VBR_LEND_WORDS(lender), &lender->lends);
    return number == SIZE_MAX ? VBR_LENDS_NONE : &lender->handles[number];
}

/* Gives back a handle to a map that was lent.
   Parameters: lender.
   - handle: one that was lent by this lender, and isn't in a call. Given back twice, it may be lent to two threads, and given to another lender
     it is lost to its own: VBR_LEND_CHECKED says whether these end the program.
   Returns: nothing.
   Leaves: the handle free, for whoever borrows it next. What is done with a handle before it is given back comes before what the next borrower
   does (a release and an acquire).

       vbr_map_give_back(&lender, mine); // and mine isn't used any more */
VBR_NONNULL static inline void vbr_map_give_back(vbr_map_lender *lender, vbr_map_handle *handle) VBR_NOEXCEPT {
    vbr_lend_word *word = VBR_LEND_WORDS(lender);
#if VBR_LEND_CHECKED
    vbr_lend_checks(word, lender->count, VBR_LEND_ADDRESS(handle) - VBR_LEND_ADDRESS(lender->handles));
#endif
    word += handle - lender->handles;
    vbr_lend_tells(word, vbr_map_balance(handle));
    vbr_lend_takes_back(word);
}

/* Returns how many handles to a map are on loan.
   Parameters: lender.
   Returns: that number, exact if nobody borrows or gives back meanwhile, and 0 after the last return. Else it is of no one moment: the call
   looks at each handle once, one after another, and a handle is counted if it was on loan when it was looked at.
   Leaves: all as it was. It takes a load for each handle, and orders nothing.
   Notes: A handle that a renewal has isn't counted, unless a thread tried to borrow it just as the renewal took it.

       size_t out = vbr_map_lender_on_loan(&lender); // 1: mine */
VBR_NODISCARD VBR_NONNULL static inline size_t vbr_map_lender_on_loan(const vbr_map_lender *lender) VBR_NOEXCEPT {
    return vbr_lend_out(VBR_LEND_WORDS(lender), lender->count);
}

/* Returns how many keys are in a map, about.
   Parameters: lender.
   Returns: what the handles have added, less what they took out, as each was given back last; never a negative number. It is exact if no handle
   is on loan during the call. Else it is off by at most the updates of some loans: by one for each of their calls that added a key or took one
   out. These are the loans that began during the call, or weren't given back before it by the program's own synchronisation.
   Leaves: all as it was. It takes a load for each handle, from a cache line that a return writes if the loan changed how many keys there are.
   It orders nothing.
   Notes: It is the number of keys if the lender has all handles of the map, opened before it was given them, and all calls are made by loans.
   It goes on over renewals by vbr_map_lender_renew.

       int64_t about = vbr_map_lender_count_about(&lender); */
VBR_NODISCARD VBR_NONNULL static inline int64_t vbr_map_lender_count_about(const vbr_map_lender *lender) VBR_NOEXCEPT {
    int64_t keys = vbr_lend_keys(VBR_LEND_WORDS(lender), lender->count);
    return keys > 0 ? keys : 0;
}

/* Adds up how many keys are in a map anew, after a renewal that wasn't the lender's.
   Parameters:
   - lender: one whose handles are all on loan to this thread, which called vbr_map_renew_all or vbr_map_records_renew_all on them.
   Returns: nothing.
   Leaves: vbr_map_lender_count_about right again. Without this call it goes wrong after such a renewal.

       vbr_map_lender_recount(&lender); // all handles are on loan to this thread */
VBR_NONNULL static inline void vbr_map_lender_recount(vbr_map_lender *lender) VBR_NOEXCEPT {
    if (lender->count) vbr_map_lend_recounts(VBR_LEND_WORDS(lender), lender->handles, lender->count);
}

/* Lets the handles go on over a fresh map of this shape, as vbr_map_renew_all does, once none is on loan.
   Parameters: slots, buckets, last_epoch.
   - lender: all zero, or one with handles. Only one thread at a time may renew it.
   Returns: what vbr_map_renew_all returns. These two are tested before it.
   - VBR_MISSING: the lender has no handles.
   - VBR_IN_USE: a handle is still on loan, so call it again when it may be back.
   Leaves: no handle to be lent after VBR_IN_USE, from the first call on. After any other answer what vbr_map_renew_all leaves, and all are lent
   again.
   Notes: It waits for nobody.

       vbr_answer renewed = vbr_map_lender_renew(&lender, 2048 + 2 * 64, 2048, VBR_MAX_EPOCH); // VBR_IN_USE: a handle is on loan */
VBR_NODISCARD VBR_NONNULL static inline vbr_answer vbr_map_lender_renew(vbr_map_lender *lender, uint32_t slots, uint32_t buckets,
                                                                        uint64_t last_epoch) VBR_NOEXCEPT {
    vbr_answer answer;
    if (!lender->count) return VBR_MISSING;
    if (!vbr_lend_takes_all(VBR_LEND_WORDS(lender), lender->count, &lender->lends)) return VBR_IN_USE;
    answer = vbr_map_renew_all(lender->handles, lender->count, slots, buckets, last_epoch);
    vbr_map_lend_recounts(VBR_LEND_WORDS(lender), lender->handles, lender->count);
    vbr_lend_gives_all(VBR_LEND_WORDS(lender), lender->count, &lender->lends);
    return answer;
}

/* Lends again, after a renewal that was answered VBR_IN_USE and is given up.
   Parameters: lender.
   Returns: nothing.
   Leaves: each handle that isn't on loan free, and the map as it was.

       vbr_map_lender_lend_on(&lender); // and the renewal isn't made */
VBR_NONNULL static inline void vbr_map_lender_lend_on(vbr_map_lender *lender) VBR_NOEXCEPT {
    __atomic_store_n(&lender->lends, lender->count, __ATOMIC_RELAXED);
}

#undef VBR_LENDS_NONE
#undef VBR_LEND_ADDRESS
#undef VBR_LEND_WORDS

#endif
