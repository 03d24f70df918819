/* The way out of the library, as debuggers, profilers and cancellation find it, from each instruction of each call:
   unwinds [names]

   SIGTRAP comes after each instruction of a call. Its handler unwinds from there as an exception or a cancelled thread does, by .eh_frame.
   It has to come to the caller, with the stack pointer and the six registers that a call leaves as they were, and then to main. As the
   call begins these registers get marks, so that no other value is taken for theirs. Each call has to enter the export that it is for;
   with `names` the program prints those exports, and bindings/test sees that they are all that the library has.

   Then threads are cancelled while they make calls. Each has a cleanup handler, which has to run. It is found by unwinding alone, since
   the program is compiled with -fexceptions. */
#define _GNU_SOURCE
#include "client.h"
#include "vbr_shared.h"

#include <signal.h>
#include <string.h>
#include <sys/mman.h>
#include <ucontext.h>
#include <unistd.h>
#include <unwind.h>

#pragma GCC diagnostic ignored "-Wdeprecated-declarations" /* vbr_spare is an export too */

enum { HANDLES = 2, KEYS = 8, SLOTS = KEYS + HANDLES * 64, RESERVE = SLOTS / (8 * HANDLES), BUCKETS = 4, STEPS = 1000, SEED = 7 };
enum { KEPT = 6, TRAP_FLAG = 0x100, MOST_FRAMES = 100, CANCELLED = 63 };

static vbr_handle sets[HANDLES];
static vbr_map_handle maps[HANDLES];
static vbr_shared_handle *shared;
static int file;
static uint64_t set_told[2 * KEYS] = {1, 2}, key, value;
static vbr_entry map_told[2 * KEYS] = {{1, 10}, {2, 20}};
static uint32_t slots[2 * KEYS], slot;
static vbr_cursor set_cursor, map_cursor;
static vbr_incarnation at;
static vbr_report report;
static const uint64_t keys[2] = {5, 9};
static vbr_answer answers[2];
static vbr_found found[2];

/* What sets and maps have differently: the value that is stored, and the one that was there. */
#define set_VALUE(value)
#define map_VALUE(value) , value
#define set_FOUND
#define map_FOUND , &value

/* Calls in their order, each with its export, what it does and the answer: of both kinds, P being the beginning of a name. */
#define OF_BOTH(X, P, KIND) \
    X(KIND##_opens_seeded, P##open_seeded, P##open_seeded(KIND##s, HANDLES, SLOTS, BUCKETS, VBR_MAX_EPOCH, SEED, KIND##_told, 0), VBR_OK) \
    X(KIND##_epoch, P##epoch, P##epoch(KIND##s), 1) \
    X(KIND##_last_epoch, P##last_epoch, P##last_epoch(KIND##s), VBR_MAX_EPOCH) \
    X(KIND##_slots, P##slots, P##slots(KIND##s), SLOTS) \
    X(KIND##_buckets, P##buckets, P##buckets(KIND##s), BUCKETS) \
    X(KIND##_seed, P##seed, P##seed(KIND##s), SEED) \
    X(KIND##_gives_back, P##spare, P##spare(KIND##s), RESERVE) \
    X(KIND##_reserves, P##reserve, P##reserve(KIND##s, RESERVE), RESERVE) \
    X(KIND##_inserts, P##insert_within, P##insert_within(KIND##s, 5 KIND##_VALUE(50), STEPS), VBR_YES) \
    X(KIND##_inserts_again, P##insert_within, P##insert_within(KIND##s + 1, 5 KIND##_VALUE(51), STEPS), VBR_NO) \
    X(KIND##_inserts_unreserved, P##insert_within, (P##spare(KIND##s + 1), P##insert_within(KIND##s + 1, 4 KIND##_VALUE(40), STEPS)), VBR_YES) \
    X(KIND##_inserts_tired, P##insert_within, P##insert_within(KIND##s + 1, 3 KIND##_VALUE(30), 1), VBR_OUT_OF_STEPS) \
    X(KIND##_has, P##has_within, P##has_within(KIND##s + 1, 5, STEPS), VBR_YES) \
    X(KIND##_has_all, P##has_all_within, (P##has_all_within(KIND##s, keys, 2, answers, STEPS), answers[0] - answers[1]), VBR_YES) \
    X(KIND##_gets_entry, P##get_entry_within, P##get_entry_within(KIND##s, 5, &at, STEPS), VBR_YES) \
    X(KIND##_is_still, P##is_still, P##is_still(KIND##s, &at), VBR_YES) \
    X(KIND##_next, P##next_within, P##next_within(KIND##s, &KIND##_cursor, KIND##_told, STEPS), VBR_YES) \
    X(KIND##_next_at, P##next_at_within, P##next_at_within(KIND##s, &KIND##_cursor, &key, &at, STEPS), VBR_YES) \
    X(KIND##_holds, P##hold_within, P##hold_within(KIND##s, &slot, STEPS), VBR_YES) \
    X(KIND##_lets_go, P##let_go, P##let_go(KIND##s), VBR_YES) \
    X(KIND##_inserts_held, P##insert_held_within, \
      P##hold_within(KIND##s, &slot, STEPS) == VBR_YES ? P##insert_held_within(KIND##s, 6 KIND##_VALUE(60), STEPS) : VBR_NO, VBR_YES) \
    X(KIND##_balance, P##balance, P##balance(KIND##s), 2) \
    X(KIND##_restarts, P##restarts, P##restarts(KIND##s), 0) \
    X(KIND##_helps, P##helps, P##helps(KIND##s), 0) \
    X(KIND##_advances, P##advances, P##advances(KIND##s), 0) \
    X(KIND##_free_about, P##free_about, P##free_about(KIND##s) > SLOTS, 0) \
    X(KIND##_removes, P##remove_within, P##remove_within(KIND##s + 1, 6 KIND##_FOUND, STEPS), VBR_YES) \
    X(KIND##_removes_entry, P##remove_entry_within, \
      P##get_entry_within(KIND##s, 4, &at, STEPS) == VBR_YES ? P##remove_entry_within(KIND##s, 4, &at, STEPS) : VBR_NO, VBR_YES) \
    X(KIND##_reports, P##report_all, P##report_all(KIND##s, HANDLES, KIND##_told, KEYS, &report), VBR_YES) \
    X(KIND##_reports_slots, P##report_slots, P##report_slots(KIND##s, HANDLES, KIND##_told, slots, KEYS, &report), VBR_YES) \
    X(KIND##_renews, P##renew_all, P##renew_all(KIND##s, HANDLES, SLOTS, BUCKETS, VBR_MAX_EPOCH), VBR_OK) \
    X(KIND##_renews_seeded, P##renew_all_seeded, P##renew_all_seeded(KIND##s, HANDLES, SLOTS, BUCKETS, VBR_MAX_EPOCH, SEED), VBR_OK) \
    X(KIND##_closes_first, P##close, P##close(KIND##s, KIND##_told, KEYS, &report), VBR_NO) \
    X(KIND##_closes_last, P##close, P##close(KIND##s + 1, KIND##_told, KEYS, &report), VBR_YES) \
    X(KIND##_opens, P##open, P##open(KIND##s, HANDLES, SLOTS, BUCKETS, VBR_MAX_EPOCH), VBR_OK) \
    X(KIND##_closes_all, P##close_all, P##close_all(KIND##s, HANDLES, KIND##_told, KEYS, &report), VBR_YES) \
    X(KIND##_opens_with, P##open_with, P##open_with(KIND##s, HANDLES, SLOTS, BUCKETS, VBR_MAX_EPOCH, KIND##_told, 1), VBR_OK) \
    X(KIND##_ends_all, P##end_all, (P##end_all(KIND##s, HANDLES), 0), 0) \
    X(KIND##_opens_many, P##open_many, P##open_many(KIND##s, HANDLES, SLOTS, BUCKETS, VBR_MAX_EPOCH, KIND##_told, 0), VBR_OK) \
    X(KIND##_drops_first, P##drop, (P##drop(KIND##s), 0), 0) \
    X(KIND##_drops_last, P##drop, (P##drop(KIND##s + 1), 0), 0) \
    X(KIND##_opens_many_seeded, P##open_many_seeded, \
      P##open_many_seeded(KIND##s, HANDLES, SLOTS, BUCKETS, VBR_MAX_EPOCH, SEED, KIND##_told, 0) == VBR_OK ? (P##end_all(KIND##s, HANDLES), 0) : 1, 0) \
    X(KIND##_opens_shared_in, P##open_shared_in, P##open_shared_in(file, &shared, HANDLES, SLOTS, BUCKETS, VBR_MAX_EPOCH, NULL, 0), VBR_OK) \
    X(KIND##_inherits, vbr_inherit, vbr_inherit(shared), VBR_YES) \
    X(KIND##_unmaps, vbr_unmap_shared, (vbr_unmap_shared(shared), 0), 0) \
    X(KIND##_opens_shared, P##open_shared, P##open_shared(&shared, HANDLES, SLOTS, BUCKETS, VBR_MAX_EPOCH, NULL, 0), VBR_OK) \
    X(KIND##_gathers, P##gather, !P##gather(shared), 0) \
    X(KIND##_spreads, vbr_spread, (vbr_spread(shared), 0), 0) \
    X(KIND##_renews_shared, vbr_renew_shared, vbr_renew_shared(shared, SLOTS, BUCKETS, VBR_MAX_EPOCH), VBR_OK) \
    X(KIND##_unmaps_again, vbr_unmap_shared, (vbr_unmap_shared(shared), 0), 0)

/* And those that aren't of both. */
#define OF_MAPS(X) \
    X(opens_values, vbr_map_open, vbr_map_open(maps, HANDLES, SLOTS, BUCKETS, VBR_MAX_EPOCH), VBR_OK) \
    X(puts, vbr_map_put_within, vbr_map_put_within(maps, 5, 50, &value, STEPS), VBR_NO) \
    X(puts_again, vbr_map_put_within, vbr_map_put_within(maps + 1, 5, 51, &value, STEPS), VBR_YES) \
    X(gets, vbr_map_get_within, vbr_map_get_within(maps, 5, &value, STEPS), VBR_YES) \
    X(adds, vbr_map_fetch_add_within, vbr_map_fetch_add_within(maps, 5, 0, &value, STEPS), VBR_YES) \
    X(gets_all, vbr_map_get_all_within, (vbr_map_get_all_within(maps, keys, 2, found, STEPS), found[0].answer - found[1].answer), VBR_YES) \
    X(replaces, vbr_map_replace_within, vbr_map_replace_within(maps, 5, 52, &value, STEPS), VBR_YES) \
    X(gets_or_inserts, vbr_map_get_or_insert_within, vbr_map_get_or_insert_within(maps, 6, 60, &value, STEPS), VBR_NO) \
    X(exchanges, vbr_map_compare_exchange_within, vbr_map_compare_exchange_within(maps, 5, 52, 53, &value, STEPS), VBR_YES) \
    X(removes_if, vbr_map_remove_if_within, vbr_map_remove_if_within(maps, 6, 60, &value, STEPS), VBR_YES) \
    X(puts_held, vbr_map_put_held_within, \
      vbr_map_hold_within(maps, &slot, STEPS) == VBR_YES ? vbr_map_put_held_within(maps, 5, 54, &value, STEPS) : VBR_NO, VBR_YES) \
    X(replaces_held, vbr_map_replace_held_within, vbr_map_hold_within(maps, &slot, STEPS) == VBR_YES && \
      vbr_map_get_entry_within(maps, 5, &at, STEPS) == VBR_YES ? vbr_map_replace_held_within(maps, 5, &at, 55, STEPS) : VBR_NO, VBR_YES) \
    X(ends_values, vbr_map_end_all, (vbr_map_end_all(maps, HANDLES), 0), 0)

#define OF_NEITHER(X) \
    X(version, vbr_version, vbr_version(), VBR_VERSION) \
    X(text, vbr_answer_text, vbr_answer_text(VBR_LOST)[0], 't') \
    X(seed, vbr_random_seed, !vbr_random_seed(), 0) \
    X(size, vbr_shared_size, vbr_shared_size(HANDLES, SLOTS, BUCKETS) < sizeof(vbr_shared_handle), 0)

#define FUNCTION(name, export, call, answer) static int64_t makes_##name(void) { return (int64_t)(call); }
#define ROW(name, export, call, answer) {#export, (void (*)(void))export, makes_##name, (int64_t)(answer)},
#define ALL(X) OF_BOTH(X, vbr_, set) OF_BOTH(X, vbr_map_, map) OF_MAPS(X) OF_NEITHER(X)

ALL(FUNCTION)

static const struct call {
    const char *name;
    void (*export)(void);
    int64_t (*makes)(void);
    int64_t answer;
} calls[] = {ALL(ROW)};

enum { CALLS = sizeof calls / sizeof *calls };

/* The registers that a call leaves as they were: each by DWARF's number, and by its place in a signal's context. */
static const struct {
    int number, place;
} registers[KEPT] = {{3, REG_RBX}, {6, REG_RBP}, {12, REG_R12}, {13, REG_R13}, {14, REG_R14}, {15, REG_R15}};

/* The call that is gone through: whether it is, where it returns to, rsp there, what the caller had in its registers, and the counts. */
static struct {
    const struct call *call;
    enum { COMING, UNDER_WAY, OVER } stage;
    uintptr_t back, frame;
    greg_t before[KEPT];
    int has_entered;
    long instructions;
} going;

static greg_t mark(int i) { return 0x5A5A000000000000 + 0x1111 * (i + 1); }

/* How far the handler has come out of a call. */
struct way {
    int frames, is_at_caller, is_at_main;
};

int main(int count, char **words);

static _Unwind_Reason_Code come_out(struct _Unwind_Context *context, void *of) {
    struct way *way = of;
    if (_Unwind_GetIP(context) == going.back && _Unwind_GetCFA(context) == going.frame) {
        way->is_at_caller = 1;
        for (int i = 0; i < KEPT; i++) way->is_at_caller &= _Unwind_GetGR(context, registers[i].number) == (uintptr_t)mark(i);
    }
    way->is_at_main |= way->is_at_caller && _Unwind_GetRegionStart(context) == (uintptr_t)main;
    return ++way->frames < MOST_FRAMES && !way->is_at_main ? _URC_NO_REASON : _URC_NORMAL_STOP;
}

/* Whether this is the linker's stub for a call into another library: jmp *..(%rip), with endbr64 before it or not. Some linkers write no
   frames for those, and the library has no such instruction of its own. */
static int is_of_linker(const unsigned char *code) {
    static const unsigned char endbr64[] = {0xF3, 0x0F, 0x1E, 0xFA}, jump[] = {0xFF, 0x25};
    if (!memcmp(code, endbr64, sizeof endbr64)) code += sizeof endbr64;
    return !memcmp(code, jump, sizeof jump);
}

static void look(uintptr_t instruction) {
    struct way way = {0, 0, 0};
    _Unwind_Backtrace(come_out, &way);
    going.instructions++;
    if (way.is_at_main || is_of_linker((const unsigned char *)instruction)) return;
    fprintf(stderr, "unwinds.c: FAILED: from instruction %ld of %s, which is %ld after its begin, the way out ends after %d frames, %s\n", going.instructions,
            going.call->name, (long)(instruction - (uintptr_t)going.call->export), way.frames, way.is_at_caller ? "short of main" : "short of its caller as it was");
    _exit(1);
}

/* Begins or ends with the call, and looks at each instruction in between. */
static void at_instruction(int signal_number, siginfo_t *information, void *context) {
    greg_t *now = ((ucontext_t *)context)->uc_mcontext.gregs;
    uintptr_t instruction = (uintptr_t)now[REG_RIP], stack = (uintptr_t)now[REG_RSP];
    (void)signal_number, (void)information;
    now[REG_EFL] |= TRAP_FLAG;
    if (going.stage == COMING && instruction == (uintptr_t)going.call->makes) {
        going.stage = UNDER_WAY;
        going.back = *(uintptr_t *)stack;
        going.frame = stack + sizeof going.back;
        for (int i = 0; i < KEPT; i++) going.before[i] = now[registers[i].place], now[registers[i].place] = mark(i);
    } else if (going.stage == UNDER_WAY && instruction == going.back && stack == going.frame) {
        going.stage = OVER;
        for (int i = 0; i < KEPT; i++) {
            CHECK(now[registers[i].place] == mark(i));
            now[registers[i].place] = going.before[i];
        }
    }
    going.has_entered |= instruction == (uintptr_t)going.call->export;
    if (going.stage == UNDER_WAY) look(instruction);
    if (going.stage == OVER) now[REG_EFL] &= ~TRAP_FLAG;
}

/* Goes through a call, instruction by instruction. */
static void go_through(const struct call *call) {
    going.call = call;
    going.stage = COMING;
    going.has_entered = 0;
    CHECK(!raise(SIGTRAP)); /* from here on a trap comes after each instruction */
    int64_t told = call->makes();
    if (going.stage != OVER || !going.has_entered || told != call->answer) {
        fprintf(stderr, "unwinds.c: FAILED: %s answered %lld and not %lld, or it was not gone through\n", call->name, (long long)told, (long long)call->answer);
        exit(1);
    }
}

static void go_through_all(void) {
    struct sigaction action;
    memset(&action, 0, sizeof action);
    action.sa_sigaction = at_instruction;
    action.sa_flags = SA_SIGINFO;
    file = memfd_create("unwinds", 0);
    CHECK(file >= 0 && !ftruncate(file, (off_t)vbr_shared_size(HANDLES, SLOTS, BUCKETS)) && !sigaction(SIGTRAP, &action, NULL));
    for (int i = 0; i < CALLS; i++) go_through(&calls[i]);
    CHECK(!close(file));
}

static vbr_handle many[CANCELLED + 1];
static atomic_int begun, cleaned;

static void clean(void *of) {
    (void)of;
    atomic_fetch_add(&cleaned, 1);
}

/* Makes calls without an end. */
static int calls_on(vbr_handle *handle) {
    for (uint64_t turn = 0;; turn++) {
        vbr_answer told = turn % 2 ? vbr_has(handle, turn % 1000) : turn % 4 ? vbr_insert(handle, 500) : vbr_remove(handle, 500);
        if (told < VBR_NO) return told;
        atomic_store(&begun, 1);
    }
}

static int (*volatile as_before)(vbr_handle *) = calls_on; /* no compiler sees what it calls */

static void *is_cancelled(void *of) {
    int told = 0;
    CHECK(!pthread_setcanceltype(PTHREAD_CANCEL_ASYNCHRONOUS, &told));
    pthread_cleanup_push(clean, NULL);
    told = as_before(of);
    pthread_cleanup_pop(0);
    fprintf(stderr, "unwinds.c: FAILED: a call answered %d\n", told);
    exit(1);
}

/* Threads are cancelled in calls, each with its handle; the last handle goes on after each of them. */
static void cancel_all(void) {
    CHECK(vbr_open(many, CANCELLED + 1, 1000 + (CANCELLED + 1) * 64, 64, VBR_MAX_EPOCH) == VBR_OK);
    for (uint64_t i = 0; i < 400; i++) CHECK(vbr_insert(&many[CANCELLED], i) == VBR_YES);
    for (int i = 0; i < CANCELLED; i++) {
        pthread_t thread;
        void *result = NULL;
        struct timespec time = {0, 20000 + i * 3001};
        atomic_store(&begun, 0);
        CHECK(!pthread_create(&thread, NULL, is_cancelled, &many[i]));
        while (!atomic_load(&begun)) sched_yield();
        nanosleep(&time, NULL);
        CHECK(!pthread_cancel(thread) && !pthread_join(thread, &result) && result == PTHREAD_CANCELED);
        CHECK(atomic_load(&cleaned) == i + 1);
        CHECK(vbr_insert(&many[CANCELLED], 1000) == VBR_YES && vbr_remove(&many[CANCELLED], 1000) == VBR_YES && vbr_has(&many[CANCELLED], 5) == VBR_YES);
    }
}

int main(int count, char **words) {
    if (count > 1 && !strcmp(words[1], "names")) {
        for (int i = 0; i < CALLS; i++) puts(calls[i].name);
        return 0;
    }
    go_through_all();
    cancel_all();
    printf("unwinding from %ld instructions of %d calls, and %d cancelled threads: passed\n", going.instructions, CALLS, CANCELLED);
    return 0;
}
