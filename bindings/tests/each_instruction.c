/* A process that dies after each instruction of a call in turn. A child makes one call, and its parent lets it go on by single
   instructions. After each one the parent takes the child for dead: it keeps the bytes of the mapping, inherits the handle, looks at the
   whole map, goes on with the handle, counts the slots that are lost, renews, and then puts the bytes back for the next instruction.

   Where the system lets no process trace another, it says so, and that is all.

       each_instruction [worn]     worn: only of handles that have made so many calls that one moves the pool to the front of its room */
#define _GNU_SOURCE
#include "client.h"
#include "vbr_shared.h"

#include <signal.h>
#include <string.h>
#include <sys/prctl.h>
#include <sys/ptrace.h>
#include <sys/wait.h>
#include <unistd.h>

enum { SLOTS = 40 + 3 * 66, BUCKETS = 2, KEYS = 12, KEY = 5, FRESH = 50, ABSENT = 0, UNTRACED = 77 };

static vbr_shared_handle *handles;
static size_t size;

/* A way to make the call, and what is there before. */
struct kind {
    const char *name;
    int32_t (*call)(vbr_map_handle *);
    uint64_t before, after; /* what the key has */
    int key, has_reserve, marked; /* the key; whether the handle has slots of its own; whether removed nodes are left in the bucket */
    int cycles;                   /* how often the handle has added a key and taken it out before, so that its pool stands elsewhere */
};

static int32_t insert(vbr_map_handle *m) { return vbr_map_insert(m, FRESH, 77); }
static int32_t insert_there(vbr_map_handle *m) { return vbr_map_insert(m, KEY, 77); }
static int32_t remove_key(vbr_map_handle *m) { return vbr_map_remove(m, KEY, NULL); }
static int32_t put(vbr_map_handle *m) { return vbr_map_put(m, KEY, 77, NULL); }
static int32_t put_fresh(vbr_map_handle *m) { return vbr_map_put(m, FRESH, 77, NULL); }
static int32_t replace(vbr_map_handle *m) { return vbr_map_replace(m, KEY, 77, NULL); }
static int32_t get_or_insert(vbr_map_handle *m) { return vbr_map_get_or_insert(m, FRESH, 77, NULL); }
static int32_t exchange(vbr_map_handle *m) { return vbr_map_compare_exchange(m, KEY, 1000 + KEY, 77, NULL); }
static int32_t remove_if(vbr_map_handle *m) { return vbr_map_remove_if(m, KEY, 1000 + KEY, NULL); }
static int32_t get(vbr_map_handle *m) { return vbr_map_get(m, KEY, NULL); }
static int32_t walk(vbr_map_handle *m) {
    vbr_cursor cursor = VBR_CURSOR_BEGIN;
    vbr_entry entry;
    int32_t told;
    while ((told = vbr_map_next(m, &cursor, &entry)) == VBR_YES) {}
    return told;
}
static int32_t spare(vbr_map_handle *m) { return (int32_t)vbr_map_give_slots_back(m); }
static int32_t reserve(vbr_map_handle *m) { return (int32_t)vbr_map_reserve(m, 63); }

static const struct kind kinds[] = {
    {"insert, with a reserve", insert, ABSENT, 77, FRESH, 1, 0, 0},
    {"insert, without a slot of its own", insert, ABSENT, 77, FRESH, 0, 0, 0},
    {"insert past removed nodes", insert, ABSENT, 77, FRESH, 1, 1, 0},
    {"insert past removed nodes, no slot", insert, ABSENT, 77, FRESH, 0, 1, 0},
    {"insert of a key that is there", insert_there, 1000 + KEY, 1000 + KEY, KEY, 1, 0, 0},
    {"remove", remove_key, 1000 + KEY, ABSENT, KEY, 1, 0, 0},
    {"remove past removed nodes", remove_key, 1000 + KEY, ABSENT, KEY, 1, 1, 0},
    {"put of a key that is there", put, 1000 + KEY, 77, KEY, 1, 0, 0},
    {"put past removed nodes, no slot", put, 1000 + KEY, 77, KEY, 0, 1, 0},
    {"put of an absent key", put_fresh, ABSENT, 77, FRESH, 1, 0, 0},
    {"replace", replace, 1000 + KEY, 77, KEY, 1, 0, 0},
    {"get_or_insert", get_or_insert, ABSENT, 77, FRESH, 1, 0, 0},
    {"compare_exchange", exchange, 1000 + KEY, 77, KEY, 1, 0, 0},
    {"remove_if", remove_if, 1000 + KEY, ABSENT, KEY, 1, 0, 0},
    {"get", get, 1000 + KEY, 1000 + KEY, KEY, 1, 1, 0},
    {"a walk", walk, 1000 + KEY, 1000 + KEY, KEY, 1, 1, 0},
    {"spare of 32 slots", spare, 1000 + KEY, 1000 + KEY, KEY, 1, 0, 0},
    {"reserve of 63 slots", reserve, 1000 + KEY, 1000 + KEY, KEY, 0, 0, 0},
};

static int failed(const struct kind *kind, long at, const char *what, long n) {
    fprintf(stderr, "each_instruction: FAILED: %s, after %ld instructions: %s (%ld)\n", kind->name, at, what, n);
    return 1;
}

/* Opens the map, with the keys from 0 on, each with its number and a thousand. */
static int prepare(const struct kind *kind) {
    vbr_entry entries[KEYS];
    for (int i = 0; i < KEYS; i++) entries[i] = (vbr_entry){(uint64_t)i, 1000 + (uint64_t)i};
    if (vbr_map_open_shared(&handles, 3, SLOTS, BUCKETS, VBR_MAX_EPOCH, entries, KEYS) != VBR_OK) return 1;
    size = vbr_shared_size(3, SLOTS, BUCKETS);
    if (kind->marked) /* keys that are removed within a budget that isn't enough to take their nodes out */
        for (uint64_t k = 20; k < 26; k++) {
            if (vbr_map_insert(&handles[2].map, k, 1) != VBR_YES) return 1;
            uint32_t steps = 1;
            while (vbr_map_remove_within(&handles[2].map, k, NULL, steps) != VBR_YES) steps++;
        }
    if (!kind->has_reserve) vbr_map_give_slots_back(&handles[1].map);
    for (int i = 0; i < kind->cycles; i++)
        if (vbr_map_insert(&handles[1].map, 300, 1) != VBR_YES || vbr_map_remove(&handles[1].map, 300, NULL) != VBR_YES) return 1;
    return 0;
}

/* What the child's death at this point leaves: 0, or a fault. */
static int look(const struct kind *kind, long at, int *is_done, long *lost, int *was_in_call) {
    *was_in_call = (int)handles[1].both.in_call;
    if (vbr_inherit(&handles[1]) != (*was_in_call ? VBR_NO : VBR_YES)) return failed(kind, at, "inherit", 0);
    uint64_t has = ABSENT;
    vbr_answer told = vbr_map_get(&handles[0].map, (uint64_t)kind->key, &has);
    if (told < 0) return failed(kind, at, "a get", told);
    if (told == VBR_NO) has = ABSENT;
    if (has != kind->before && has != kind->after) return failed(kind, at, "what the key has", (long)has);
    *is_done = has == kind->after;
    /* the other keys, by a walk of another process's handle */
    vbr_cursor cursor = VBR_CURSOR_BEGIN;
    vbr_entry entry;
    int met = 0;
    while ((told = vbr_map_next(&handles[2].map, &cursor, &entry)) == VBR_YES) {
        if (entry.key == (uint64_t)kind->key) { if (entry.value != has) return failed(kind, at, "a walk and a get differ", (long)entry.value); continue; }
        if (entry.key >= KEYS || entry.value != 1000 + entry.key || met >> entry.key & 1) return failed(kind, at, "another key", (long)entry.key);
        met |= 1 << entry.key;
    }
    if (told != VBR_NO || (met | (kind->key < KEYS ? 1 << kind->key : 0)) != (1 << KEYS) - 1) return failed(kind, at, "keys that are gone", met);
    /* the inherited handle goes on, and so do others, on the key itself */
    for (int i = 1; i < 3; i++) {
        vbr_map_handle *m = &handles[i].map;
        uint64_t found;
        if (vbr_map_put(m, (uint64_t)kind->key, 5, NULL) < 0 || vbr_map_get(m, (uint64_t)kind->key, &found) != VBR_YES || found != 5) return failed(kind, at, "a put afterwards", i);
        if (vbr_map_remove(m, (uint64_t)kind->key, NULL) != VBR_YES || vbr_map_get(&handles[0].map, (uint64_t)kind->key, NULL) != VBR_NO) return failed(kind, at, "a remove afterwards", i);
        for (uint64_t k = 100; k < 140; k++) if (vbr_map_insert(m, k, k) != VBR_YES) return failed(kind, at, "an insert afterwards", i);
        for (uint64_t k = 100; k < 140; k++) if (vbr_map_remove(m, k, &found) != VBR_YES || found != k) return failed(kind, at, "a remove afterwards", i);
    }
    for (int renewed = 0; renewed < 2; renewed++) { /* slots that nobody finds, before and after a renewal */
        vbr_entry entries[2 * SLOTS];
        vbr_report report;
        for (int i = 0; i < 3; i++) vbr_map_give_slots_back(&handles[i].map);
        uint64_t key = renewed ? 5000 : 1000;
        while ((told = vbr_map_insert(&handles[0].map, key, 1)) == VBR_YES) key++;
        if (told != VBR_NO_SLOT) return failed(kind, at, "a full map", told);
        told = vbr_map_report_all(vbr_map_gather(handles), 3, entries, 2 * SLOTS, &report);
        vbr_spread(handles);
        if (told != VBR_YES) return failed(kind, at, "a report", told);
        long missing = (long)vbr_map_slots(&handles[0].map) - report.live - report.marked;
        if (renewed && missing) return failed(kind, at, "slots lost after the renewal", missing);
        if (renewed) break;
        *lost = missing;
        if (missing > 66 || (!*was_in_call && missing)) return failed(kind, at, "slots lost", missing);
        if (vbr_renew_shared(handles, SLOTS + 7, BUCKETS, VBR_MAX_EPOCH) != VBR_OK) return failed(kind, at, "the renewal", 0);
    }
    return 0;
}

static long points;

/* What is torn may end the parent, too, as it goes on with it. */
static void tell_end(int signal_number) {
    static const char text[] = "each_instruction: FAILED: a call afterwards ends the process by a signal\n";
    (void)signal_number;
    _exit(write(2, text, sizeof text - 1) > 0 ? 1 : 2);
}

static int end_map(char *kept) {
    vbr_map_end_all(vbr_map_gather(handles), 3);
    vbr_unmap_shared(handles);
    free(kept);
    return 0;
}

static int try_kind(const struct kind *kind) {
    if (prepare(kind)) return failed(kind, 0, "the opening", 0);
    char *mapping = (char *)((uintptr_t)handles & ~(uintptr_t)4095), *kept = malloc(size);
    if (!kept) return failed(kind, 0, "memory", 0);
    pid_t child = fork();
    if (!child) {
        prctl(PR_SET_PDEATHSIG, SIGKILL);
        if (ptrace(PTRACE_TRACEME, 0, NULL, NULL)) _exit(UNTRACED);
        raise(SIGSTOP);
        vbr_begin(&handles[1]);
        int32_t told = kind->call(&handles[1].map);
        vbr_end(&handles[1]);
        _exit(told < 0 ? 1 : 0);
    }
    int status, was_done = 0, switches = 0, in_call = 0;
    long at = 0, looked = 0, within = 0, most = 0, sum = 0, least = SLOTS;
    if (waitpid(child, &status, 0) != child) return failed(kind, 0, "the child", status);
    if (WIFEXITED(status) && WEXITSTATUS(status) == UNTRACED) return UNTRACED;
    if (!WIFSTOPPED(status)) return failed(kind, 0, "the child", status);
    for (; at < 1000000; at++) {
        int is_done, was_in_call;
        long lost;
        memcpy(kept, mapping, size);
        if (look(kind, at, &is_done, &lost, &was_in_call)) return kill(child, SIGKILL), 1;
        memcpy(mapping, kept, size);
        looked++;
        if (kind->before != kind->after) {
            switches += is_done != was_done;
            was_done = is_done;
        }
        if (was_in_call) {
            within++, sum += lost;
            if (lost > most) most = lost;
            if (lost < least) least = lost;
        } else if (in_call) break; /* the call is over: it has been looked at once more */
        in_call |= was_in_call;
        if (ptrace(PTRACE_SINGLESTEP, child, NULL, NULL) || waitpid(child, &status, 0) != child || !WIFSTOPPED(status) || WSTOPSIG(status) != SIGTRAP)
            return failed(kind, at, "a step", status);
    }
    kill(child, SIGKILL);
    waitpid(child, &status, 0);
    if (kind->before != kind->after && (switches != 1 || !was_done)) return failed(kind, at, "how often what the key has changed", switches);
    points += within;
    if (kind->cycles) return end_map(kept);
    printf("%-36s %5ld instructions, %5ld in the call; the key changes %d time%s; slots lost %ld to %ld, %.1f in the mean\n", kind->name, looked, within, switches,
           switches == 1 ? "" : "s", least, most, (double)sum / (double)within);
    fflush(stdout);
    return end_map(kept);
}

int main(int count, char **words) {
    static const int ends[] = {SIGSEGV, SIGBUS, SIGILL, SIGFPE, SIGABRT};
    for (size_t i = 0; i < sizeof ends / sizeof ends[0]; i++) signal(ends[i], tell_end);
    int is_worn = count > 1 && !strcmp(words[1], "worn");
    for (size_t i = 0; i < sizeof kinds / sizeof kinds[0] && !is_worn; i++) {
        int told = try_kind(&kinds[i]);
        if (told == UNTRACED) return puts("skipped: a death after each instruction, since no process may trace another here"), 0;
        if (told) return 1;
    }
    for (int cycles = 112; cycles < 124; cycles++) /* the pool is moved to the front of its room in one of these */
        for (size_t i = 0; i < sizeof kinds / sizeof kinds[0]; i++) {
            struct kind worn = kinds[i];
            worn.cycles = cycles;
            if ((worn.call == remove_key || worn.call == put || worn.call == insert) && try_kind(&worn)) return 1;
        }
    printf("a death after each instruction: passed, at %ld points\n", points);
    return 0;
}
