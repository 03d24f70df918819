/* A set and a map that processes share, in small: handles go from process to process, a child that is killed between two calls loses
   nothing, one that is killed in a call is inherited, threads go on while their process forks, closes come from several processes, a
   file shows the memory by name, and one that is too short, or can't be mapped, is refused before anything is written. */
#define _GNU_SOURCE
#include "client.h"
#include "vbr_shared.h"

#include <fcntl.h>
#include <signal.h>
#include <string.h>
#include <sys/mman.h>
#include <sys/resource.h>
#include <sys/stat.h>
#include <sys/wait.h>
#include <unistd.h>

static int ended_well(pid_t child) {
    int status;
    return waitpid(child, &status, 0) == child && WIFEXITED(status) && WEXITSTATUS(status) == 0;
}

/* Each process adds keys by a handle; all see all of them; the balance of a child's handle is the parent's to read. */
static int sets(void) {
    vbr_shared_handle *handle; // the first of the array that an opening gives
    static const uint64_t opening[2] = {6, 7};
    uint32_t slots = 1024 + 3 * 64 + 4 * 66; // keys, handles, and deaths in a call
    if (vbr_open_shared(&handle, 3, slots, 1024, VBR_MAX_EPOCH, opening, 2) != VBR_OK) return 1;
    for (int i = 1; i < 3; i++) {
        pid_t child = fork();
        if (!child) _exit(vbr_insert(&handle[i].set, 100 + (uint64_t)i) == VBR_YES && vbr_remove(&handle[i].set, 5 + (uint64_t)i) == VBR_YES ? 0 : 1);
        CHECK(ended_well(child));
    }
    handle[0].set.steps = 5000; // a budget, as of any handle
    CHECK(vbr_has(&handle[0].set, 101) == VBR_YES && vbr_has(&handle[0].set, 102) == VBR_YES && vbr_has(&handle[0].set, 6) == VBR_NO);
    CHECK(vbr_balance(&handle[0].set) == 2 && vbr_balance(&handle[1].set) == 0);
    /* another child goes on with the handle of the first, and with its slots */
    pid_t child = fork();
    if (!child) _exit(vbr_inherit(&handle[1]) == VBR_YES && vbr_insert(&handle[1].set, 103) == VBR_YES ? 0 : 1);
    CHECK(ended_well(child));
    /* closes from several processes: a child has the last one, and gets the report */
    uint64_t keys[8];
    vbr_report report;
    CHECK(vbr_close(&handle[0].set, keys, 8, &report) == VBR_NO);
    if (!(child = fork())) _exit(vbr_close(&handle[2].set, keys, 8, &report) == VBR_NO ? 0 : 1);
    CHECK(ended_well(child) && handle[2].both.owned == NULL);
    if (!(child = fork())) _exit(vbr_close(&handle[1].set, keys, 8, &report) == VBR_YES && report.live == 3 && keys[0] == 101 && keys[2] == 103 ? 0 : 1);
    CHECK(ended_well(child) && handle[1].both.owned == NULL);
    vbr_unmap_shared(handle);
    return 0;
}

/* A child is killed between two calls with 63 slots of its own, and another in a call with as many. */
static int deaths(void) {
    vbr_shared_handle *handle;
    vbr_entry entries[8];
    vbr_report report;
    if (vbr_map_open_shared(&handle, 3, 10 + 3 * 64 + 66, 16, VBR_MAX_EPOCH, NULL, 0) != VBR_OK) return 1;
    for (int in_call = 0; in_call < 2; in_call++) {
        pid_t child = fork();
        if (child == 0) {
            vbr_begin(&handle[1]); // a call is under way from here, or several
            if (vbr_map_insert(&handle[1].map, 1 + (uint64_t)in_call, 5) != VBR_YES) _exit(1);
            vbr_map_reserve(&handle[1].map, 63);
            if (in_call) raise(SIGKILL);
            vbr_end(&handle[1]); // to here
            raise(SIGKILL);
        }
        CHECK(!ended_well(child));
        vbr_answer inherited = vbr_inherit(&handle[1]); // VBR_YES: it is whole; VBR_NO: its slots are lost for now
        CHECK(inherited == (in_call ? VBR_NO : VBR_YES) && vbr_inherit(&handle[1]) == VBR_YES);
        CHECK(vbr_map_give_slots_back(&handle[1].map) == (in_call ? 0 : 63));
    }
    CHECK(vbr_map_get(&handle[2].map, 2, NULL) == VBR_YES && vbr_map_insert(&handle[1].map, 3, 5) == VBR_YES);
    vbr_cursor cursor = VBR_CURSOR_BEGIN;
    vbr_entry given = {77, 78};
    CHECK(vbr_map_next(&handle[2].map, &cursor, &given) == VBR_YES && given.key >= 1 && given.key <= 3 && given.value == 5);
    vbr_answer renewed = vbr_renew_shared(handle, 10 + 3 * 64 + 66, 16, VBR_MAX_EPOCH); // VBR_OK: no slot is lost any more
    CHECK(vbr_map_next(&handle[2].map, &cursor, &given) == VBR_RESHAPED && vbr_map_next(&handle[0].map, &cursor, &given) == VBR_RESHAPED);
    CHECK(renewed == VBR_OK && vbr_map_balance(&handle[0].map) == 3 && vbr_map_get(&handle[1].map, 3, NULL) == VBR_YES);
    /* they are moved once, and the calls of sets aren't for a map */
    vbr_answer reported = vbr_map_report_all(vbr_map_gather(handle), 3, entries, 8, &report); // the handles stay gathered
    CHECK(reported == VBR_YES && report.live == 3 && entries[2].key == 3 && !vbr_gather(handle));
    CHECK(vbr_map_has(&vbr_map_gather(handle)[1], 3) == VBR_YES && vbr_map_has(&handle[1].map, 3) == VBR_NO_HANDLE);
    CHECK(vbr_inherit(&handle[1]) == VBR_NO_HANDLE && vbr_renew_shared(handle, 64, 16, VBR_MAX_EPOCH) == VBR_NO_HANDLE);
    vbr_spread(handle); // and they go on where they were
    CHECK(vbr_map_has(&handle[1].map, 3) == VBR_YES && vbr_renew_shared(handle, 2, 16, VBR_MAX_EPOCH) == VBR_NO_ROOM);
    vbr_map_end_all(vbr_map_gather(handle), 3);
    vbr_unmap_shared(handle);
    return 0;
}

/* Threads of a parent make calls while it forks; the children make calls at once. */
static vbr_shared_handle *of_threads;
static atomic_int is_over;

static void *churn(void *of) {
    vbr_map_handle *m = of;
    uint64_t i = 0;
    while (!atomic_load(&is_over)) {
        if (vbr_map_put(m, i % 64, i, NULL) < 0 || (i % 3 == 0 && vbr_map_remove(m, (i * 7) % 64, NULL) < 0)) return of;
        i++;
    }
    return NULL;
}

static int forks_beside_threads(void) {
    pthread_t threads[2];
    CHECK(vbr_map_open_shared(&of_threads, 3, 64 + 66 * 3, 64, VBR_MAX_EPOCH, NULL, 0) == VBR_OK);
    for (int i = 0; i < 2; i++) CHECK(!pthread_create(&threads[i], NULL, churn, &of_threads[i].map));
    for (int i = 0; i < 100; i++) {
        pid_t child = fork();
        if (!child) {
            for (uint64_t k = 0; k < 1000; k++) if (vbr_map_put(&of_threads[2].map, k % 64, k, NULL) < 0) _exit(1);
            _exit(0);
        }
        CHECK(ended_well(child));
    }
    atomic_store(&is_over, 1);
    void *wrong;
    for (int i = 0; i < 2; i++) CHECK(!pthread_join(threads[i], &wrong) && !wrong);
    vbr_report report;
    vbr_entry entries[64];
    CHECK(vbr_map_close_all(vbr_map_gather(of_threads), 3, entries, 64, &report) == VBR_YES && report.live + report.marked + report.free == 64 + 66 * 3);
    vbr_unmap_shared(of_threads);
    return 0;
}

/* A renewal by another name, of handles that stand side by side: what it opens lies in the mapping too, so a child's key is there. */
static int renewed_so(void) {
    vbr_shared_handle *handle;
    CHECK(vbr_open_shared(&handle, 2, 256, 16, VBR_MAX_EPOCH, NULL, 0) == VBR_OK && vbr_insert(&handle[0].set, 1) == VBR_YES);
    vbr_answer renewed = vbr_renew_all(vbr_gather(handle), 2, 512, 16, VBR_MAX_EPOCH); // VBR_OK: in the mapping
    vbr_spread(handle);
    CHECK(renewed == VBR_OK && vbr_slots(&handle[0].set) == 512);
    pid_t child = fork();
    if (!child) _exit(vbr_has(&handle[1].set, 1) == VBR_YES && vbr_insert(&handle[1].set, 2) == VBR_YES ? 0 : 1);
    CHECK(ended_well(child) && vbr_has(&handle[0].set, 2) == VBR_YES);
    vbr_cursor cursor = VBR_CURSOR_BEGIN;
    uint64_t key;
    CHECK(vbr_next(&handle[0].set, &cursor, &key) == VBR_YES);
    CHECK(vbr_renew_all_seeded(vbr_gather(handle), 2, 256, 16, VBR_MAX_EPOCH, 7) == VBR_OK);
    vbr_spread(handle);
    child = fork();
    if (!child) _exit(vbr_next(&handle[1].set, &cursor, &key) == VBR_RESHAPED && vbr_remove(&handle[1].set, 2) == VBR_YES ? 0 : 1);
    CHECK(ended_well(child) && vbr_has(&handle[0].set, 2) == VBR_NO && vbr_has(&handle[0].set, 1) == VBR_YES);
    vbr_end_all(vbr_gather(handle), 2);
    vbr_unmap_shared(handle);
    return 0;
}

/* The memory in a file: another program maps it, and sees the epoch and the flags. */
static int by_name(void) {
    int file = memfd_create("vbr", 0);
    vbr_shared_handle *handle;
    if (ftruncate(file, (off_t)vbr_shared_size(2, 1024, 64)) != 0) return 1;
    if (vbr_map_open_shared_in(file, &handle, 2, 1024, 64, 12345, NULL, 0) != VBR_OK) return 1;
    CHECK(vbr_map_insert(&handle[0].map, 4711, 1) == VBR_YES);
    vbr_map_end_all(vbr_map_gather(handle), 2);
    vbr_unmap_shared(handle); // and handle isn't used any more
    if (vbr_open_shared_in(file, &handle, 2, 1024, 64, 12345, NULL, 0) != VBR_OK) return 1;
    CHECK(vbr_insert(&handle[0].set, 4711) == VBR_YES);
    char name[64];
    sprintf(name, "/proc/%d/fd/%d", (int)getpid(), file);
    pid_t child = fork();
    if (!child) {
        int same = open(name, O_RDONLY);
        const uint64_t *words = mmap(NULL, 1 << 20, PROT_READ, MAP_SHARED, same, 0);
        if (same < 0 || words == MAP_FAILED) _exit(1);
        for (size_t i = 0; i + 1 < (1 << 20) / 8; i++) /* the epoch and the word of the shape, then 64 heads and 1024 nodes of four words */
            if (words[i] == 1 && words[i + 1] >> 11 == 12345 && (words[i + 1] & 0x7ff) == 1024) _exit(0);
        _exit(1);
    }
    CHECK(ended_well(child));
    vbr_end_all(vbr_gather(handle), 2); // all are given up, and the set is gone
    vbr_unmap_shared(handle);
    close(file);
    handle = NULL;
    CHECK(vbr_open_shared_in(-1, &handle, 2, 1024, 64, 12345, NULL, 0) == VBR_NO_MEMORY && !handle);
    return 0;
}

enum { SHORT = 3000 }; /* what a file has that is too short */

/* Whether the file still has what was written to it, and no more. */
static int is_untouched(int file, const char *kept) {
    char has[SHORT];
    struct stat told;
    return !fstat(file, &told) && told.st_size == SHORT && pread(file, has, SHORT, 0) == SHORT && !memcmp(has, kept, SHORT);
}

/* Whether an opening in this file is refused so, of a set and of a map, and leaves what it was given. */
static int is_refused(int file, vbr_answer refusal) {
    static const uint64_t keys[2] = {6, 7};
    static const vbr_entry entries[2] = {{6, 60}, {7, 70}};
    vbr_shared_handle *handle = NULL;
    return vbr_open_shared_in(file, &handle, 2, 64, 8, 100, keys, 2) == refusal && vbr_map_open_shared_in(file, &handle, 2, 64, 8, 100, entries, 2) == refusal && !handle;
}

/* Files in which no set can be: each is refused by name, and neither the file nor a set beside it loses anything. */
static int files(void) {
    vbr_shared_handle *beside, *handle = NULL;
    static const uint64_t keys[2] = {6, 7}, wrong[2] = {7, 6};
    char kept[SHORT], name[64];
    int ends[2], file = memfd_create("vbr", MFD_ALLOW_SEALING);
    off_t size = (off_t)vbr_shared_size(2, 64, 8);
    CHECK(file >= 0 && !pipe(ends) && vbr_open_shared(&beside, 2, 64, 8, 100, keys, 2) == VBR_OK);
    /* it is empty, or has something, or lacks its last byte */
    CHECK(is_refused(file, VBR_NO_ROOM));
    memset(kept, 'k', SHORT);
    CHECK(pwrite(file, kept, SHORT, 0) == SHORT && is_refused(file, VBR_NO_ROOM) && is_untouched(file, kept));
    CHECK(!ftruncate(file, size - 1) && is_refused(file, VBR_NO_ROOM) && !ftruncate(file, SHORT) && is_untouched(file, kept));
    /* other refusals come before */
    CHECK(vbr_open_shared_in(file, &handle, 2, 0, 8, 100, wrong, 2) == VBR_BAD_SHAPE && vbr_open_shared_in(file, &handle, 2, 64, VBR_MAX_BUCKETS + 1, 100, wrong, 2) == VBR_BAD_SHAPE);
    CHECK(vbr_open_shared_in(file, &handle, 0, 64, 8, 100, wrong, 2) == VBR_BAD_COUNT && vbr_open_shared_in(file, &handle, VBR_MAX_MANY_HANDLES + 1, 64, 8, 100, wrong, 2) == VBR_BAD_COUNT);
    CHECK(vbr_open_shared_in(file, &handle, 2, 64, 8, 100, wrong, 2) == VBR_BAD_KEYS && !handle && is_untouched(file, kept));
    /* it may only be read, or only be written, and is too short or not */
    sprintf(name, "/proc/self/fd/%d", file);
    int read_only = open(name, O_RDONLY), write_only = open(name, O_WRONLY);
    CHECK(read_only >= 0 && write_only >= 0 && is_refused(read_only, VBR_NO_ROOM) && is_refused(write_only, VBR_NO_MEMORY) && is_untouched(file, kept));
    CHECK(!ftruncate(file, size) && is_refused(read_only, VBR_NO_MEMORY) && is_refused(write_only, VBR_NO_MEMORY) && !ftruncate(file, SHORT) && is_untouched(file, kept));
    close(read_only), close(write_only);
    /* there is no file, or it is no file of bytes */
    int folder = open("/", O_RDONLY);
    CHECK(folder >= 0 && is_refused(folder, VBR_NO_MEMORY) && is_refused(ends[0], VBR_NO_MEMORY) && is_refused(ends[1], VBR_NO_MEMORY));
    close(folder), close(ends[0]), close(ends[1]);
    CHECK(is_refused(ends[0], VBR_NO_MEMORY) && is_refused(-1, VBR_NO_MEMORY));
    /* where it is long enough it is taken, and one that nobody can make shorter stays so */
    CHECK(!ftruncate(file, size) && !fcntl(file, F_ADD_SEALS, F_SEAL_SHRINK) && vbr_open_shared_in(file, &handle, 2, 64, 8, 100, keys, 2) == VBR_OK);
    CHECK(ftruncate(file, SHORT) != 0 && vbr_has(&handle[1].set, 7) == VBR_YES && vbr_insert(&handle[0].set, 8) == VBR_YES);
    close(file);
    CHECK(vbr_has(&handle[1].set, 8) == VBR_YES && vbr_has(&beside[1].set, 8) == VBR_NO && vbr_has(&beside[1].set, 7) == VBR_YES);
    vbr_end_all(vbr_gather(handle), 2), vbr_end_all(vbr_gather(beside), 2);
    vbr_unmap_shared(handle), vbr_unmap_shared(beside);
    return 0;
}

/* Where there is no memory, all stays as it was. */
static int refusals(void) {
    vbr_shared_handle *handle, *none = NULL;
    CHECK(vbr_open_shared(&handle, 2, 1024, 64, VBR_MAX_EPOCH, NULL, 0) == VBR_OK && vbr_insert(&handle[0].set, 5) == VBR_YES);
    CHECK(vbr_renew_shared(handle, 10000000, 1 << 20, VBR_MAX_EPOCH) == VBR_NO_MEMORY && vbr_renew_shared(handle, 0, 64, 1) == VBR_BAD_SHAPE);
    CHECK(vbr_has(&handle[1].set, 5) == VBR_YES && vbr_insert(&handle[1].set, 6) == VBR_YES && vbr_slots(&handle[0].set) == 1024);
    for (int i = 0; i < 100; i++) CHECK(vbr_renew_shared(handle, 1024 + (uint32_t)i % 2, 64, VBR_MAX_EPOCH) == VBR_OK); /* what is freed is found again */
    CHECK(vbr_balance(&handle[0].set) == 2 && vbr_insert(&handle[1].set, 7) == VBR_YES);
    struct rlimit most, less;
    CHECK(!getrlimit(RLIMIT_AS, &most));
    less = most, less.rlim_cur = 1u << 30;
    CHECK(!setrlimit(RLIMIT_AS, &less) && vbr_open_shared(&none, 2, VBR_MAX_SLOTS, 1 << 20, VBR_MAX_EPOCH, NULL, 0) == VBR_NO_MEMORY && !none && !setrlimit(RLIMIT_AS, &most));
    vbr_end_all(vbr_gather(handle), 2);
    vbr_unmap_shared(handle);
    vbr_unmap_shared(handle);
    CHECK(!vbr_gather(handle) && !vbr_map_gather(handle) && vbr_inherit(handle) == VBR_NO_HANDLE);
    CHECK(vbr_renew_shared(handle, 8, 8, 8) == VBR_NO_HANDLE && vbr_renew_shared(handle, 8, 8, 0) == VBR_BAD_SHAPE);
    return 0;
}

/* Which refusal comes first, as of vbr_open_many. */
static int orders(void) {
    vbr_shared_handle *handle = NULL;
    static const uint64_t wrong[3] = {6, 7, 7}, many[2] = {6, 7};
    static const vbr_entry entries[3] = {{6, 9}, {7, 5}, {7, 6}};
    CHECK(vbr_open_shared(&handle, 0, 8, 8, vbr_max_epoch(8) + 1, wrong, 3) == VBR_BAD_SHAPE && vbr_open_shared(&handle, 0, 0, 8, 1, NULL, 0) == VBR_BAD_SHAPE);
    CHECK(vbr_open_shared(&handle, 1, 8, VBR_MAX_BUCKETS + 1, 1, NULL, 0) == VBR_BAD_SHAPE && vbr_open_shared(&handle, 1, 8, 8, 0, NULL, 0) == VBR_BAD_SHAPE);
    /* the greatest last epoch of so many slots is taken, and so is VBR_MAX_EPOCH: what is refused then is that there is no handle */
    static const uint32_t some[] = {1, (1u << 24) - 1, 1u << 24, 1u << 25, VBR_MAX_SLOTS};
    for (size_t i = 0; i < sizeof some / sizeof *some; i++) {
        uint64_t most = vbr_max_epoch(some[i]);
        CHECK(vbr_open_shared(&handle, 0, some[i], VBR_MAX_BUCKETS, most, wrong, 3) == VBR_BAD_COUNT);
        CHECK(vbr_map_open_shared(&handle, 0, some[i], 8, VBR_MAX_EPOCH, entries, 3) == VBR_BAD_COUNT);
        CHECK(vbr_open_shared(&handle, 0, some[i], 8, most + 1, wrong, 3) == VBR_BAD_SHAPE);
    }
    CHECK(vbr_open_shared(&handle, 0, 1u << 31, 8, VBR_MAX_EPOCH, wrong, 3) == VBR_BAD_SHAPE && vbr_open_shared(&handle, 0, 1u << 31, 8, 1, wrong, 3) == VBR_BAD_SHAPE);
    CHECK(vbr_open_shared(&handle, 0, 8, 8, 1, wrong, 3) == VBR_BAD_COUNT && vbr_open_shared(&handle, VBR_MAX_MANY_HANDLES + 1, 8, 8, 1, NULL, 0) == VBR_BAD_COUNT);
    CHECK(vbr_open_shared(&handle, (size_t)-1, 8, 8, 1, wrong, 3) == VBR_BAD_COUNT && vbr_map_open_shared(&handle, (size_t)-1, 0, 8, 1, entries, 3) == VBR_BAD_SHAPE);
    CHECK(vbr_open_shared_in(-1, &handle, 1, 8, 8, 1, wrong, 3) == VBR_BAD_KEYS && vbr_open_shared(&handle, 1, 1, 8, 1, many, 2) == VBR_BAD_KEYS);
    CHECK(vbr_map_open_shared(&handle, 1, 8, 8, 1, entries, 3) == VBR_BAD_KEYS && vbr_map_open_shared(&handle, 1, 1, 8, 1, entries, 2) == VBR_BAD_KEYS && !handle);
    CHECK(vbr_map_open_shared(&handle, 1, 2, 8, 1, entries, 2) == VBR_OK && vbr_map_get(&handle->map, 7, NULL) == VBR_YES);
    vbr_map_end_all(vbr_map_gather(handle), 1);
    vbr_unmap_shared(handle);
    return 0;
}

int main(void) {
    if (refusals() || sets() || deaths() || renewed_so() || forks_beside_threads() || by_name() || orders() || files()) return 1;
    puts("processes in C: passed");
    return 0;
}
