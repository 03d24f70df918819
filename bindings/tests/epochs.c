/* Four threads insert and remove a few keys with budgets that are often too small, and the epoch is paid: it is at most one more than
   the removes that were answered yes, however many inserts were begun and refused. epochs [rounds]

   An insert advances the epoch only where it has a slot that was retired at the epoch as it stands. So each advance but the first
   asks for a node that was removed, unlinked and retired since the one before. A node that is marked still, at the end, paid for none. */
#include "client.h"

enum { THREADS = 4, KEYS = 6, CALLS = 4000, MOST = 200, SLOTS = KEYS + THREADS };

struct worker {
    _Alignas(128) vbr_handle handle;
    uint64_t random;
    uint64_t inserts, refused, removed;
};

static struct worker workers[THREADS];
static atomic_int ready; /* so many threads have begun */

static void *work(void *of) {
    struct worker *w = of;
    atomic_fetch_add(&ready, 1);
    while (atomic_load(&ready) < THREADS) sched_yield();
    for (int i = 0; i < CALLS; i++) {
        uint64_t key = (next(&w->random) >> 8) % KEYS;
        uint32_t budget = 1 + (uint32_t)(next(&w->random) >> 8) % MOST;
        if ((next(&w->random) >> 8) % 3 > 0) {
            vbr_answer answer = vbr_insert_within(&w->handle, key, budget);
            w->inserts++;
            w->refused += answer != VBR_YES && answer != VBR_NO;
        } else {
            w->removed += vbr_remove_within(&w->handle, key, budget) == VBR_YES;
        }
    }
    return NULL;
}

int main(int count, char **words) {
    int rounds = count > 1 ? atoi(words[1]) : 100;
    uint64_t inserts = 0, refused = 0, removed = 0, advances = 0;
    for (int i = 0; i < THREADS; i++) workers[i].random = 88172645463325252u + (uint64_t)i;
    for (int round = 0; round < rounds; round++) {
        vbr_handle handles[THREADS] = {{0}};
        vbr_report report;
        uint64_t keys[KEYS], of_round = 0;
        CHECK(vbr_open(handles, THREADS, SLOTS, 1, VBR_MAX_EPOCH) == VBR_OK);
        for (int i = 0; i < THREADS; i++) workers[i].handle = handles[i], workers[i].removed = 0;
        atomic_store(&ready, 0);
        run_threads(THREADS, work, workers, sizeof *workers);
        for (int i = 0; i < THREADS; i++) handles[i] = workers[i].handle, of_round += workers[i].removed;
        CHECK(vbr_close_all(handles, THREADS, keys, KEYS, &report) == VBR_YES);
        CHECK(report.epoch + report.marked <= 1 + of_round);
        removed += of_round, advances += report.epoch - 1;
    }
    for (int i = 0; i < THREADS; i++) inserts += workers[i].inserts, refused += workers[i].refused;
    CHECK(refused > 0 && advances > 0);
    printf("epochs in C: %llu advances, %llu removes answered yes, %llu inserts begun, %llu of them refused\n",
           (unsigned long long)advances, (unsigned long long)removed, (unsigned long long)inserts, (unsigned long long)refused);
    return 0;
}
