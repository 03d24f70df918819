/* Four threads on one set. Each answer is counted, and the keys that are left are those that the answers tell. */
#include "client.h"

enum { THREADS = 4, KEYS = 64, SLOTS = 512 };

struct worker {
    vbr_handle handle;
    uint64_t random;
    long rounds;
    int balance[KEYS]; /* inserts answered yes, less removes answered yes */
    long refused;
};

static void *work(void *of) {
    struct worker *w = of;
    for (long i = 0; i < w->rounds; i++) {
        next(&w->random);
        uint64_t key = (w->random >> 8) % KEYS;
        int kind = (int)(w->random % 3);
        int32_t answer = kind == 0   ? vbr_insert(&w->handle, key)
                         : kind == 1 ? vbr_remove(&w->handle, key)
                                     : vbr_has(&w->handle, key);
        if (answer < 0) w->refused++;
        else if (answer == VBR_YES && kind == 0) w->balance[key]++;
        else if (answer == VBR_YES && kind == 1) w->balance[key]--;
    }
    return NULL;
}

static int left(const struct worker *workers, int key) {
    int sum = 0;
    for (int i = 0; i < THREADS; i++) sum += workers[i].balance[key];
    return sum;
}

int main(int count, char **words) {
    static struct worker workers[THREADS];
    vbr_handle handles[THREADS] = {{0}};
    uint64_t keys[KEYS] = {0};
    vbr_report report = {0};
    uint32_t want = 0;
    CHECK(vbr_open(handles, THREADS, SLOTS, 16, VBR_MAX_EPOCH) == VBR_OK);
    for (int i = 0; i < THREADS; i++) {
        workers[i].handle = handles[i]; /* moved: the old place is not used again */
        workers[i].random = 88172645463325252u + (uint64_t)i;
        workers[i].rounds = count > 1 ? atol(words[1]) : 200000;
    }
    run_threads(THREADS, work, workers, sizeof *workers);
    for (int i = 0; i < THREADS; i++) CHECK(workers[i].refused == 0);
    for (int key = 0; key < KEYS; key++) {
        int sum = left(workers, key);
        CHECK(sum == 0 || sum == 1);
        CHECK(vbr_has(&workers[key % THREADS].handle, (uint64_t)key) == sum);
        want += (uint32_t)sum;
    }
    for (int i = 0; i < THREADS - 1; i++) CHECK(vbr_close(&workers[i].handle, keys, KEYS, &report) == VBR_NO);
    CHECK(vbr_close(&workers[THREADS - 1].handle, keys, KEYS, &report) == VBR_YES);
    CHECK(report.live == want && report.live + report.marked + report.free == SLOTS);
    for (uint32_t i = 0; i < want; i++) CHECK(left(workers, (int)keys[i]) == 1 && (i == 0 || keys[i - 1] < keys[i]));
    printf("four threads in C: passed, %u keys left\n", want);
    return 0;
}
