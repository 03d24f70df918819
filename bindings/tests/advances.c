/* How many of the inserts advance the epoch: each line is a way of using a set, with its share.

       advances [INSERTS]

   A cache keeps the newest keys of each thread, and takes out its oldest ones where it is full: one for each insert, or
   sixteen at a time. A mix inserts and removes keys at random. The epoch of the report tells how often it was advanced. An
   insert advances it where each slot of the handle's own pool was retired at the epoch that is, so few do: a handle keeps 32
   slots in reserve. */
#include "client.h"

enum { MAX_THREADS = 4, MOST = 1024 };

struct worker {
    vbr_handle handle;
    uint64_t random, oldest[MOST];
    uint32_t kept, batch, keys; /* a cache keeps so many, and takes out so many at a time; a mix has a batch of 0 */
    long inserts, wanted;
};

static struct worker workers[MAX_THREADS];
static long inserts = 200000;

static uint64_t next_key(struct worker *w) {
    next(&w->random);
    return (w->random >> 32) * w->keys >> 32;
}

static void count(struct worker *w, vbr_answer added) {
    CHECK(added == VBR_YES || added == VBR_NO);
    w->inserts += added;
}

static void *keep_newest(void *of) {
    struct worker *w = of;
    uint32_t from = 0, filled = 0;
    while (w->inserts < w->wanted) {
        uint64_t key = next_key(w);
        if (vbr_has(&w->handle, key) == VBR_YES) continue;
        for (uint32_t out = filled == w->kept ? w->batch : 0; out > 0; out--, filled--) {
            CHECK(vbr_remove(&w->handle, w->oldest[from]) >= 0);
            from = (from + 1) % w->kept;
        }
        count(w, vbr_insert(&w->handle, key));
        w->oldest[(from + filled++) % w->kept] = key;
    }
    return NULL;
}

static void *mix(void *of) {
    struct worker *w = of;
    while (w->inserts < w->wanted) {
        uint64_t key = next_key(w);
        if (w->random >> 20 & 1) count(w, vbr_insert(&w->handle, key));
        else CHECK(vbr_remove(&w->handle, key) >= 0);
    }
    return NULL;
}

/* Of a hundred inserts, how many advanced the epoch. */
static double share(const char *what, int threads, uint32_t kept, uint32_t batch) {
    vbr_handle handles[MAX_THREADS] = {{0}};
    uint64_t none[1] = {0};
    vbr_report report = {0};
    long made = 0;
    uint32_t keys = 4 * kept * (uint32_t)threads;
    CHECK(vbr_open(handles, (size_t)threads, keys + 64 * (uint32_t)threads, 4096, VBR_MAX_EPOCH) == VBR_OK);
    for (int i = 0; i < threads; i++) {
        workers[i] = (struct worker){.handle = handles[i], .random = 88172645463325252u + (uint64_t)i, .kept = kept,
                                     .batch = batch, .keys = keys, .wanted = inserts / threads};
    }
    run_threads(threads, batch ? keep_newest : mix, workers, sizeof *workers);
    for (int i = 0; i < threads; i++) {
        made += workers[i].inserts;
        /* the keys aren't wanted: the last handle gets the rest of the report, and is dropped */
        CHECK(vbr_close(&workers[i].handle, none, 0, &report) == (i == threads - 1 ? VBR_NO_ROOM : VBR_NO));
        vbr_drop(&workers[i].handle);
    }
    CHECK(report.epoch - 1 <= (uint64_t)made);
    double percent = 100.0 * (double)(report.epoch - 1) / (double)made;
    printf("%-52s %6.2f of 100 inserts advanced the epoch\n", what, percent);
    return percent;
}

int main(int argument_count, char **words) {
    if (argument_count > 1) inserts = atol(words[1]);
    CHECK(inserts >= 10000);
    double alone = share("a cache, one out for each in, one thread", 1, 1000, 1);
    double shared = share("a cache, one out for each in, four threads", 4, 1000, 1);
    double batches = share("a cache, sixteen out at a time, one thread", 1, 1000, 16);
    double four = share("a cache, sixteen out at a time, four threads", 4, 1000, 16);
    double random = share("inserts and removes at random, one thread", 1, 250, 0);
    double randoms = share("inserts and removes at random, four threads", 4, 250, 0);
    CHECK(alone <= 4 && shared <= 4 && batches <= 4 && four <= 4 && random < 15 && randoms < 15);
    puts("advances in C: passed");
    return 0;
}
