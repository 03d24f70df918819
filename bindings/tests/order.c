/* Four threads that tell each other what they did, and each answer checked against what the program's own order says: of
   a key that is known to be inserted and never removed, has answers yes and insert no; of one that is known to be
   removed for good, has and remove answer no. A thread knows of others by a mutex, by a release and an acquire, and by
   the join; and of those that it never hears from, by what others tell of them. */
#include "client.h"

enum { THREADS = 4, BEHIND = 8 };

/* How many keys of each thread are inserted, and below which of them the odd ones are removed. */
struct known {
    long inserted[THREADS], removed[THREADS];
};

struct worker {
    vbr_handle handle;
    int id;
    struct known known;
    pthread_mutex_t lock; /* of what this worker tells the next one */
    struct known told;
    atomic_long shown; /* how many keys this worker has inserted, by a release and an acquire */
};

static struct worker workers[THREADS];
static long rounds = 50000;

static uint64_t key_of(int id, long n) { return (uint64_t)n * THREADS + (uint64_t)id; }

static void merge(struct known *into, const struct known *from) {
    for (int i = 0; i < THREADS; i++) {
        if (into->inserted[i] < from->inserted[i]) into->inserted[i] = from->inserted[i];
        if (into->removed[i] < from->removed[i]) into->removed[i] = from->removed[i];
    }
}

/* The newest key that is known of a thread, and one before it that `random` chooses. */
static void check(vbr_handle *handle, const struct known *known, int id, uint64_t random) {
    long there = known->inserted[id], gone = known->removed[id];
    if (there > 0) {
        long newest = there - 1 - (there - 1) % 2;
        CHECK(vbr_has(handle, key_of(id, newest)) == VBR_YES);
        CHECK(vbr_insert(handle, key_of(id, (long)(random % (uint64_t)there) & ~1l)) == VBR_NO);
    }
    if (gone > 1) {
        long newest = gone - 1 - gone % 2;
        CHECK(vbr_has(handle, key_of(id, newest)) == VBR_NO);
        CHECK(vbr_remove(handle, key_of(id, (long)(random % (uint64_t)(gone / 2)) * 2 + 1)) == VBR_NO);
    }
}

static void *work(void *of) {
    struct worker *w = of, *before = &workers[(w->id + THREADS - 1) % THREADS], *far = &workers[(w->id + 2) % THREADS];
    uint64_t random = 88172645463325252u + (uint64_t)w->id;
    for (long n = 0; n < rounds; n++) {
        CHECK(vbr_insert(&w->handle, key_of(w->id, n)) == VBR_YES);
        w->known.inserted[w->id] = n + 1;
        atomic_store_explicit(&w->shown, n + 1, memory_order_release);
        if (n >= BEHIND && (n - BEHIND) % 2) {
            CHECK(vbr_remove(&w->handle, key_of(w->id, n - BEHIND)) == VBR_YES);
            w->known.removed[w->id] = n - BEHIND + 1;
        }
        CHECK(!pthread_mutex_lock(&w->lock));
        w->told = w->known;
        CHECK(!pthread_mutex_unlock(&w->lock));
        CHECK(!pthread_mutex_lock(&before->lock));
        struct known told = before->told;
        CHECK(!pthread_mutex_unlock(&before->lock));
        merge(&w->known, &told);
        long shown = atomic_load_explicit(&far->shown, memory_order_acquire);
        /* an odd key may be on its way out by then, an even one stays */
        if (w->known.inserted[far->id] < shown) w->known.inserted[far->id] = shown;
        next(&random);
        check(&w->handle, &w->known, (int)((random >> 8) % THREADS), random >> 16);
        check(&w->handle, &w->known, far->id, random >> 16);
    }
    return NULL;
}

int main(int count, char **words) {
    vbr_handle handles[THREADS] = {{0}};
    vbr_report report = {0};
    uint64_t first[1] = {0};
    if (count > 1) rounds = atol(words[1]);
    CHECK(rounds > BEHIND && rounds <= 1000000);
    CHECK(vbr_open(handles, THREADS, (uint32_t)rounds * THREADS + 64 * THREADS, 16384, VBR_MAX_EPOCH) == VBR_OK);
    for (int i = 0; i < THREADS; i++) {
        workers[i].handle = handles[i]; /* moved: the old place is not used again */
        workers[i].id = i;
        CHECK(!pthread_mutex_init(&workers[i].lock, NULL));
    }
    run_threads(THREADS, work, workers, sizeof *workers);
    /* after the join all is known to each handle */
    for (int i = 0; i < THREADS; i++)
        for (int of = 0; of < THREADS; of++)
            for (long n = of; n < rounds; n += THREADS) {
                int there = n % 2 == 0 || n >= rounds - BEHIND;
                CHECK(vbr_has(&workers[i].handle, key_of(of, n)) == there);
            }
    for (int i = 0; i < THREADS - 1; i++) CHECK(vbr_close(&workers[i].handle, first, 1, &report) == VBR_NO);
    /* the last one tells how many keys there are, and then the keys */
    CHECK(vbr_close(&workers[THREADS - 1].handle, first, 1, &report) == VBR_NO_ROOM);
    CHECK(report.live == (uint32_t)(THREADS * ((rounds + 1) / 2 + BEHIND / 2)));
    uint64_t *keys = calloc(report.live, sizeof *keys);
    CHECK(keys && vbr_close(&workers[THREADS - 1].handle, keys, report.live, &report) == VBR_YES);
    for (uint32_t i = 1; i < report.live; i++) CHECK(keys[i - 1] < keys[i]);
    free(keys);
    printf("order of four threads in C: passed, %u keys left\n", report.live);
    return 0;
}
