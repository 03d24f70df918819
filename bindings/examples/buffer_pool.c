/* A buffer pool: threads read and write the pages of a file in frames of fixed memory, with checkpoints while they go on.

       buffer_pool [REQUESTS [careless]]

   A map has the frame of each page that is in the pool. Its value is the frame's name, which is its number and a generation, and one
   bit: whether the page is dirty, so that the file lacks what was written last. That bit decides:
   - Who writes to a page holds the latch of its frame, and makes the page dirty first, by a compare_exchange.
   - Who wants a frame takes out a page that isn't dirty, by a remove_if: a page that another thread makes dirty meanwhile stays.
   - A page comes in as a dirty one, until it was read from the file. So a place of the file is used only by who holds the latch of a
     frame whose page is dirty, and plain memory stands for the file.
   - A checkpoint walks over the map and saves what is dirty. What was written before it began is in the file when it ends.
   A frame that is taken gets another name. So who comes late to its latch sees that it has gone, and asks the map again.

   Each thread counts its writes to each page, there and by itself. In the end the file has what they wrote. A careless program takes
   pages out by a plain remove, and loses writes. */
#define _XOPEN_SOURCE 700
#include "vbr.h"

#include <pthread.h>
#include <sched.h>
#include <stdatomic.h>
#include <stdio.h>
#include <stdlib.h>
#include <string.h>

#define CHECK(x) do { if (!(x)) { fprintf(stderr, "FAILED: buffer_pool.c:%d: %s\n", __LINE__, #x); exit(1); } } while (0)

/* Makes a call again while it is refused: others were in the way, or keep slots. */
#define UNTIL_ANSWERED(told, call) \
    while ((told = (call)) < 0) { \
        CHECK(told == VBR_OUT_OF_STEPS || told == VBR_NO_SLOT); \
        sched_yield(); \
    }

enum { WORKERS = 4, HANDLES = WORKERS + 1, PAGES = 256, FRAMES = 64, SLOTS = FRAMES + 64 * HANDLES };

struct page {
    uint64_t number, writes, writes_of[WORKERS]; /* how often it was written to, and by whom */
};

/* The latch guards the rest. */
static struct frame {
    pthread_mutex_t latch;
    uint64_t name; /* the number of the frame, and above its 32 bits the generation */
    int is_dirty;  /* and so says the map */
    struct page page;
} frames[FRAMES];

static const uint64_t DIRTY = UINT64_C(1) << 31, GENERATION = UINT64_C(1) << 32;

static struct page file[PAGES];
static _Atomic uint64_t written[PAGES], saved[PAGES]; /* how often each page was written to, in the pool and in the file */
static atomic_uint used, hand;
static atomic_int working = WORKERS;
static long requests = 50000;
static int is_careless;

static struct worker {
    pthread_t thread;
    vbr_map_handle *map;
    struct frame *spare; /* a frame without a page */
    int number;
    uint64_t random, writes[PAGES];
    long hits, misses, saves, checkpoints;
} workers[HANDLES]; /* the last makes the checkpoints */

static uint64_t next_random(struct worker *w) {
    w->random ^= w->random << 13, w->random ^= w->random >> 7, w->random ^= w->random << 17;
    return w->random >> 11;
}

static struct frame *frame_of(uint64_t value) { return &frames[value % DIRTY]; }

/* The page of a latched frame is as in the file, so it may leave. */
static void make_clean(struct worker *w, struct frame *f) {
    vbr_answer told;
    f->is_dirty = 0;
    UNTIL_ANSWERED(told, vbr_map_compare_exchange(w->map, f->page.number, f->name | DIRTY, f->name, NULL));
    CHECK(told == VBR_YES || is_careless);
}

/* Saves the dirty page of a latched frame. */
static void save(struct worker *w, struct frame *f) {
    file[f->page.number] = f->page;
    atomic_store(&saved[f->page.number], f->page.writes);
    make_clean(w, f);
    w->saves++;
}

/* Whether the page of a latched frame is dirty now; if not, it has left the map. */
static int make_dirty(struct worker *w, struct frame *f) {
    vbr_answer told;
    if (f->is_dirty) return 1;
    UNTIL_ANSWERED(told, vbr_map_compare_exchange(w->map, f->page.number, f->name, f->name | DIRTY, NULL));
    return f->is_dirty = told == VBR_YES;
}

/* A frame, latched, whose page has left the map: the next one that isn't dirty, or, after once round, the next. */
static struct frame *take_frame(struct worker *w) {
    struct frame *f = w->spare;
    if (!f && atomic_load(&used) < FRAMES) {
        unsigned number = atomic_fetch_add(&used, 1);
        if (number < FRAMES) f = &frames[number];
    }
    w->spare = NULL;
    for (int tried = 0; !f; tried++) {
        struct frame *it = &frames[atomic_fetch_add(&hand, 1) % FRAMES];
        vbr_answer told = VBR_NO;
        if (pthread_mutex_trylock(&it->latch)) continue;
        if (it->is_dirty && tried >= FRAMES) save(w, it);
        uint64_t page = it->page.number, name = it->name;
        int may_leave = !it->is_dirty;
        pthread_mutex_unlock(&it->latch);
        if (is_careless) sched_yield(); /* while others write */
        if (may_leave) UNTIL_ANSWERED(told, is_careless ? vbr_map_remove(w->map, page, NULL) : vbr_map_remove_if(w->map, page, name, NULL));
        if (told == VBR_YES) f = it; /* and nobody else's */
    }
    pthread_mutex_lock(&f->latch);
    f->name += GENERATION;
    return f;
}

/* Reads or writes the page of a latched frame, which has all that this thread wrote. */
static void use(struct worker *w, struct frame *f, int writes) {
    struct page *page = &f->page;
    CHECK(page->writes_of[w->number] == w->writes[page->number]);
    if (!writes) return;
    page->writes++, page->writes_of[w->number]++, w->writes[page->number]++;
    atomic_store(&written[page->number], page->writes);
}

/* Uses a page that isn't in the pool; or doesn't, since another thread has just brought it in. */
static int use_from_file(struct worker *w, uint64_t page, int writes) {
    struct frame *f = take_frame(w);
    vbr_answer told;
    UNTIL_ANSWERED(told, vbr_map_get_or_insert(w->map, page, f->name | DIRTY, NULL));
    if (told == VBR_YES) {
        w->spare = f;
    } else {
        f->page = file[page];
        f->is_dirty = 1;
        use(w, f, writes);
        if (!writes) make_clean(w, f);
        w->misses++;
    }
    pthread_mutex_unlock(&f->latch);
    return told == VBR_NO;
}

static void request(struct worker *w, uint64_t page, int writes) {
    for (int turn = 0;; turn++) {
        uint64_t value = 0;
        vbr_answer told;
        CHECK(turn < 1000000); /* a frame that has another name has left the map, or will at once */
        UNTIL_ANSWERED(told, vbr_map_get(w->map, page, &value));
        if (told == VBR_NO) {
            if (use_from_file(w, page, writes)) return;
            continue;
        }
        struct frame *f = frame_of(value);
        pthread_mutex_lock(&f->latch);
        int is_there = f->name == (value & ~DIRTY) && (!writes || make_dirty(w, f));
        if (is_there) use(w, f, writes);
        pthread_mutex_unlock(&f->latch);
        if (is_there) {
            w->hits++;
            return;
        }
    }
}

static void checkpoint(struct worker *w) {
    uint64_t before[PAGES];
    vbr_cursor cursor = VBR_CURSOR_BEGIN;
    vbr_entry it = {0, 0};
    vbr_answer told;
    for (int page = 0; page < PAGES; page++) before[page] = atomic_load(&written[page]);
    while ((told = vbr_map_next(w->map, &cursor, &it)) != VBR_NO) {
        CHECK(told == VBR_YES || told == VBR_OUT_OF_STEPS);
        if (told != VBR_YES || !(it.value & DIRTY)) continue;
        struct frame *f = frame_of(it.value);
        pthread_mutex_lock(&f->latch);
        if (f->name == (it.value & ~DIRTY) && f->is_dirty) save(w, f); /* or another thread has saved the page since */
        pthread_mutex_unlock(&f->latch);
    }
    for (int page = 0; page < PAGES; page++) CHECK(atomic_load(&saved[page]) >= before[page]);
    w->checkpoints++;
}

/* Half of the requests are for an eighth of the pages, and a quarter are writes. */
static void *work(void *of) {
    struct worker *w = of;
    for (long i = 0; i < requests; i++) {
        uint64_t x = next_random(w);
        request(w, x % 2 ? x / 8 % PAGES : x / 8 % (PAGES / 8), x / 2 % 4 == 0);
    }
    atomic_fetch_sub(&working, 1);
    return NULL;
}

static void *make_checkpoints(void *of) {
    do {
        checkpoint(of);
        sched_yield();
    } while (atomic_load(&working) > 0);
    checkpoint(of);
    return NULL;
}

int main(int count, char **words) {
    vbr_map_handle handles[HANDLES] = {{0}};
    vbr_entry left[FRAMES] = {{0, 0}};
    vbr_report report = {0};
    struct worker *last = &workers[WORKERS];
    long hits = 0, misses = 0, saves = 0;
    if (count > 1 && !strcmp(words[count - 1], "careless")) is_careless = 1, count--;
    if (count > 1) requests = atol(words[1]);
    CHECK(vbr_map_open(handles, HANDLES, SLOTS, FRAMES, VBR_MAX_EPOCH) == VBR_OK);
    for (uint64_t page = 0; page < PAGES; page++) file[page].number = page;
    for (uint64_t i = 0; i < FRAMES; i++) {
        frames[i].name = i;
        CHECK(!pthread_mutex_init(&frames[i].latch, NULL));
    }
    for (int i = 0; i < HANDLES; i++) {
        workers[i].map = &handles[i], workers[i].number = i, workers[i].random = 88172645463325252u + (uint64_t)i;
        CHECK(!pthread_create(&workers[i].thread, NULL, i < WORKERS ? work : make_checkpoints, &workers[i]));
    }
    for (int i = 0; i < HANDLES; i++) CHECK(!pthread_join(workers[i].thread, NULL));
    for (uint64_t page = 0; page < PAGES; page++) {
        CHECK(file[page].number == page && file[page].writes == atomic_load(&written[page]));
        for (int i = 0; i < WORKERS; i++) CHECK(file[page].writes_of[i] == workers[i].writes[page]);
    }
    for (int i = 0; i < HANDLES; i++) hits += workers[i].hits, misses += workers[i].misses, saves += workers[i].saves;
    CHECK(hits + misses == WORKERS * requests && last->checkpoints > 1);
    CHECK(vbr_map_close_all(handles, HANDLES, left, FRAMES, &report) == VBR_YES && report.live > FRAMES / 2);
    for (uint32_t i = 0; i < report.live; i++) CHECK(!(left[i].value & DIRTY) && frame_of(left[i].value)->page.number == left[i].key);
    printf("buffer pool in C: passed, %ld hits and %ld misses, %ld pages saved, %ld checkpoints\n", hits, misses, saves, last->checkpoints);
    return 0;
}
