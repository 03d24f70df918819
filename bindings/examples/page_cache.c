/* The index of a page cache in fixed memory, which several threads share: a map from the number of a page to the frame that has
   it. Something to begin from.

       page_cache [REQUESTS]

   Who asks for a page looks it up, and pins its frame while it reads or writes. Where the page is absent, a thread takes a frame by
   CLOCK: the hand goes round, past frames that are pinned, and those that were used since it came by last; the page of the first
   other one is written back, and leaves the map. Then the thread inserts the page that is wanted with this frame, and reads it from
   disk. Where two threads miss the same page, one call of vbr_map_get_or_insert inserts it, and the other gets the frame that it
   has; so a page has one frame, and is read once. A page leaves the map with the frame that it has, by vbr_map_remove_if, or stays.

   Now and then one thread makes a checkpoint, while the others go on: it walks over the map, and writes back each page that was
   written to. A page that is in the map all the while is given by the walk, and one that leaves it is written back before. So what was
   written before the checkpoint began is on disk as it ends: of each page it is counted how often it was written to, and how many of
   these writes are on disk.

   The program compares its hits with those of a plain cache with the same CLOCK in one thread, on the same requests: with
   one thread they are equal, whether budgets are small or the epoch is spent again and again. With four, in an order that the
   threads make, they differ by less than one in a hundred requests; and so they do with one where the map has fewer slots than
   there are frames, from those of a cache with as many frames as slots. */
#include "vbr.h"

#include <pthread.h>
#include <sched.h>
#include <stdatomic.h>
#include <stdio.h>
#include <stdlib.h>
#include <string.h>

#define CHECK(x) do { if (!(x)) { fprintf(stderr, "page_cache.c:%d: %s\n", __LINE__, #x); exit(1); } } while (0)

enum { FRAMES = 4096, PAGES = 16384, WORDS = 64, MOST_THREADS = 4, CHECKPOINT = 4000 /* requests between two */ };
enum { SLOTS = FRAMES + 64 * MOST_THREADS, FEW_SLOTS = FRAMES / 2, AMPLE = VBR_AMPLE_STEPS };

#define NO_PAGE UINT64_MAX
#define TAKEN UINT32_MAX

/* A frame is pinned by those who read it, or taken by the thread that puts another page into it. */
struct frame {
    _Atomic uint32_t pins;   /* how many, or TAKEN */
    atomic_bool is_used;     /* since the hand came by */
    _Atomic uint64_t writes; /* how many were made to its page: more than are on disk, where it is dirty */
    uint64_t page, words[WORDS];
    struct frame *below; /* of a spare frame: the one that was spare before */
};

struct worker {
    vbr_map_handle *map;
    struct frame *spare; /* frames that it took and has no page for: the last of them, or none */
    long next;           /* its next request; then each that is `threads` further */
    long hits, tired, full, checkpoints, written_back;
};

static struct frame frames[FRAMES];
static _Atomic uint64_t disk[PAGES], written[PAGES]; /* how many writes to a page are on disk, and how many were made */
static atomic_ulong hand;
static vbr_map_handle handles[MOST_THREADS];
static struct worker workers[MOST_THREADS];
static atomic_bool renewal_is_due;
static uint64_t last_epoch;
static uint32_t slots, budget;
static long requests = 400000, threads, tired, full, checkpoints, written_back, renewals;

/* The page of a request: small numbers come more often. */
static uint64_t page_of(long request) {
    uint64_t x = ((uint64_t)request + 1) * 0x9E3779B97F4A7C15u, y = (x ^ x >> 29) * 0xBF58476D1CE4E5B9u, z = (y ^ y >> 32) * 0x94D049BB133111EBu;
    return ((((x >> 32) * (y >> 32) >> 32) * (z >> 32) >> 32) * PAGES) >> 32;
}

static int is_write(long request) { return request % 8 == 7; }

static void read_from_disk(struct frame *f) {
    for (uint64_t i = 0; i < WORDS; i++) f->words[i] = f->page * WORDS + i;
    atomic_store(&f->writes, atomic_load(&disk[f->page]));
}

/* Writes the page of a frame to disk, if it is dirty. The frame is taken, or pinned by the one thread that makes checkpoints. */
static void write_back(struct worker *w, struct frame *f) {
    uint64_t writes = atomic_load(&f->writes);
    if (atomic_load(&disk[f->page]) == writes) return;
    atomic_store(&disk[f->page], writes);
    w->written_back++;
}

/* A call that is refused for want of steps wasn't made. It is made again, with twice the budget. */
static uint32_t twice(struct worker *w, uint32_t steps) {
    w->tired++;
    return steps < UINT32_MAX / 2 ? 2 * steps : UINT32_MAX;
}

static uint64_t number_of(const struct frame *f) { return (uint64_t)(f - frames); }

static void unpin(struct frame *f) { atomic_fetch_sub(&f->pins, 1); }

/* Pins a frame if it has this page. It hasn't where another thread took it since the page was looked up. */
static int pin(struct frame *f, uint64_t page) {
    uint32_t pins = atomic_load(&f->pins);
    do {
        if (pins == TAKEN) return 0;
    } while (!atomic_compare_exchange_weak(&f->pins, &pins, pins + 1));
    if (f->page == page) return 1;
    unpin(f);
    return 0;
}

/* The frame that has a page, pinned; none where the page is absent. */
static struct frame *find(struct worker *w, uint64_t page) {
    uint64_t number = 0;
    for (uint32_t steps = budget;;) {
        switch (vbr_map_get_within(w->map, page, &number, steps)) {
        case VBR_YES:
            if (pin(&frames[number], page)) return &frames[number];
            sched_yield(); /* the frame is taken: another page comes into it, or this one is just there */
            break;
        case VBR_NO: return NULL;
        default: steps = twice(w, steps);
        }
    }
}

/* A frame whose page leaves the map: by CLOCK, one that nobody pins and nobody used since the hand came by. */
static struct frame *evict(struct worker *w) {
    struct frame *f;
    uint32_t none;
    do {
        f = &frames[atomic_fetch_add(&hand, 1) % FRAMES];
        none = 0;
    } while (atomic_exchange(&f->is_used, 0) || !atomic_compare_exchange_strong(&f->pins, &none, TAKEN));
    if (f->page != NO_PAGE) {
        vbr_answer removed;
        uint32_t steps = AMPLE; /* with a small budget the node could stay in its list, and its slot with it */
        write_back(w, f); /* before it leaves: who misses it then reads it from disk */
        while ((removed = vbr_map_remove_if_within(w->map, f->page, number_of(f), NULL, steps)) == VBR_OUT_OF_STEPS) steps = twice(w, steps);
        CHECK(removed == VBR_YES); /* who took the frame is alone in removing its page */
    }
    f->page = NO_PAGE;
    return f;
}

/* A frame that has no page is kept for the worker's next one. */
static void keep(struct worker *w, struct frame *f) {
    f->page = NO_PAGE;
    f->below = w->spare;
    w->spare = f;
}

static struct frame *empty_frame(struct worker *w) {
    struct frame *f = w->spare;
    if (!f) return evict(w);
    w->spare = f->below;
    return f;
}

/* Inserts a page with a frame, and reads it: VBR_NO. Or VBR_YES if another thread did so meanwhile, or VBR_EPOCH_SPENT. The frame
   of the page is then `*pinned`, unless the epoch is spent, or another page is in it again. */
static vbr_answer load(struct worker *w, uint64_t page, struct frame **pinned) {
    struct frame *f = empty_frame(w);
    uint64_t number = 0;
    f->page = page;
    for (uint32_t steps = budget;;) {
        vbr_answer there = vbr_map_get_or_insert_within(w->map, page, number_of(f), &number, steps);
        if (there == VBR_OUT_OF_STEPS) {
            steps = twice(w, steps);
        } else if (there == VBR_NO_SLOT) {
            keep(w, evict(w)); /* a page that leaves the map leaves its slot, mostly to this handle */
            w->full++;
        } else if (there == VBR_NO) {
            read_from_disk(f);
            atomic_store(&f->pins, 1); /* until now others who found the page have waited */
            *pinned = f;
            return there;
        } else {
            keep(w, f);
            if (there == VBR_YES && pin(&frames[number], page)) *pinned = &frames[number];
            return there;
        }
    }
}

/* Serves a request. Where the epoch is spent it can't be served before the map is renewed. */
static int serve(struct worker *w, long request) {
    uint64_t page = page_of(request);
    struct frame *f = find(w, page);
    w->hits += f != NULL;
    while (!f) {
        if (load(w, page, &f) == VBR_EPOCH_SPENT) return 0;
        if (!f) f = find(w, page); /* it was there a moment ago */
    }
    for (uint64_t i = 0; i < WORDS; i++) CHECK(f->words[i] == page * WORDS + i);
    if (is_write(request)) {
        atomic_fetch_add(&f->writes, 1);
        atomic_fetch_add(&written[page], 1);
    }
    atomic_store(&f->is_used, 1);
    unpin(f);
    return 1;
}

/* Writes back all pages that were written to before it began. One thread alone makes checkpoints. */
static void checkpoint(struct worker *w) {
    static uint64_t before[PAGES];
    vbr_cursor cursor = VBR_CURSOR_BEGIN;
    uint32_t steps = budget;
    vbr_entry it = {0, 0};
    vbr_answer given;
    for (int i = 0; i < PAGES; i++) before[i] = atomic_load(&written[i]);
    while ((given = vbr_map_next_within(w->map, &cursor, &it, steps)) != VBR_NO) {
        if (given == VBR_OUT_OF_STEPS) {
            steps = twice(w, steps); /* the cursor keeps how far the walk has come */
            continue;
        }
        if (given == VBR_RESHAPED) {
            cursor = (vbr_cursor)VBR_CURSOR_BEGIN; /* the map was renewed since the walk began */
            continue;
        }
        struct frame *f = pin(&frames[it.value], it.key) ? &frames[it.value] : find(w, it.key);
        if (!f) continue; /* it has left the map since, and was written back before */
        write_back(w, f);
        unpin(f);
    }
    for (int i = 0; i < PAGES; i++) CHECK(atomic_load(&disk[i]) >= before[i]);
    w->checkpoints++;
}

static void *work(void *of) {
    struct worker *w = of;
    while (w->next < requests && !atomic_load(&renewal_is_due)) {
        if (w == workers && w->next % CHECKPOINT == 0) checkpoint(w);
        if (serve(w, w->next)) w->next += threads;
        else atomic_store(&renewal_is_due, 1);
    }
    return NULL;
}

/* Here all threads stand still. The pages of the old map, each with its frame, are those that the new one opens with. */
static void renew(void) {
    static vbr_entry entries[FRAMES];
    vbr_report report = {0};
    CHECK(vbr_map_close_all(handles, (size_t)threads, entries, FRAMES, &report) == VBR_YES);
    CHECK(vbr_map_open_with(handles, (size_t)threads, slots, FRAMES, last_epoch, entries, report.live) == VBR_OK);
    renewals++;
}

/* Lets all threads work until each has served its requests, or the map is to be renewed. */
static void work_all(void) {
    pthread_t ids[MOST_THREADS];
    atomic_store(&renewal_is_due, 0);
    for (long i = 0; i < threads; i++) CHECK(!pthread_create(&ids[i], NULL, work, &workers[i]));
    for (long i = 0; i < threads; i++) CHECK(!pthread_join(ids[i], NULL));
}

/* Ends the cache: each page of the map has its frame, and each frame that isn't spare has its page there. Once these are written back
   all writes are on disk. */
static void close_cache(void) {
    static vbr_entry entries[FRAMES];
    vbr_report report = {0};
    uint32_t has_page = 0;
    CHECK(vbr_map_close_all(handles, (size_t)threads, entries, FRAMES, &report) == VBR_YES);
    for (uint32_t i = 0; i < report.live; i++) CHECK(frames[entries[i].value].page == entries[i].key);
    for (int i = 0; i < FRAMES; i++) {
        if (frames[i].page == NO_PAGE) continue;
        has_page++;
        write_back(&workers[0], &frames[i]);
    }
    CHECK(report.live == has_page);
    for (int i = 0; i < PAGES; i++) CHECK(disk[i] == written[i]);
}

/* How many of the requests are hits, where so many threads serve them. */
static long hits(long of_threads, uint32_t of_slots, uint64_t of_last_epoch, uint32_t of_budget) {
    long sum = 0;
    threads = of_threads, slots = of_slots, last_epoch = of_last_epoch, budget = of_budget, tired = full = checkpoints = written_back = renewals = 0;
    memset(frames, 0, sizeof frames);
    memset(disk, 0, sizeof disk);
    memset(written, 0, sizeof written);
    for (int i = 0; i < FRAMES; i++) frames[i].page = NO_PAGE;
    atomic_store(&hand, 0);
    CHECK(vbr_map_open(handles, (size_t)threads, slots, FRAMES, last_epoch) == VBR_OK);
    for (long i = 0; i < threads; i++) workers[i] = (struct worker){.map = &handles[i], .next = i};
    for (work_all(); atomic_load(&renewal_is_due); work_all()) renew();
    for (long i = 0; i < threads; i++) {
        CHECK(workers[i].next >= requests);
        sum += workers[i].hits, tired += workers[i].tired, full += workers[i].full;
        checkpoints += workers[i].checkpoints, written_back += workers[i].written_back;
    }
    CHECK(checkpoints >= requests / CHECKPOINT && written_back > 0);
    close_cache();
    printf("page cache in C: %ld threads, %lu slots, last epoch %llu, budget %lu: %.2f of 100 requests are hits; %ld calls tired, %ld full, %ld renewals; "
           "%ld pages written back, %ld checkpoints\n",
           threads, (unsigned long)slots, (unsigned long long)last_epoch, (unsigned long)budget, 100.0 * (double)sum / (double)requests, tired, full,
           renewals, written_back, checkpoints);
    return sum;
}

/* The hits of a plain cache of so many frames with the same CLOCK, which has an array for its index. */
static long plain_hits(int count) {
    static uint64_t page_in[FRAMES];
    static int frame_of[PAGES], is_used[FRAMES]; /* frame_of: the number behind the frame's, or 0 */
    long sum = 0;
    int frame = 0;
    memset(frame_of, 0, sizeof frame_of);
    memset(is_used, 0, sizeof is_used);
    for (long i = 0; i < requests; i++) {
        uint64_t page = page_of(i);
        sum += frame_of[page] != 0;
        if (!frame_of[page]) {
            for (; is_used[frame]; frame = (frame + 1) % count) is_used[frame] = 0;
            if (frame_of[page_in[frame]] == frame + 1) frame_of[page_in[frame]] = 0;
            page_in[frame] = page;
            frame_of[page] = frame + 1;
            frame = (frame + 1) % count;
        }
        is_used[frame_of[page] - 1] = 1;
    }
    return sum;
}

int main(int count, char **words) {
    if (count > 1) requests = atol(words[1]);
    CHECK(requests >= 20000);
    long plain = plain_hits(FRAMES), most_apart = requests / 100;
    CHECK(hits(1, SLOTS, VBR_MAX_EPOCH, AMPLE) == plain);
    CHECK(hits(1, SLOTS, 50, 16) == plain && tired > 0 && renewals > 0);
    CHECK(labs(hits(1, FEW_SLOTS, VBR_MAX_EPOCH, AMPLE) - plain_hits(FEW_SLOTS)) <= most_apart && full > 0);
    CHECK(labs(hits(4, SLOTS, VBR_MAX_EPOCH, AMPLE) - plain) <= most_apart);
    CHECK(labs(hits(4, SLOTS, 50, 16) - plain) <= most_apart && tired > 0 && renewals > 0);
#ifdef VBR_STATS
    vbr_stats told = vbr_stats_of_all();
    printf("page cache in C: %llu calls yes, %llu no, %llu other; %llu out of steps, %llu without a slot, %llu with the epoch spent\n",
           (unsigned long long)told.yes, (unsigned long long)told.no, (unsigned long long)told.other, (unsigned long long)told.out_of_steps,
           (unsigned long long)told.no_slot, (unsigned long long)told.epoch_spent);
    printf("page cache in C: %llu traversals begun anew, %llu nodes unlinked for others, %llu advances of the epoch\n",
           (unsigned long long)told.restarts, (unsigned long long)told.helps, (unsigned long long)told.advances);
#endif
    printf("page cache in C: passed, %ld of %ld requests are hits of a plain cache\n", plain, requests);
    return 0;
}
