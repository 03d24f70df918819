/* Order in real time, seen from outside: four threads make all calls but walks on few keys, and a search finds an order that
   explains each answer, or says that there is none.

       realtime sets|maps [CALLS [SEED]]
       realtime histories [HISTORIES [SEED]]

   The first makes at least that many calls. A thread draws a stamp from one counter right before a call, and another right after
   it. The call has to take effect at a point between the two: so of two calls the one that ended before the other began stands
   first. In the order of these points each answer has to be that of a plain map. As a call is on one key, it is enough that each
   key has such an order. A refused call has to leave all as it was, and is left out of the search.

   The search goes once over the stamps. For each key it keeps every way in which its calls can have gone so far: which of those
   that are open, so begun and not ended, have taken effect, and what the key then has. Before a call ends, any open call may
   take effect in any way that its answer allows, and after it another one; then the ways are dropped in which the call that
   ends has not. If none is left, no order explains the answers, and the calls round that one are shown. Nothing is left out:
   what a call puts in and takes out is known by its answer, so the same calls leave the same in each order that explains them,
   and a way is known by the open calls that have taken effect. Of four threads there are at most sixteen.

   Each round has a set or a map of its own, of up to eight keys in few buckets, opened with some of them or with none. At its
   end the report has to say of each key what the search says. In some rounds budgets are too small, slots are short, the epochs
   run out, threads are stopped in the middle of calls, or values come back; in the others each is stored once.

   The second makes no call: it sees that of so many short histories, drawn at random with true and false answers, the search
   explains just those for which a trial of all orders finds one. */
#include "stopping.h"
#include "client.h"

#include <string.h>

enum {
    THREADS = 4,
    CALLS = 8192,    /* of each thread in a round */
    MAX_KEYS = 8,    /* the keys are the numbers below those of a round */
    ABSENT = 0,      /* in place of a value: the key isn't there */
    SHORT = 8,       /* the most calls of a short history */
    SHOWN = 12,      /* how many calls are shown that ended before the one that can't be explained */
    AMPLE = VBR_AMPLE_STEPS, /* no call of these runs out of it */
    WAYS = 1 << THREADS
};

/* The first three are those of sets. */
enum op { HAS, INSERT, REMOVE, GET, REPLACE, PUT, GET_OR_INSERT, COMPARE_EXCHANGE, REMOVE_IF, OPS };

static const char *const names[OPS] = {"has", "insert",        "remove",           "get",      "replace",
                                       "put", "get_or_insert", "compare_exchange", "remove_if"};

/* A call of a thread, on a key. A set's keys all have the value 1. */
struct call {
    uint32_t begin, end;      /* its stamps */
    uint64_t value, expected; /* what it is given */
    uint64_t found;           /* what it returned that the key had, or ABSENT where it returned nothing */
    uint32_t budget;
    vbr_answer answer;
    unsigned char op, key, thread;
};

struct round {
    uint32_t keys, buckets, slots;
    uint64_t last_epoch;
    uint32_t look_ups;      /* of 256 calls, how many are look-ups */
    uint32_t small_budgets; /* and how many have a small budget */
    uint32_t values;        /* values are the numbers up to this, or where it is 0 each is stored once */
    uint32_t opening;       /* a bit for each key that is there at the start */
    int is_stopped;         /* whether threads are stopped in between */
};

union handle {
    vbr_handle set;
    vbr_map_handle map;
};

struct worker {
    const struct round *round;
    union handle handle;
    uint64_t random;
    uint64_t left[MAX_KEYS]; /* what its last call on a key that returned a value left there */
    int number;
};

/* How the calls on a key can have gone so far: a way's number has a bit for each open call that has taken effect. */
struct history {
    uint32_t ways;                    /* a bit for each way that there is */
    uint64_t has[WAYS];               /* what the key then has */
    const struct call *open[THREADS]; /* of each thread */
};

static int of_maps;
static struct call calls[THREADS * CALLS];        /* those of one thread are next to each other */
static uint32_t events[2 * THREADS * CALLS];      /* of each stamp: the number of its call, doubled, and 1 where the call ends */
static _Alignas(128) atomic_uint stamps;          /* how many were drawn */
static _Alignas(128) atomic_int missing;          /* threads that haven't come to the start */
static long rounds, refused, seed = 1;

static uint32_t below(uint64_t *random, uint32_t limit) { return (uint32_t)((next(random) >> 32) * limit >> 32); }

/* The value of a number. Its halves are alike, so that one that has lost a half isn't taken for another. */
static uint64_t value_of(uint64_t number) { return number << 32 | number; }

/* What a key has that is there at the start. */
static uint64_t opening_value(uint32_t key) { return value_of(of_maps ? 1 + key : 1); }

/* What a plain map does that has this value for the key, or ABSENT. */
struct outcome {
    vbr_answer answer;
    uint64_t found, after;
};

static struct outcome plain(const struct call *c, uint64_t has) {
    vbr_answer there = has == ABSENT ? VBR_NO : VBR_YES;
    vbr_answer matches = has == ABSENT ? VBR_NO : has == c->expected ? VBR_YES : VBR_OTHER;
    switch ((enum op)c->op) {
    case INSERT: return (struct outcome){there ? VBR_NO : VBR_YES, ABSENT, there ? has : c->value};
    case REMOVE: return (struct outcome){there, has, ABSENT};
    case GET: return (struct outcome){there, has, has};
    case REPLACE: return (struct outcome){there, has, there ? c->value : ABSENT};
    case PUT: return (struct outcome){there, has, c->value};
    case GET_OR_INSERT: return (struct outcome){there, has, there ? has : c->value};
    case COMPARE_EXCHANGE: return (struct outcome){matches, has, matches == VBR_YES ? c->value : has};
    case REMOVE_IF: return (struct outcome){matches, has, matches == VBR_YES ? ABSENT : has};
    default: return (struct outcome){there, ABSENT, has};
    }
}

/* Whether an open call may take effect in this way that has not; then that leads to another way. */
static void take_effect(struct history *h, uint32_t way, int thread) {
    const struct call *c = h->open[thread];
    if (!c || way >> thread & 1) return;
    struct outcome told = plain(c, h->has[way]);
    if (c->answer != told.answer || c->found != told.found) return;
    h->ways |= 1u << (way | 1u << thread);
    h->has[way | 1u << thread] = told.after;
}

/* The call of this thread ends: whether there is a way in which it has taken effect. Ways ascend as calls take effect. */
static int end_call(struct history *h, int thread) {
    uint32_t left = 0, of_thread = 1u << thread;
    for (uint32_t way = 0; way < WAYS; way++) {
        for (int other = 0; other < THREADS && h->ways >> way & 1; other++) take_effect(h, way, other);
        if (!(h->ways >> way & 1) || !(way & of_thread)) continue;
        left |= 1u << (way & ~of_thread);
        h->has[way & ~of_thread] = h->has[way];
    }
    h->ways = left;
    h->open[thread] = NULL;
    return left != 0;
}

static const struct call *call_at(uint32_t stamp) { return &calls[events[stamp] / 2]; }

static int ends_at(uint32_t stamp) { return events[stamp] & 1; }

/* Each key as the round opened with it. */
static void begin_histories(const struct round *r, struct history *histories) {
    memset(histories, 0, MAX_KEYS * sizeof *histories);
    for (uint32_t key = 0; key < r->keys; key++) {
        histories[key].ways = 1;
        histories[key].has[0] = r->opening >> key & 1 ? opening_value(key) : ABSENT;
    }
}

/* Goes over the stamps before this one. Gives the first call that can't be explained, if there is one. */
static const struct call *search(const struct round *r, struct history *histories, uint32_t before) {
    begin_histories(r, histories);
    for (uint32_t stamp = 0; stamp < before; stamp++) {
        const struct call *c = call_at(stamp);
        struct history *h = &histories[c->key];
        if (c->answer < 0) continue;
        if (!ends_at(stamp)) h->open[c->thread] = c;
        else if (!end_call(h, c->thread)) return c;
    }
    return NULL;
}

/* A value as its number, where it is the value of one. */
static const char *text_of(uint64_t value, char *room) {
    if (value == ABSENT) return "absent";
    if (!of_maps) return "there";
    if (value == value_of(value >> 32)) sprintf(room, "%lu", (unsigned long)(value >> 32));
    else sprintf(room, "%#llx", (unsigned long long)value);
    return room;
}

/* A call with its stamps, its thread and its answer. */
static void tell_call(const struct call *c, const char *mark) {
    static const char *const answers[] = {"no", "yes", "other"};
    char room[40], given[96] = "", found[64] = "";
    if (of_maps && c->op != HAS && c->op != GET && c->op != REMOVE) {
        int length = c->op < COMPARE_EXCHANGE ? 0 : sprintf(given, ", expects %s", text_of(c->expected, room));
        if (c->op != REMOVE_IF) sprintf(given + length, ", gives %s", text_of(c->value, room));
    }
    if (of_maps && c->found != ABSENT) sprintf(found, ", found %s", text_of(c->found, room));
    fprintf(stderr, "  %6u to %6u  thread %d  %s(key %d%s): %s%s%s\n", c->begin, c->end, c->thread, names[c->op], c->key, given,
            c->answer > VBR_OTHER ? "an unknown answer" : answers[c->answer], found, mark);
}

/* Where the story of a call begins: so that some calls on its key end between. */
static uint32_t story_of(const struct call *wrong) {
    uint32_t stamp = wrong->end;
    for (int ended = 0; stamp > 0 && ended < SHOWN; stamp--) {
        const struct call *c = call_at(stamp - 1);
        ended += c->key == wrong->key && c->answer >= 0 && ends_at(stamp - 1);
    }
    return stamp;
}

/* Whether an earlier way has left the same. */
static int is_told(const struct history *h, uint32_t way) {
    for (uint32_t earlier = 0; earlier < way; earlier++)
        if (h->ways >> earlier & 1 && h->has[earlier] == h->has[way]) return 1;
    return 0;
}

/* Tells what a key can have had just before a stamp. */
static void tell_start(const struct round *r, int key, uint32_t stamp) {
    static struct history histories[MAX_KEYS];
    const struct history *h = &histories[key];
    const char *between = "is";
    char room[40];
    search(r, histories, stamp);
    fprintf(stderr, "  before %u the key", stamp);
    for (uint32_t way = 0; way < WAYS; way++) {
        if (!(h->ways >> way & 1) || is_told(h, way)) continue;
        fprintf(stderr, " %s %s", between, text_of(h->has[way], room));
        between = "or";
    }
    fputs("; the calls since, by their first stamps:\n", stderr);
}

/* Tells of the calls on the key round the one that can't be explained. */
static void tell(const struct round *r, const struct call *wrong) {
    uint32_t from = story_of(wrong);
    fprintf(stderr, "realtime: FAILED: no order of the calls on key %d explains the answers (%s, seed %ld, round %ld)\n", wrong->key,
            of_maps ? "maps" : "sets", seed, rounds);
    tell_start(r, wrong->key, from);
    for (uint32_t stamp = 0; stamp < wrong->end; stamp++) {
        const struct call *c = call_at(stamp);
        if (c->key != wrong->key || c->answer < 0 || ends_at(stamp) || c->end < from) continue;
        tell_call(c, c == wrong ? "  <- no order is left as this one ends" : c->end > wrong->end ? "  (still open)" : "");
    }
}

static int failed(const char *what, uint32_t key) {
    fprintf(stderr, "realtime: FAILED: %s (%s, seed %ld, round %ld, key %u)\n", what, of_maps ? "maps" : "sets", seed, rounds, key);
    return 1;
}

static vbr_answer call_set(vbr_handle *handle, struct call *c) {
    if (c->op == HAS) return vbr_has_within(handle, c->key, c->budget);
    if (c->op == INSERT) return vbr_insert_within(handle, c->key, c->budget);
    vbr_answer answer = vbr_remove_within(handle, c->key, c->budget);
    if (answer == VBR_YES) c->found = value_of(1);
    return answer;
}

static vbr_answer call_map(vbr_map_handle *handle, struct call *c) {
    switch ((enum op)c->op) {
    case INSERT: return vbr_map_insert_within(handle, c->key, c->value, c->budget);
    case REMOVE: return vbr_map_remove_within(handle, c->key, &c->found, c->budget);
    case GET: return vbr_map_get_within(handle, c->key, &c->found, c->budget);
    case REPLACE: return vbr_map_replace_within(handle, c->key, c->value, &c->found, c->budget);
    case PUT: return vbr_map_put_within(handle, c->key, c->value, &c->found, c->budget);
    case GET_OR_INSERT: return vbr_map_get_or_insert_within(handle, c->key, c->value, &c->found, c->budget);
    case COMPARE_EXCHANGE: return vbr_map_compare_exchange_within(handle, c->key, c->expected, c->value, &c->found, c->budget);
    case REMOVE_IF: return vbr_map_remove_if_within(handle, c->key, c->expected, &c->found, c->budget);
    default: return vbr_map_has_within(handle, c->key, c->budget);
    }
}

/* A call, with its stamps. */
static void make(struct worker *w, struct call *c) {
    c->begin = atomic_fetch_add(&stamps, 1);
    c->answer = of_maps ? call_map(&w->handle.map, c) : call_set(&w->handle.set, c);
    c->end = atomic_fetch_add(&stamps, 1);
}

/* The value that a thread stores with its call of this number. */
static uint64_t stored(struct worker *w, int number) {
    if (!of_maps) return value_of(1);
    if (w->round->values) return value_of(1 + below(&w->random, w->round->values));
    return value_of(1 + MAX_KEYS + (uint64_t)number * THREADS + (uint64_t)w->number);
}

/* A call, drawn at random. What it expects is mostly what the thread knows of the key. */
static struct call drawn(struct worker *w, int number) {
    static const enum op updates[] = {INSERT, REMOVE, REPLACE, PUT, GET_OR_INSERT, COMPARE_EXCHANGE, REMOVE_IF};
    const struct round *r = w->round;
    struct call c = {.thread = (unsigned char)w->number, .found = ABSENT};
    uint64_t x = next(&w->random);
    c.key = (unsigned char)below(&w->random, r->keys);
    if ((x & 255) < r->look_ups) c.op = of_maps && x >> 8 & 1 ? GET : HAS;
    else if (!of_maps) c.op = x >> 8 & 1 ? INSERT : REMOVE;
    else c.op = (unsigned char)updates[below(&w->random, sizeof updates / sizeof updates[0])];
    c.value = stored(w, number);
    c.expected = x >> 16 & 7 ? w->left[c.key] : opening_value(c.key);
    c.budget = (x >> 24 & 255) < r->small_budgets ? below(&w->random, 100) : AMPLE;
    return c;
}

static void *work(void *of) {
    struct worker *w = of;
    atomic_fetch_sub(&missing, 1);
    while (atomic_load(&missing) > 0) sched_yield();
    for (int i = 0; i < CALLS; i++) {
        struct call *c = &calls[w->number * CALLS + i];
        *c = drawn(w, i);
        make(w, c);
        uint64_t left = plain(c, c->found).after;
        if (left != ABSENT) w->left[c->key] = left;
    }
    atomic_fetch_sub(&working, 1);
    return NULL;
}

static struct round plan(uint64_t *random) {
    uint64_t x = next(random);
    struct round r = {0};
    r.keys = 1 + below(random, x & 1 ? 2 : MAX_KEYS);
    r.buckets = 1 + below(random, r.keys);
    r.slots = (x >> 1 & 7) == 0 ? r.keys + 2 : r.keys + 64 * THREADS;
    r.last_epoch = (x >> 4 & 7) == 0 ? 1 + below(random, 5000) : VBR_MAX_EPOCH;
    r.look_ups = x >> 7 & 1 ? 85 : x >> 8 & 1 ? 200 : 0;
    r.small_budgets = (x >> 9 & 7) == 0 ? 64 : 0;
    r.values = (x >> 12 & 3) == 0 ? 1 + below(random, 4) : 0;
    r.opening = x >> 14 & 1 ? below(random, 1u << r.keys) : 0;
    r.is_stopped = (x >> 15 & 3) == 0;
    return r;
}

static vbr_answer open_handles(const struct round *r, union handle *handles) {
    vbr_entry entries[MAX_KEYS] = {{0}};
    uint64_t keys[MAX_KEYS] = {0};
    vbr_handle sets[THREADS] = {{0}};
    vbr_map_handle maps[THREADS] = {{0}};
    size_t count = 0;
    for (uint32_t key = 0; key < r->keys; key++) {
        if (!(r->opening >> key & 1)) continue;
        keys[count] = key;
        entries[count++] = (vbr_entry){key, opening_value(key)};
    }
    vbr_answer answer = of_maps ? vbr_map_open_with(maps, THREADS, r->slots, r->buckets, r->last_epoch, entries, count)
                                : vbr_open_with(sets, THREADS, r->slots, r->buckets, r->last_epoch, keys, count);
    for (int i = 0; i < THREADS; i++) { /* moved */
        if (of_maps) handles[i].map = maps[i];
        else handles[i].set = sets[i];
    }
    return answer;
}

/* Closes all handles: what each key has then, and whether there was a report. */
static int close_handles(union handle *handles, uint64_t *has) {
    vbr_report report = {0};
    vbr_entry entries[MAX_KEYS] = {{0}};
    uint64_t keys[MAX_KEYS] = {0};
    vbr_answer answer = VBR_NO;
    for (int i = 0; i < THREADS; i++)
        answer = of_maps ? vbr_map_close(&handles[i].map, entries, MAX_KEYS, &report)
                         : vbr_close(&handles[i].set, keys, MAX_KEYS, &report);
    for (uint32_t i = 0; i < MAX_KEYS; i++) has[i] = ABSENT;
    if (answer != VBR_YES || report.live > MAX_KEYS) return 0;
    for (uint32_t i = 0; i < report.live; i++) {
        if (!of_maps) entries[i] = (vbr_entry){keys[i], value_of(1)};
        if (entries[i].key >= MAX_KEYS) return 0;
        has[entries[i].key] = entries[i].value;
    }
    return 1;
}

/* How many microseconds a thread stands still. */
static int pause_of(uint32_t random) { return 20 + (int)(random & 255); }

/* Lets the threads make their calls. */
static int run(const struct round *r, union handle *handles, uint64_t *random) {
    static struct worker workers[THREADS];
    pthread_t threads[THREADS];
    atomic_store(&stamps, 0);
    atomic_store(&missing, THREADS);
    atomic_store(&working, THREADS);
    for (int i = 0; i < THREADS; i++) {
        workers[i] = (struct worker){.round = r, .handle = handles[i], .random = next(random) | 1, .number = i};
        if (pthread_create(&threads[i], NULL, work, &workers[i])) return failed("no thread", 0);
    }
    if (r->is_stopped) stop_threads(random, threads, THREADS, 50000, 200000, pause_of);
    for (int i = 0; i < THREADS; i++) {
        pthread_join(threads[i], NULL);
        handles[i] = workers[i].handle;
    }
    return 0;
}

/* Whether a refusal has a reason: a small budget, few slots, or few epochs. The last two concern what takes a slot. */
static int has_reason(const struct round *r, const struct call *c) {
    if (c->answer == VBR_OUT_OF_STEPS) return c->budget < AMPLE;
    if (c->op == HAS || c->op == GET || c->op == REMOVE || c->op == REMOVE_IF) return 0;
    if (c->answer == VBR_NO_SLOT) return r->slots < r->keys + 64 * THREADS;
    return c->answer == VBR_EPOCH_SPENT && r->last_epoch < VBR_MAX_EPOCH;
}

/* Puts the calls in the order of their stamps. Gives one that was refused for no reason, if there is one. */
static const struct call *order_calls(const struct round *r) {
    const struct call *wrong = NULL;
    for (uint32_t i = 0; i < THREADS * CALLS; i++) {
        const struct call *c = &calls[i];
        events[c->begin] = 2 * i;
        events[c->end] = 2 * i + 1;
        refused += c->answer < 0;
        if (c->answer < 0 && !has_reason(r, c)) wrong = c;
    }
    return wrong;
}

/* One set or map, from its opening to its closing. */
static int play(uint64_t *random) {
    static struct history histories[MAX_KEYS];
    union handle handles[THREADS];
    uint64_t has[MAX_KEYS];
    struct round r = plan(random);
    rounds++;
    if (open_handles(&r, handles) != VBR_OK) return failed("it could not be opened", 0);
    if (run(&r, handles, random)) return 1;
    const struct call *wrong = order_calls(&r);
    if (wrong) return failed("a call is refused for no reason", wrong->key);
    wrong = search(&r, histories, 2 * THREADS * CALLS);
    if (wrong) return tell(&r, wrong), 1;
    if (!close_handles(handles, has)) return failed("the last close", 0);
    for (uint32_t key = 0; key < r.keys; key++)
        if (has[key] != histories[key].has[0]) return failed("the report differs from the answers", key);
    return 0;
}

/* Gives a call the answer of a plain map that has this, and what that then has. */
static uint64_t answered(struct call *c, uint64_t has) {
    struct outcome told = plain(c, has);
    c->answer = told.answer;
    c->found = told.found;
    return told.after;
}

static void note_stamp(uint32_t *stamp, const struct call *c, uint32_t is_end) {
    events[(*stamp)++] = 2 * (uint32_t)(c - calls) + is_end;
}

/* Draws a short history on one key: each call is answered as it begins or as it ends, and at last one perhaps otherwise. Gives
   how many calls it has. */
static uint32_t draw_history(const struct round *r, uint64_t *random) {
    struct worker workers[THREADS];
    struct call *open[THREADS] = {NULL};
    uint64_t has = r->opening ? opening_value(0) : ABSENT;
    uint32_t count = 0, stamp = 0;
    for (int i = 0; i < THREADS; i++) workers[i] = (struct worker){.round = r, .random = next(random) | 1, .number = i};
    for (int turn = 0; turn < 2 * SHORT + THREADS; turn++) {
        int by = turn < 2 * SHORT ? (int)below(random, THREADS) : turn - 2 * SHORT, is_early = next(random) & 1;
        if (open[by]) {
            if (open[by]->answer == VBR_NO_HANDLE) has = answered(open[by], has);
            open[by]->end = stamp;
            note_stamp(&stamp, open[by], 1);
            open[by] = NULL;
        } else if (turn < 2 * SHORT && count < SHORT) {
            open[by] = &calls[count++];
            *open[by] = drawn(&workers[by], 0);
            open[by]->expected = value_of(1 + below(random, 3));
            open[by]->begin = stamp;
            open[by]->answer = VBR_NO_HANDLE;
            note_stamp(&stamp, open[by], 0);
            if (is_early) has = answered(open[by], has);
        }
    }
    if (next(random) & 1) answered(&calls[below(random, count)], below(random, 4) ? value_of(below(random, 4)) : has);
    return count;
}

/* Whether the calls of a history that are left have an order that explains them: tries each one that may come first. */
static int is_explained(uint32_t count, uint32_t done, uint64_t has) {
    uint32_t first_end = UINT32_MAX;
    for (uint32_t i = 0; i < count; i++)
        if (!(done >> i & 1) && calls[i].end < first_end) first_end = calls[i].end;
    for (uint32_t i = 0; i < count; i++) {
        struct outcome told = plain(&calls[i], has);
        if (done >> i & 1 || calls[i].begin > first_end || told.answer != calls[i].answer || told.found != calls[i].found) continue;
        if (is_explained(count, done | 1u << i, told.after)) return 1;
    }
    return done == (1u << count) - 1;
}

/* Compares the search with a trial of all orders. */
static int compare(long histories, uint64_t *random) {
    static struct history found[MAX_KEYS];
    long explained = 0;
    of_maps = 1;
    for (rounds = 1; rounds <= histories; rounds++) {
        struct round r = {.keys = 1, .values = 3, .look_ups = 85, .opening = next(random) & 1};
        uint32_t count = draw_history(&r, random);
        int is_so = is_explained(count, 0, r.opening ? opening_value(0) : ABSENT);
        if (is_so != !search(&r, found, 2 * count)) return failed("the search differs from a trial of all orders", 0);
        explained += is_so;
    }
    printf("order in real time, a trial of all orders: passed, %ld of %ld short histories are explained\n", explained, histories);
    return 0;
}

/* Lets threads make calls. */
static int play_all(long wanted, uint64_t *random) {
    long made = 0;
    if (!can_stop()) return 1;
    for (; made < wanted; made += THREADS * CALLS)
        if (play(random)) return 1;
    printf("order in real time, %s in C: passed, %ld calls in %ld rounds, %ld of them refused, %ld stops\n",
           of_maps ? "maps" : "sets", made, rounds, refused, stops);
    return 0;
}

int main(int count, char **words) {
    const char *what = count > 1 ? words[1] : "";
    long wanted = count > 2 ? atol(words[2]) : 1000000;
    if (count > 3) seed = atol(words[3]);
    uint64_t random = ((uint64_t)seed + 1) * 0x9e3779b97f4a7c15u | 1;
    of_maps = !strcmp(what, "maps");
    if (wanted > 0 && seed >= 0 && !strcmp(what, "histories")) return compare(wanted, &random);
    if (wanted > 0 && seed >= 0 && (of_maps || !strcmp(what, "sets"))) return play_all(wanted, &random);
    return fputs("usage: realtime sets|maps [CALLS [SEED]]\n       realtime histories [HISTORIES [SEED]]\n", stderr), 2;
}
