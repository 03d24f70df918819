/* Four threads with budgets that are often too small, on a few keys of one bucket: a call that runs out of steps was disturbed,
   and what others did at the same time says how much it can have lacked. Before they begin each handle makes calls that nothing
   disturbs, with the least budget that is promised to be enough. progress [rounds]

   With n nodes in the bucket as the call begins, and m disturbances until it ends, a budget that is refused is below
       (m + 1) * (5 * (n + m) + 11)         for a look-up,
       (m + 1) * (9 * (n + m) + 11)         for a remove,
       (m + 2) * (9 * (n + m) + 7) + 68     for an insert by a handle with a slot of its own.
   m is at most the advances of the epoch, two for each update of others that was answered yes meanwhile, and one for each node
   that is marked as the call begins.

   A thread can't see these, so each one counts its own updates for the others, before the first step of each and after its last
   one. A removed node has left its list before its remove is counted as ended: a remove that is answered yes may have had no
   steps left to unlink it, so its thread then makes one of a key behind all others, with an ample budget, which does. So, of
   each other thread,
   - the updates whose answer yes can have come during the call are those that had not ended as it began, and by its end had
     begun, less those that were not answered yes;
   - a node that is marked as the call begins is one of a remove among these, which then counts no second time;
   - an insert advances the epoch at most once, so the advances are at most the inserts that were under way or begun;
   - nor are they more than one, and one for each of these removes, since each advance but the first asks for a node that was
     retired since the one before: so inserts that are begun and refused cost nothing more;
   - the nodes of the bucket as the call begins are at most the keys, and the nodes of removes among these.
   Over maps (values.h) the threads change values too, which counts as a remove and an insert that are answered yes together.

   What a handle has seen as a call begins may be taken to be all that was done by then, as with a token that it takes in just
   before (docs/ARGUMENT.md).

   A handle surely has a slot of its own while it has stored fewer keys than slots that it had as the threads began: it then had
   PREPARED, of keys that it had inserted and removed alone, and only an insert that is answered yes takes one.

   Alone, of a key after all others, a look-up needs its bound, a remove more than half of its own, and an insert more than a third. So
   calls that take twice the steps are refused, or, of inserts, three times. */
#include "client.h"

enum { THREADS = 4, CHANGING = 4, MOST_RESTING = 24, PREPARED = 60, ALONE = 40, CALLS = 1000, AMPLE = 1 << 30 };
enum { SLOTS = MOST_RESTING + CHANGING + THREADS * 64 + PREPARED };

enum kind { LOOK_UP, REMOVE, INSERT, KINDS };

static const char *const names[KINDS] = {"look-ups", "removes", "inserts"};

/* What a thread tells of its updates of a kind, and others read. */
struct told {
    _Atomic uint64_t begun;  /* all that it began */
    _Atomic uint64_t ended;  /* all that ended */
    _Atomic uint64_t able;   /* those answered yes, and the one that is under way */
    _Atomic uint64_t stored; /* those answered yes that have ended */
};

/* Refusals of a kind: how many; of how many nobody was in an update meanwhile; and how near a budget came to its bound. */
struct refusals {
    long all, alone;
    double nearest;
};

struct worker {
    _Alignas(128) struct told told[KINDS];
    _Alignas(128) vbr_handle handle;
    uint64_t random;
    struct refusals refusals[KINDS];
};

static struct worker workers[THREADS];
static uint64_t resting; /* so many keys stay: the odd ones; even ones come and go between them */
static atomic_int ready; /* so many threads have begun */

static uint64_t last_key(void) { return 2 * resting + 2; }

static uint64_t changing_key(uint64_t i) { return i * (2 * resting / CHANGING / 2 * 2) + 2; }

/* What the others had recorded as a call began, and the most that they can have done until it ended. */
struct others {
    uint64_t ended_inserts, stored[KINDS];
};

static struct others before_call(const struct worker *w) {
    struct others sum = {0};
    for (const struct worker *it = workers; it < workers + THREADS; it++) {
        if (it == w) continue;
        sum.ended_inserts += atomic_load(&it->told[INSERT].ended);
        for (int kind = REMOVE; kind <= INSERT; kind++) sum.stored[kind] += atomic_load(&it->told[kind].stored);
    }
    return sum;
}

/* What a budget has to be below that is refused where n nodes are in the bucket, and m disturbances come. */
static uint64_t bound_of(enum kind kind, uint64_t n, uint64_t m) {
    switch (kind) {
    case LOOK_UP: return (m + 1) * (5 * (n + m) + 11);
    case REMOVE: return (m + 1) * (9 * (n + m) + 11);
    default: return (m + 2) * (9 * (n + m) + 7) + 68;
    }
}

/* A bound for the budget of a call that was refused. */
static uint64_t bound_after(const struct worker *w, enum kind kind, struct others before) {
    uint64_t begun = 0, able[KINDS] = {0};
    for (const struct worker *it = workers; it < workers + THREADS; it++) {
        if (it == w) continue;
        begun += atomic_load(&it->told[INSERT].begun);
        for (int other = REMOVE; other <= INSERT; other++) able[other] += atomic_load(&it->told[other].able);
    }
    uint64_t removes = able[REMOVE] - before.stored[REMOVE], inserts = able[INSERT] - before.stored[INSERT];
    uint64_t advances = begun - before.ended_inserts < 1 + removes ? begun - before.ended_inserts : 1 + removes;
    return bound_of(kind, resting + CHANGING + removes, 2 * (removes + inserts) + advances);
}

/* The greatest budget that is tried: twice the bound of a call that nothing disturbs. */
static uint32_t most(enum kind kind) { return 2 * (uint32_t)bound_of(kind, resting + CHANGING, 0); }

static vbr_answer look_up(struct worker *w, uint64_t key, uint32_t budget) {
#ifdef vbr_has /* over maps, by values.h: a get has the bound of a look-up */
    uint64_t value = 0;
    return vbr_map_get_within(&w->handle, key, &value, budget);
#else
    return vbr_has_within(&w->handle, key, budget);
#endif
}

static vbr_answer call(struct worker *w, enum kind kind, uint64_t key, uint32_t budget) {
    switch (kind) {
    case LOOK_UP: return look_up(w, key, budget);
    case REMOVE: return vbr_remove_within(&w->handle, key, budget);
    default: return vbr_insert_within(&w->handle, key, budget);
    }
}

static void tell_begin(struct told *told) {
    atomic_fetch_add(&told->begun, 1);
    atomic_fetch_add(&told->able, 1);
}

static void tell_end(struct told *told, vbr_answer answer) {
    if (answer == VBR_YES) atomic_fetch_add(&told->stored, 1);
    else atomic_fetch_sub(&told->able, 1);
    atomic_fetch_add(&told->ended, 1);
}

/* Takes what a call has marked out of its list. */
static void sweep(struct worker *w) { CHECK(vbr_remove_within(&w->handle, last_key(), AMPLE) == VBR_NO); }

/* Makes a call, which is recorded before and after it if it is an update. */
static vbr_answer told_call(struct worker *w, enum kind kind, uint64_t key, uint32_t budget) {
    if (kind == LOOK_UP) return call(w, kind, key, budget);
    tell_begin(&w->told[kind]);
    vbr_answer answer = call(w, kind, key, budget);
    if (answer == VBR_YES && kind == REMOVE) sweep(w);
    tell_end(&w->told[kind], answer);
    return answer;
}

/* In a map, now and then: gives a key another value, if it is there, which is recorded as a remove and an insert. */
static void change(struct worker *w, uint32_t budget) {
#ifdef OF_VALUES
    if ((next(&w->random) >> 8) % 8 > 0) return;
    tell_begin(&w->told[REMOVE]);
    tell_begin(&w->told[INSERT]);
    vbr_answer answer = value_change(&w->handle, changing_key((next(&w->random) >> 8) % CHANGING), budget);
    CHECK(answer == VBR_YES || answer == VBR_NO || answer == VBR_OUT_OF_STEPS);
    if (answer == VBR_YES) sweep(w);
    tell_end(&w->told[REMOVE], answer);
    tell_end(&w->told[INSERT], answer);
#else
    (void)w, (void)budget;
#endif
}

static void fail(enum kind kind, uint32_t budget, uint64_t bound) {
    fprintf(stderr, "progress: FAILED: one of the %s was refused with a budget of %u, where a budget of %llu was enough\n",
            names[kind], budget, (unsigned long long)bound);
    exit(1);
}

static void judge(struct worker *w, enum kind kind, uint32_t budget, uint64_t bound) {
    struct refusals *refusals = &w->refusals[kind];
    if (budget >= bound) fail(kind, budget, bound);
    refusals->all++;
    refusals->alone += bound <= most(kind) / 2;
    if ((double)budget / (double)bound > refusals->nearest) refusals->nearest = (double)budget / (double)bound;
}

/* Inserts, finds and removes a key after all others, where nobody else calls: the bounds are those of no disturbance. */
static void call_alone(struct worker *w) {
    static const enum kind calls[] = {INSERT, LOOK_UP, REMOVE};
    for (size_t i = 0; i < sizeof calls / sizeof *calls; i++) {
        uint32_t budget = (uint32_t)bound_of(calls[i], resting + (i > 0), 0);
        vbr_answer answer = call(w, calls[i], last_key(), budget);
        if (answer == VBR_OUT_OF_STEPS) fail(calls[i], budget, budget);
        CHECK(answer == VBR_YES);
    }
}

static void *work(void *of) {
    struct worker *w = of;
    atomic_fetch_add(&ready, 1);
    while (atomic_load(&ready) < THREADS) sched_yield();
    for (int i = 0; i < CALLS; i++) {
        uint64_t chance = (next(&w->random) >> 8) % 16;
        enum kind kind = chance < 2 ? INSERT : chance < 4 ? REMOVE : LOOK_UP;
        uint64_t key = kind == LOOK_UP && chance % 2 ? last_key() : changing_key((next(&w->random) >> 8) % CHANGING);
        uint32_t budget = 1 + (uint32_t)(next(&w->random) >> 8) % most(kind);
        change(w, budget);
        int has_slot = atomic_load(&w->told[INSERT].stored) < PREPARED;
        struct others before = before_call(w);
        vbr_answer answer = told_call(w, kind, key, budget);
        CHECK(answer == VBR_YES || answer == VBR_NO || answer == VBR_OUT_OF_STEPS);
        if (answer == VBR_OUT_OF_STEPS && (kind != INSERT || has_slot)) judge(w, kind, budget, bound_after(w, kind, before));
    }
    return NULL;
}

/* A set in one bucket whose resting keys are there, and whose handles have slots of their own. */
static void open_set(void) {
    vbr_handle handles[THREADS] = {{0}};
    uint64_t keys[MOST_RESTING];
    for (uint64_t i = 0; i < resting; i++) keys[i] = 2 * i + 1;
    CHECK(vbr_open_with(handles, THREADS, SLOTS, 1, VBR_MAX_EPOCH, keys, resting) == VBR_OK);
    for (int i = 0; i < THREADS; i++) {
        struct worker *w = &workers[i];
        w->handle = handles[i];
        for (int kind = 0; kind < KINDS; kind++) w->told[kind] = (struct told){0};
        for (uint64_t own = 0; own < PREPARED; own++) CHECK(vbr_insert_within(&w->handle, 1000 + own, AMPLE) == VBR_YES);
        for (uint64_t own = 0; own < PREPARED; own++) CHECK(vbr_remove_within(&w->handle, 1000 + own, AMPLE) == VBR_YES);
        for (int turn = 0; turn < ALONE; turn++) call_alone(w);
    }
}

static void play(void) {
    open_set();
    atomic_store(&ready, 0);
    run_threads(THREADS, work, workers, sizeof *workers);
    for (int i = 0; i < THREADS; i++) vbr_drop(&workers[i].handle);
}

int main(int count, char **words) {
    static const uint64_t lengths[] = {4, 8, 24};
    int rounds = count > 1 ? atoi(words[1]) : 300;
    for (int i = 0; i < THREADS; i++) workers[i].random = 88172645463325252u + (uint64_t)i;
    for (int i = 0; i < rounds; i++) {
        resting = lengths[i % 3];
        play();
    }
    for (int kind = 0; kind < KINDS; kind++) {
        struct refusals sum = {0};
        for (int i = 0; i < THREADS; i++) {
            const struct refusals *it = &workers[i].refusals[kind];
            sum.all += it->all, sum.alone += it->alone;
            if (it->nearest > sum.nearest) sum.nearest = it->nearest;
        }
        CHECK(sum.alone > 0);
        printf("progress in C: %ld %s ran out of steps, %ld with no update beside them, the nearest at %.2f of its bound\n", sum.all,
               names[kind], sum.alone, sum.nearest);
    }
    return 0;
}
