/* Four threads on set after set: small and large ones, with all calls, budgets that are too small, handles that stand
   still, threads that are stopped in the middle of calls, and epochs that run out. The answers are balanced against
   the report of each set.

       soak [OPERATIONS [SEED]]

   makes at least that many calls, and tells on standard error how far it is. Each set is one round. Keys are shared
   by all threads, but for some that one thread alone inserts and removes: each answer on those is known. Others rest: they are
   in the set from its opening to its close, and no thread inserts or removes them. In a map (values.h) each thread changes the
   values of all keys, those of others and those that rest among them, and none is absent for that.

   In between the threads walk, some calls at a time. A walk has to give, in the order of buckets and ascending in each, all keys that
   rest, and those of its own thread that are in the set all the while; of its own thread's keys it gives none that isn't there at that
   moment, and it gives no key that was never put in. A walk while nothing else runs gives all keys. At the end of
   a round every key is in the set exactly if more inserts than removes of it were answered yes; it is looked up, and
   looked for in the report. In some rounds with slots by the rule of vbr.h one handle then fills the set up to the most
   keys, and finds a slot for each. Where all budgets were ample the report counts no removed node that is still in a list.
   Then the keys of the report are carried over into the next set, which opens with them or gets them by inserts, or a
   fresh one begins. */
#include "stopping.h"
#include "client.h"

#include <string.h>

enum {
    THREADS = 4,
    STILL = 2,         /* handles that take some slots, and then stand still for the whole round */
    MAX_KEYS = 16384,  /* how many keys that come and go a round has at most */
    MOST = MAX_KEYS + MAX_KEYS / 4, /* and with those that rest */
    AMPLE = VBR_AMPLE_STEPS, /* no call of these runs out of it */
    SPENT_LIMIT = 2000 /* a thread ends its round after so many inserts that found the epoch spent */
};

struct round {
    uint32_t keys, resting; /* how many come and go; and how many, of the numbers after these, rest */
    uint32_t slots, buckets;
    uint64_t last_epoch, spread; /* the key of number i is i * spread, and spread is odd */
    uint64_t unspread;           /* its inverse: the number of a key is key * unspread */
    uint64_t multiplier;         /* what the library multiplies keys by, as its seed tells */
    uint32_t small_budgets;      /* of 256 calls, how many have one */
    uint32_t look_ups, inserts;  /* of 256 calls; the others are removes */
    uint32_t changes;            /* of 256 look-ups and inserts, how many change a value */
    uint32_t walks;              /* of 256 turns, how many go on with a walk, by up to 64 calls */
    long calls;                  /* of each thread */
    int with_still, drops, fills;
};

struct walk {
    vbr_cursor cursor;
    int is_on, has_given;
    uint64_t bucket, key;     /* of the key that was given last */
    unsigned char due[MOST];  /* which keys are to be given still */
};

struct worker {
    struct round *round;
    vbr_handle handle;
    uint64_t random;
    int number;
    long made, refused[4]; /* by -answer */
    const char *wrong;
    uint32_t wrong_key;
    int32_t balance[MOST]; /* inserts answered yes, less removes answered yes */
    struct walk walk;
    long walks; /* that came to their end */
};

/* A call. The last two give a key another value, if it is there, or in any case: in a set a look-up and an insert. */
enum kind { LOOK_UP, INSERT, REMOVE, CHANGE, PUT };
#ifndef OF_VALUES
#define value_change vbr_has_within
#define value_put vbr_insert_within
#endif

static struct worker workers[THREADS];
static unsigned char held[MOST]; /* which keys were in the set as the round began */
static long sets, carried, filled, walks, left, seed = 1; /* left: removed nodes in lists, at closes */
static long refusals[4]; /* by -answer */

static uint64_t key_of(const struct round *r, uint32_t number) { return number * r->spread; }

static uint32_t all_keys(const struct round *r) { return r->keys + r->resting; }

/* In which bucket the library has a key: the upper half of its product, as a part of the buckets. */
static uint64_t bucket_of(const struct round *r, uint64_t key) { return (key * r->multiplier >> 32) * r->buckets >> 32; }

/* The thread that alone inserts and removes the key, or -1. */
static int owner_of(const struct round *r, uint32_t number) { return number < r->keys && number % 8 < THREADS ? (int)(number % 8) : -1; }

/* Whether the set has slots by the rule: one for each key, and 64 for each handle. */
static int is_ample(const struct round *r) { return r->slots >= all_keys(r) + 64 * (THREADS + STILL); }

static int is_in(uint32_t number) {
    int32_t sum = held[number];
    for (int i = 0; i < THREADS; i++) sum += workers[i].balance[number];
    return sum;
}

static int adds(enum kind kind) { return kind == INSERT || kind == PUT; }

/* A look-up: one of four in a batch, between two of other keys. */
static int32_t look_up(struct worker *w, uint64_t key, uint32_t budget) {
    vbr_answer answers[3];
    uint64_t keys[3] = {key + w->round->spread, key, key - w->round->spread};
    if (w->made % 4) return vbr_has_within(&w->handle, key, budget);
    vbr_has_all_within(&w->handle, keys, 3, answers, budget);
    return answers[1];
}

static int32_t call(struct worker *w, enum kind kind, uint32_t number, uint32_t budget) {
    uint64_t key = key_of(w->round, number);
    int32_t answer = kind == LOOK_UP  ? look_up(w, key, budget)
                     : kind == INSERT ? vbr_insert_within(&w->handle, key, budget)
                     : kind == REMOVE ? vbr_remove_within(&w->handle, key, budget)
                     : kind == CHANGE ? value_change(&w->handle, key, budget)
                                      : value_put(&w->handle, key, budget);
    if (answer == VBR_YES && adds(kind)) w->balance[number]++;
    if (answer == VBR_YES && kind == REMOVE) w->balance[number]--, w->walk.due[number] = 0;
    return answer;
}

/* What is wrong with a refusal for want of a slot or an epoch, or nothing. `is_known`, `before`: as for an answer. */
static const char *fault_of_refusal(const struct round *r, enum kind kind, int is_known, int before, int32_t answer) {
    if (kind == LOOK_UP || kind == REMOVE) return "a refusal of a call that stores nothing";
    if (kind == INSERT && is_known && before) return "an insert of a key that is there was refused";
    if (kind == CHANGE && is_known && !before) return "a change of an absent key was refused";
    if (answer == VBR_NO_SLOT && is_ample(r)) return "no slot in an ample set";
    if (answer == VBR_EPOCH_SPENT && r->last_epoch == VBR_MAX_EPOCH) return "the greatest epoch is spent";
    return NULL;
}

/* What is wrong with the answer, or nothing. `is_known`: the key is the thread's own, or rests; then `before`: whether it was in
   the set. */
static const char *fault(const struct worker *w, enum kind kind, int is_known, int before, uint32_t budget, int32_t answer) {
    if (answer > VBR_YES || answer < VBR_EPOCH_SPENT) return "an answer that no call has";
    if (answer == VBR_OUT_OF_STEPS && budget >= AMPLE) return "too few steps with an ample budget";
    if (answer < VBR_OUT_OF_STEPS) return fault_of_refusal(w->round, kind, is_known, before, answer);
    if (is_known && answer >= 0 && answer != (adds(kind) ? !before : before)) return "a wrong answer on a key that no other thread inserts or removes";
    return NULL;
}

static int is_ours(const struct worker *w, uint32_t number) { return owner_of(w->round, number) == w->number; }

/* A walk begins. What rests is due, and what is the thread's own and in the set, unless it is removed meanwhile. */
static void begin_walk(struct worker *w) {
    const struct round *r = w->round;
    static const vbr_cursor begin = VBR_CURSOR_BEGIN;
    w->walk.cursor = begin;
    w->walk.is_on = 1;
    w->walk.has_given = 0;
    for (uint32_t i = 0; i < all_keys(r); i++) w->walk.due[i] = (unsigned char)(i >= r->keys || (is_ours(w, i) && held[i] + w->balance[i]));
}

/* What is wrong with the end of a walk, or nothing. */
static const char *end_walk(struct worker *w) {
    w->walk.is_on = 0;
    w->walks++;
    for (uint32_t i = 0; i < all_keys(w->round); i++)
        if (w->walk.due[i]) return w->wrong_key = i, "a walk has passed a key by";
    return NULL;
}

/* Whether a key comes after the one that a walk gave last. */
static int is_after(const struct round *r, const struct walk *walk, uint64_t key) {
    uint64_t bucket = bucket_of(r, key);
    return !walk->has_given || bucket > walk->bucket || (bucket == walk->bucket && key > walk->key);
}

/* A walk gives a key: what is wrong with that, or nothing. */
static const char *give(const struct round *r, struct walk *walk, uint64_t key) {
    uint64_t number = key * r->unspread;
    if (number >= all_keys(r)) return "a walk gives a key that was never put in";
    if (!is_after(r, walk, key)) return "a walk gives a key twice, or out of its order";
    walk->has_given = 1;
    walk->bucket = bucket_of(r, key);
    walk->key = key;
    walk->due[number] = 0;
    return NULL;
}

/* One call of a walk: what is wrong with it, or nothing. */
static const char *walk_on(struct worker *w, uint32_t budget) {
    uint64_t key = 0;
    if (!w->walk.is_on) begin_walk(w);
    vbr_answer answer = vbr_next_within(&w->handle, &w->walk.cursor, &key, budget);
    uint32_t number = (uint32_t)(key * w->round->unspread);
    w->made++;
    w->refused[1] += answer == VBR_OUT_OF_STEPS;
    if (answer != VBR_YES && key) return "a call of a walk that gives no key has written";
    if (answer == VBR_NO) return end_walk(w);
    if (answer == VBR_OUT_OF_STEPS) return budget >= AMPLE ? "too few steps for a walk with an ample budget" : NULL;
    if (answer != VBR_YES) return "an answer that no walk has";
    w->wrong_key = number;
    const char *wrong = give(w->round, &w->walk, key);
    if (wrong) return wrong;
    return is_ours(w, number) && !(held[number] + w->balance[number]) ? "a walk gives a key of its thread that isn't there" : NULL;
}

static uint32_t budget_of(const struct round *r, uint64_t x) { return (x >> 8 & 255) < r->small_budgets ? (uint32_t)(x >> 16 & 127) : AMPLE; }

/* A turn of a walk: up to 64 calls. */
static void walk_some(struct worker *w) {
    for (uint64_t count = 1 + (next(&w->random) & 63); count > 0 && !w->wrong; count--) w->wrong = walk_on(w, budget_of(w->round, next(&w->random)));
}

/* The kind of a call by random numbers. */
static enum kind kind_of(const struct round *r, uint32_t mix, uint32_t changes) {
    if (mix < r->look_ups) return changes < r->changes ? CHANGE : LOOK_UP;
    if (mix < r->look_ups + r->inserts) return changes < r->changes ? PUT : INSERT;
    return REMOVE;
}

/* A call at random. What rests is looked up and changed alone, and so is a key of another thread. */
static void make_call(struct worker *w) {
    const struct round *r = w->round;
    uint64_t x = next(&w->random);
    uint32_t number = (uint32_t)((x >> 32) * all_keys(r) >> 32), budget = budget_of(r, x);
    enum kind kind = kind_of(r, x & 255, x >> 24 & 255);
    int is_own = is_ours(w, number), is_resting = number >= r->keys;
    if (is_resting || (owner_of(r, number) >= 0 && !is_own)) kind = (x >> 24 & 255) < r->changes ? CHANGE : LOOK_UP;
    int before = is_own ? held[number] + w->balance[number] : is_resting;
    int32_t answer = call(w, kind, number, budget);
    w->made++;
    if (answer < 0 && answer >= -3) w->refused[-answer]++;
    w->wrong = fault(w, kind, is_own || is_resting, before, budget, answer);
    w->wrong_key = number;
}

static void *work(void *of) {
    struct worker *w = of;
    const struct round *r = w->round;
    for (long i = 0; i < r->calls && !w->wrong && w->refused[3] < SPENT_LIMIT; i++) {
        if ((next(&w->random) & 255) < r->walks) walk_some(w);
        if (!w->wrong) make_call(w);
    }
    while (w->walk.is_on && !w->wrong) w->wrong = walk_on(w, AMPLE);
    atomic_fetch_sub(&working, 1);
    return NULL;
}

static int failed(const struct round *r, long number, const char *what, uint32_t key) {
    fprintf(stderr,
            "soak: FAILED: %s (seed %ld, set %ld, key %llu; %u keys, %u slots, %u buckets, last epoch %llu)\n", what,
            seed, number, (unsigned long long)key_of(r, key), r->keys, r->slots, r->buckets,
            (unsigned long long)r->last_epoch);
    return 1;
}

/* The inverse of an odd number, modulo 2^64: each turn doubles the bits that are right. */
static uint64_t inverse_of(uint64_t odd) {
    uint64_t inverse = odd;
    for (int bits = 3; bits < 64; bits *= 2) inverse *= 2 - odd * inverse;
    return inverse;
}

static struct round plan(uint64_t *random, const struct round *old, int carries) {
    struct round r = {0};
    uint64_t x = next(random);
    r.keys = carries ? old->keys : x % 4 == 0 ? MAX_KEYS : x % 4 == 1 ? 1024 : 8 + (uint32_t)(x >> 8 & 63);
    r.resting = r.keys / 4;
    r.spread = carries ? old->spread : x >> 32 & 1 ? 1 : next(random) | 1;
    r.unspread = inverse_of(r.spread);
    r.buckets = 1 + (uint32_t)(next(random) % (r.keys / 2));
    if (r.keys > 64 && r.buckets < r.keys / 8) r.buckets = r.keys / 8; /* so that the lists are short */
    r.slots = all_keys(&r) + 64 * (THREADS + STILL);
    if ((x >> 33 & 3) == 0) r.slots = all_keys(&r) + 2; /* some inserts find no slot */
    r.last_epoch = (x >> 35 & 3) == 0 ? 1 + next(random) % 5000 : VBR_MAX_EPOCH;
    r.small_budgets = (x >> 37 & 3) == 0 ? 64 : 0;
    r.look_ups = (uint32_t)(x >> 40 & 1 ? 128 : x >> 41 & 1 ? 230 : 0);
    r.inserts = (256 - r.look_ups) / 2;
    r.changes = (uint32_t)(x >> 53 & 1 ? 128 : x >> 54 & 1 ? 30 : 0);
    r.walks = x >> 51 & 1 ? 8 : x >> 52 & 1 ? 2 : 0;
    r.calls = 20000 + (long)(next(random) % 180000);
    r.with_still = x >> 42 & 1;
    r.drops = (x >> 43 & 15) == 0;
    r.fills = (x >> 47 & 3) == 0 && is_ample(&r) && r.last_epoch == VBR_MAX_EPOCH;
    return r;
}

static int by_number(const void *a, const void *b) {
    uint64_t x = *(const uint64_t *)a, y = *(const uint64_t *)b;
    return x < y ? -1 : x > y;
}

/* The keys of the numbers that pass a test, ascending, and how many they are. */
static uint32_t keys_in(const struct round *r, int (*test)(uint32_t), uint64_t *keys) {
    uint32_t count = 0;
    for (uint32_t i = 0; i < all_keys(r); i++)
        if (test(i)) keys[count++] = key_of(r, i);
    qsort(keys, count, sizeof keys[0], by_number);
    return count;
}

static int was_held(uint32_t number) { return held[number]; }

/* Opens a set, with the keys that it is to begin with or without any. */
static int32_t open_set(const struct round *r, vbr_handle *handles, int count, int with_keys) {
    static uint64_t keys[MOST];
    if (!with_keys) return vbr_open(handles, (size_t)count, r->slots, r->buckets, r->last_epoch);
    uint32_t key_count = keys_in(r, was_held, keys);
    return vbr_open_with(handles, (size_t)count, r->slots, r->buckets, r->last_epoch, keys, key_count);
}

/* Sees that the keys of the last set, and those that rest, are in the one that was opened with them, or puts them into it, and lets the
   handles that stand still take slots. */
static const char *begin(const struct round *r, vbr_handle *handles, int with_keys) {
    for (uint32_t i = 0; i < all_keys(r); i++)
        if (held[i] && vbr_insert_within(&handles[0], key_of(r, i), AMPLE) != (with_keys ? VBR_NO : VBR_YES))
            return "a key could not be carried over";
    for (int h = THREADS; r->with_still && h < THREADS + STILL; h++)
        for (uint32_t i = 0; i < 16 && i < r->keys; i++) {
            if (held[i]) continue;
            int32_t added = vbr_insert_within(&handles[h], key_of(r, i), AMPLE);
            if (added == VBR_YES && vbr_remove_within(&handles[h], key_of(r, i), AMPLE) != VBR_YES) return "a lost insert";
        }
    return NULL;
}

/* How many microseconds a thread stands still: one of eight for long. */
static int pause_of(uint32_t random) { return (random & 7) == 0 ? 50000 : 2000; }

/* Fills the set up to the most keys by one handle, with keys that no thread had, and takes these out again. */
static const char *fill(const struct round *r, vbr_handle *handle) {
    uint32_t missing = r->keys;
    for (uint32_t i = 0; i < r->keys; i++) missing -= (uint32_t)is_in(i);
    for (uint32_t i = 0; i < missing; i++)
        if (vbr_insert_within(handle, key_of(r, all_keys(r) + i), AMPLE) != VBR_YES) return "no slot in a set that is filled by the rule";
    for (uint32_t i = 0; i < missing; i++)
        if (vbr_remove_within(handle, key_of(r, all_keys(r) + i), AMPLE) != VBR_YES) return "a key of the filling is lost";
    filled++;
    return NULL;
}

/* A walk while nothing else runs: it gives the keys that the answers leave, and no other. */
static const char *walk_at_rest(const struct round *r, vbr_handle *handle) {
    static struct walk walk;
    static const struct walk begin = {.cursor = VBR_CURSOR_BEGIN};
    const char *wrong = NULL;
    uint64_t key = 0;
    walk = begin;
    for (uint32_t i = 0; i < all_keys(r); i++) walk.due[i] = (unsigned char)is_in(i);
    vbr_answer answer;
    while (!wrong && (answer = vbr_next_within(handle, &walk.cursor, &key, AMPLE)) == VBR_YES)
        wrong = key * r->unspread < all_keys(r) && !walk.due[key * r->unspread] ? "a walk at rest gives a key that isn't there" : give(r, &walk, key);
    if (!wrong && answer != VBR_NO) return "the end of a walk at rest";
    for (uint32_t i = 0; i < all_keys(r) && !wrong; i++)
        if (walk.due[i]) return "a walk at rest has passed a key by";
    walks++;
    return wrong;
}

/* Compares the report with the keys that the answers leave. */
static int check_report(const struct round *r, const vbr_report *report, const uint64_t *keys) {
    static uint64_t want[MOST];
    uint32_t count = keys_in(r, is_in, want);
    if (report->live != count) return failed(r, sets, "the report has another number of keys", 0);
    for (uint32_t i = 0; i < count; i++)
        if (keys[i] != want[i]) return failed(r, sets, "the report has other keys", i);
    if (report->live + report->marked + report->free != r->slots) return failed(r, sets, "slots are lost", 0);
    if (report->marked && !r->small_budgets) return failed(r, sets, "removed nodes are left in lists", 0);
    left += report->marked;
    if (report->epoch < 1 || report->epoch > r->last_epoch) return failed(r, sets, "an epoch out of range", 0);
    for (int i = 0; i < THREADS; i++)
        if (workers[i].refused[3] && report->epoch != r->last_epoch)
            return failed(r, sets, "an epoch was said to be spent, and is not", 0);
    return 0;
}

/* Looks every key up, closes the set, and checks the report. */
static int finish(const struct round *r, vbr_handle *handles, int count) {
    static uint64_t keys[MOST];
    vbr_report report = {0};
    for (uint32_t i = 0; i < all_keys(r); i++) {
        int sum = is_in(i);
        if (sum != 0 && sum != 1) return failed(r, sets, "the answers do not balance", i);
        if (vbr_has_within(&handles[i % (uint32_t)count], key_of(r, i), AMPLE) != sum)
            return failed(r, sets, "a look-up differs from the answers", i);
    }
    const char *wrong = walk_at_rest(r, &handles[sets % count]);
    if (!wrong && r->fills) wrong = fill(r, &handles[sets % count]);
    if (wrong) return failed(r, sets, wrong, 0);
    if (r->drops) vbr_drop(&handles[0]);
    for (int i = r->drops; i < count - 1; i++)
        if (vbr_close(&handles[i], keys, MOST, &report) != VBR_NO) return failed(r, sets, "a close was not the last", 0);
    int32_t last = vbr_close(&handles[count - 1], keys, MOST, &report);
    if (last != VBR_YES) return failed(r, sets, "the last close", 0);
    return check_report(r, &report, keys);
}

/* One set from its opening to its closing. */
static int play(struct round *r, uint64_t *random, long *made) {
    vbr_handle handles[THREADS + STILL] = {{0}};
    int count = THREADS + (r->with_still ? STILL : 0), with_keys = next(random) & 1;
    pthread_t threads[THREADS];
    sets++;
    for (uint32_t i = 0; i < r->resting; i++) held[r->keys + i] = 1;
    if (open_set(r, handles, count, with_keys) != VBR_OK) return failed(r, sets, "the set could not be opened", 0);
    r->multiplier = (2 * vbr_seed(&handles[0]) + 1) * 0x9e3779b97f4a7c15u;
    const char *wrong = begin(r, handles, with_keys);
    if (wrong) return failed(r, sets, wrong, 0);
    atomic_store(&working, THREADS);
    for (int i = 0; i < THREADS; i++) {
        memset(&workers[i], 0, sizeof workers[i]);
        workers[i].round = r;
        workers[i].handle = handles[i]; /* moved, and back after the join */
        workers[i].random = next(random) | 1;
        workers[i].number = i;
        if (pthread_create(&threads[i], NULL, work, &workers[i])) return failed(r, sets, "no thread", 0);
    }
    stop_threads(random, threads, THREADS, 1000000, 4000000, pause_of);
    for (int i = 0; i < THREADS; i++) {
        pthread_join(threads[i], NULL);
        handles[i] = workers[i].handle;
        *made += workers[i].made;
        walks += workers[i].walks;
        for (int k = 1; k < 4; k++) refusals[k] += workers[i].refused[k];
        if (workers[i].wrong) return failed(r, sets, workers[i].wrong, workers[i].wrong_key);
    }
    return finish(r, handles, count);
}

/* Whether the next set begins with the keys of this one. */
static int carry(const struct round *r, uint64_t *random) {
    int carries = (next(random) & 1) && !r->drops;
    for (uint32_t i = 0; i < MOST; i++) held[i] = carries && i < r->keys && is_in(i);
    return carries;
}

int main(int count, char **words) {
    long wanted = count > 1 ? atol(words[1]) : 1000000000, made = 0;
    if (count > 2) seed = atol(words[2]);
    if (wanted < 1 || seed < 0) return fputs("usage: soak [OPERATIONS [SEED]]\n", stderr), 2;
    uint64_t random = ((uint64_t)seed + 1) * 0x9e3779b97f4a7c15u | 1;
    if (!can_stop()) return 1;
    struct round r = {0};
    int carries = 0;
    double start = now(), told = start;
    while (made < wanted) {
        r = plan(&random, &r, carries);
        if (play(&r, &random, &made)) return 1;
        carries = carry(&r, &random);
        carried += carries;
        if (now() - told < 5 && made < wanted) continue;
        told = now();
        fprintf(stderr, "soak: %ld of %ld operations, %ld sets, %ld stops, %.0f s\n", made, wanted, sets, stops, told - start);
    }
    printf("soak in C: passed, %ld operations on %ld sets, %ld of them carried over, %ld filled; %ld walks; %ld stops; "
           "refused: %ld steps, %ld slots, %ld epochs; left in lists where budgets were small: %ld removed nodes\n",
           made, sets, carried, filled, walks, stops, refusals[1], refusals[2], refusals[3], left);
    return 0;
}
