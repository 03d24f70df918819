/* Processes that share a map and are killed at any moment: does each answer have an order in real time that explains it, and how many
   slots are lost?

       killed order ROUNDS [SEED]     few keys; each round is searched for an order in real time
       killed lost TRIALS [SEED]      one kill a trial: the slots that it costs, counted
       killed balance ROUNDS [SEED]   many keys and calls; each key's inserts and removes have to balance
       killed careless                as order, but two processes use one handle: it has to be found

   A parent opens the map, forks children with a handle each, and kills, stops and continues them at random. A child notes each call
   before and after it in memory that all share. A call that was under way at the kill took effect before it or not at all: both are
   tried. What else is noted has to be explained, as in bindings/tests/realtime.c. */
#define _GNU_SOURCE
#include "client.h"
#include "vbr_shared.h"

#include <errno.h>
#include <signal.h>
#include <string.h>
#include <sys/mman.h>
#include <sys/prctl.h>
#include <sys/time.h>
#include <sys/wait.h>
#include <unistd.h>

enum { MOST = 6, LIVES = 96, CALLS = 8192, KEYS = 8, STILL = 100, STILLS = 2, ABSENT = 0, CONFS = 1 << 14 };
enum op { HAS, INSERT, REMOVE, GET, REPLACE, PUT, GET_OR_INSERT, COMPARE_EXCHANGE, REMOVE_IF, WALK, OPS };
enum state { NOTHING, BEGUN, ENDED };

struct call {
    uint32_t begin, end;
    uint64_t value, expected, found;
    int32_t answer;
    unsigned char op, key, position;
    _Atomic unsigned char state;
};
struct life {
    _Atomic uint32_t count;
    int position;
    uint32_t death; /* the stamp that the parent drew when it knew of the death, or 0 */
    struct call calls[CALLS];
};
struct board {
    _Alignas(128) atomic_uint stamps;
    _Alignas(128) atomic_int is_over;
    atomic_uint faults;
    atomic_int pause, at_rest[MOST]; /* the number of the renewal for which processes rest between two calls; and of each, the last one */
    struct life lives[LIVES];
};
struct round {
    uint32_t keys, buckets, slots, at_once, look_ups, small_budgets, kills, handles;
    int is_ample, inherits;
};

static struct board *board;
static vbr_shared_handle *handles;
static int is_careless;
static long rounds, kills, in_call, stops, lives_begun, calls_made, refused, unknown, unseen, walks, overlaps, lost_in_all, lost_most, won_back;
static long by_op[OPS];

static uint32_t below(uint64_t *random, uint32_t limit) { return (uint32_t)((next(random) >> 32) * limit >> 32); }
static int failed(const char *what, long n) { fprintf(stderr, "killed: FAILED: %s (%ld, round %ld)\n", what, n, rounds); return 1; }
static void rest(long microseconds) { nanosleep(&(struct timespec){0, microseconds * 1000}, NULL); }

struct outcome { int32_t answer; uint64_t found, after; };

static struct outcome plain(const struct call *c, uint64_t has) {
    int32_t there = has == ABSENT ? VBR_NO : VBR_YES, matches = has == ABSENT ? VBR_NO : has == c->expected ? VBR_YES : VBR_OTHER;
    switch ((enum op)c->op) {
    case INSERT: return (struct outcome){there ? VBR_NO : VBR_YES, ABSENT, there ? has : c->value};
    case REMOVE: return (struct outcome){there, has, ABSENT};
    case GET: case WALK: return (struct outcome){there, has, has};
    case REPLACE: return (struct outcome){there, has, there ? c->value : ABSENT};
    case PUT: return (struct outcome){there, has, c->value};
    case GET_OR_INSERT: return (struct outcome){there, has, there ? has : c->value};
    case COMPARE_EXCHANGE: return (struct outcome){matches, has, matches == VBR_YES ? c->value : has};
    case REMOVE_IF: return (struct outcome){matches, has, matches == VBR_YES ? ABSENT : has};
    default: return (struct outcome){there, ABSENT, has};
    }
}

static int32_t ask(vbr_map_handle *m, struct call *c, uint32_t budget, vbr_cursor *cursor, uint32_t *met) {
    switch ((enum op)c->op) {
    case INSERT: return vbr_map_insert_within(m, c->key, c->value, budget);
    case REMOVE: return vbr_map_remove_within(m, c->key, &c->found, budget);
    case GET: return vbr_map_get_within(m, c->key, &c->found, budget);
    case REPLACE: return vbr_map_replace_within(m, c->key, c->value, &c->found, budget);
    case PUT: return vbr_map_put_within(m, c->key, c->value, &c->found, budget);
    case GET_OR_INSERT: return vbr_map_get_or_insert_within(m, c->key, c->value, &c->found, budget);
    case COMPARE_EXCHANGE: return vbr_map_compare_exchange_within(m, c->key, c->expected, c->value, &c->found, budget);
    case REMOVE_IF: return vbr_map_remove_if_within(m, c->key, c->expected, &c->found, budget);
    case WALK: {
        vbr_entry entry;
        int32_t told = vbr_map_next_within(m, cursor, &entry, budget);
        if (told == VBR_YES && entry.key >= STILL) {
            if (entry.value != entry.key * 3 || entry.key >= STILL + STILLS) atomic_fetch_add(&board->faults, 1);
            ++*met;
            return VBR_OUT_OF_STEPS; /* no call on a key of the search */
        }
        if (told == VBR_RESHAPED) { /* the map was renewed since the walk began: begin anew */
            *met = 0;
            *cursor = (vbr_cursor)VBR_CURSOR_BEGIN;
            return VBR_OUT_OF_STEPS;
        }
        if (told == VBR_NO) { /* the end: each key that nobody touches was given once */
            if (*met != STILLS) atomic_fetch_add(&board->faults, 1);
            *met = 0;
            *cursor = (vbr_cursor)VBR_CURSOR_BEGIN;
            return VBR_OUT_OF_STEPS;
        }
        if (told == VBR_YES) c->key = (unsigned char)entry.key, c->found = entry.value;
        return told;
    }
    default: return vbr_map_has_within(m, c->key, budget);
    }
}

struct caller { vbr_shared_handle *handle; struct life *life; uint64_t random, left[KEYS]; vbr_cursor cursor; uint32_t met; int number; };

static void make(const struct round *r, struct caller *w) {
    static const enum op updates[] = {INSERT, REMOVE, REPLACE, PUT, GET_OR_INSERT, COMPARE_EXCHANGE, REMOVE_IF};
    uint32_t n = atomic_load(&w->life->count);
    struct call *c = &w->life->calls[n];
    uint64_t x = next(&w->random);
    *c = (struct call){.position = (unsigned char)w->life->position, .key = (unsigned char)below(&w->random, r->keys), .found = ABSENT};
    if ((x & 255) < r->look_ups) c->op = x >> 8 & 1 ? GET : x >> 9 & 1 ? HAS : WALK;
    else c->op = (unsigned char)updates[below(&w->random, 7)];
    c->value = (uint64_t)(w->number + 1) << 32 | (n + 1);
    c->expected = w->left[c->key];
    uint32_t budget = (x >> 24 & 255) < r->small_budgets ? below(&w->random, 100) : VBR_AMPLE_STEPS;
    c->begin = atomic_fetch_add(&board->stamps, 1);
    atomic_store(&c->state, BEGUN);
    atomic_store(&w->life->count, n + 1);
    vbr_begin(w->handle);
    int32_t answer = ask(&w->handle->map, c, budget, &w->cursor, &w->met);
    vbr_end(w->handle);
    c->answer = answer;
    c->end = atomic_fetch_add(&board->stamps, 1);
    atomic_store(&c->state, ENDED);
    if (c->answer == VBR_OUT_OF_STEPS && c->op != WALK && budget == VBR_AMPLE_STEPS) atomic_fetch_add(&board->faults, 1);
    if (c->answer >= 0 && plain(c, c->found).after != ABSENT) w->left[c->key] = plain(c, c->found).after;
}

/* A child that ends with its parent, whatever the parent ends of. */
static pid_t forked(void) {
    pid_t child = fork();
    if (!child) prctl(PR_SET_PDEATHSIG, SIGKILL);
    return child;
}

static void give_way(int signal_number) {
    (void)signal_number;
    int kept = errno;
    rest(20);
    errno = kept;
}

/* Careless processes meet in the middle of calls, also where processors are few. */
static void gives_way_often(void) {
    struct itimerval often = {{0, 100}, {0, 100}};
    struct sigaction action = {0};
    action.sa_handler = give_way;
    CHECK(!sigaction(SIGALRM, &action, NULL) && !setitimer(ITIMER_REAL, &often, NULL));
}

static pid_t begin_life(const struct round *r, int position, vbr_shared_handle *handle, uint64_t *random) {
    int number = (int)lives_begun % LIVES;
    struct life *life = &board->lives[number];
    atomic_store(&life->count, 0);
    life->position = position;
    life->death = 0;
    uint64_t own = next(random) | 1;
    lives_begun++;
    pid_t child = forked();
    if (child) return child;
    if (is_careless) gives_way_often();
    struct caller w = {.handle = handle, .life = life, .random = own, .cursor = VBR_CURSOR_BEGIN, .number = number};
    while (!atomic_load_explicit(&board->is_over, memory_order_relaxed) && atomic_load(&life->count) < CALLS) make(r, &w);
    _exit(0);
}

/* ---- the search */

struct conf { uint32_t mask; uint64_t has; };
static struct conf confs[CONFS];
static uint32_t conf_count;
static struct { const struct call *call; int ends; } *events;

static int add(uint32_t mask, uint64_t has) {
    for (uint32_t i = 0; i < conf_count; i++) if (confs[i].mask == mask && confs[i].has == has) return 1;
    if (conf_count == CONFS) return 0;
    confs[conf_count++] = (struct conf){mask, has};
    return 1;
}

static int is_known(const struct call *c) { return atomic_load(&((struct call *)c)->state) == ENDED; }

/* Whether the calls on a key have an order: 1, and what the key may have at the end is left in confs; 0, none; -1, too many ways. */
static int search(uint32_t stamps, int key) {
    const struct call *open[MOST + 1] = {NULL};
    conf_count = 0;
    add(0, ABSENT);
    for (uint32_t s = 0; s < stamps; s++) {
        const struct call *c = events[s].call;
        if (!c || c->key != key) continue;
        if (!events[s].ends) {
            for (int i = 0; i <= MOST; i++) overlaps += open[i] != NULL;
            open[c->position] = c;
            continue;
        }
        for (uint32_t i = 0; i < conf_count; i++)
            for (int p = 0; p <= MOST; p++) {
                if (!open[p] || confs[i].mask >> p & 1) continue;
                struct outcome told = plain(open[p], confs[i].has);
                if (is_known(open[p]) && (told.answer != open[p]->answer || told.found != open[p]->found)) continue;
                if (!add(confs[i].mask | 1u << p, told.after)) return -1;
            }
        static struct conf before[CONFS];
        uint32_t count = conf_count, bit = 1u << c->position;
        memcpy(before, confs, count * sizeof *confs);
        conf_count = 0;
        for (uint32_t i = 0; i < count; i++)
            if (before[i].mask & bit || !is_known(c)) add(before[i].mask & ~bit, before[i].has);
        open[c->position] = NULL;
        if (!conf_count) {
            fprintf(stderr, "key %d, stamps %u to %u, op %d, answer %d, found %llx, position %d\n", key, c->begin, c->end, c->op, c->answer,
                    (unsigned long long)c->found, c->position);
            return 0;
        }
    }
    return 1;
}

static int order_calls(const struct round *r, uint32_t stamps, long first_life) {
    memset(events, 0, stamps * sizeof *events);
    for (long l = first_life; l < lives_begun; l++) {
        struct life *life = &board->lives[l % LIVES];
        for (uint32_t i = 0; i < life->count; i++) {
            struct call *c = &life->calls[i];
            calls_made++;
            if (c->state == BEGUN) {
                if (!life->death) return failed("a call of a life that wasn't killed has no end", l);
                unknown++;
                if (c->op == HAS || c->op == GET || c->op == WALK) continue;
                c->end = life->death;
            } else {
                by_op[c->op]++;
                if (c->op == WALK && c->answer < 0) { walks++; continue; }
                if (c->answer < 0) {
                    refused++;
                    if (c->answer == VBR_NO_SLOT && r->is_ample) return failed("no slot, where there are 66 for each kill", l);
                    continue;
                }
            }
            events[c->begin].call = events[c->end].call = c;
            events[c->end].ends = 1;
        }
    }
    return 0;
}

/* ---- the parent */

/* How many slots nobody has, counted from outside: all handles give theirs back, and fresh keys are put in until there is no slot. */
static long count_lost(uint32_t slots, uint32_t count, int is_renewed) {
    static vbr_entry entries[1 << 16];
    vbr_report report = {0};
    for (uint32_t i = 0; i < count; i++) vbr_map_give_slots_back(&handles[i].map);
    for (uint32_t k = 0; k < KEYS; k++) (void)!vbr_map_remove(&handles[0].map, 50 + k, NULL);
    vbr_answer told;
    uint64_t key = is_renewed ? 2000000 : 1000000;
    while ((told = vbr_map_insert(&handles[0].map, key, 1)) == VBR_YES) key++;
    if (told != VBR_NO_SLOT) return -1;
    told = vbr_map_report_all(vbr_map_gather(handles), count, entries, 1 << 16, &report);
    vbr_spread(handles);
    if (told != VBR_YES) return -2;
    return (long)slots - report.live - report.marked;
}

static int reaped(pid_t child, int *by_kill) {
    int status;
    if (waitpid(child, &status, 0) != child) return 0;
    *by_kill = WIFSIGNALED(status) && WTERMSIG(status) == SIGKILL;
    return *by_kill || (WIFEXITED(status) && WEXITSTATUS(status) == 0);
}

static int play(uint64_t *random) {
    struct round r = {.keys = 1 + below(random, KEYS - 1), .at_once = 2 + below(random, MOST - 3), .kills = 4 + below(random, 17)};
    uint64_t x = next(random);
    r.buckets = 1 + below(random, r.keys);
    r.inherits = x & 1;
    r.look_ups = x >> 1 & 1 ? 85 : x >> 2 & 1 ? 180 : 0;
    r.small_budgets = (x >> 3 & 7) == 0 ? 64 : 0;
    r.is_ample = (x >> 6 & 3) != 0;
    r.handles = r.at_once + 1 + (r.inherits ? 0 : r.kills);
    r.slots = r.keys + STILLS + (r.is_ample ? 66 * (r.at_once + 1 + r.kills) : 4 + below(random, 60));
    rounds++;
    vbr_entry still[STILLS];
    for (int i = 0; i < STILLS; i++) still[i] = (vbr_entry){STILL + (uint64_t)i, (STILL + (uint64_t)i) * 3};
    if (vbr_map_open_shared(&handles, r.handles, r.slots, r.buckets, VBR_MAX_EPOCH, still, STILLS) != VBR_OK) return failed("the opening", 0);
    atomic_store(&board->stamps, 0);
    atomic_store(&board->is_over, 0);
    atomic_store(&board->faults, 0);
    long first_life = lives_begun, in_call_before = in_call;
    pid_t child[MOST];
    int stopped[MOST] = {0};
    uint32_t has_handle[MOST], free_handle = r.at_once + 1;
    struct life *of[MOST];
    struct life *mine = &board->lives[lives_begun++ % LIVES];
    atomic_store(&mine->count, 0);
    mine->position = MOST, mine->death = 0;
    struct caller me = {.handle = &handles[0], .life = mine, .random = next(random) | 1, .cursor = VBR_CURSOR_BEGIN, .number = (int)(first_life % LIVES)};
    for (uint32_t p = 0; p < r.at_once; p++) {
        has_handle[p] = p + 1;
        of[p] = &board->lives[lives_begun % LIVES];
        if ((child[p] = begin_life(&r, (int)p, &handles[p + 1], random)) < 0) return failed("no process", errno);
    }
    struct life *its = &board->lives[lives_begun % LIVES];
    pid_t intruder = is_careless ? begin_life(&r, 0, &handles[1], random) : -1;
    uint32_t done = 0;
    while (done < r.kills && lives_begun - first_life < LIVES - 2) {
        rest(20 + below(random, 1000));
        for (int i = 0; i < 3; i++) if (atomic_load(&mine->count) < CALLS) make(&r, &me);
        uint32_t p = below(random, r.at_once), act = below(random, 8);
        if (stopped[p] && act < 4) { kill(child[p], SIGCONT); stopped[p] = 0; continue; }
        if (!stopped[p] && act < 3) { kill(child[p], SIGSTOP); stopped[p] = 1; stops++; continue; }
        kill(child[p], SIGKILL);
        int by_kill;
        if (!reaped(child[p], &by_kill)) return failed("a child ended by itself", p);
        stopped[p] = 0;
        if (by_kill) {
            of[p]->death = atomic_fetch_add(&board->stamps, 1);
            done++, kills++;
            int was_in_call = (int)handles[has_handle[p]].both.in_call;
            in_call += was_in_call;
            uint32_t count = atomic_load(&of[p]->count);
            if (count && !was_in_call && of[p]->calls[count - 1].state == BEGUN) unseen++;
            if (r.inherits) {
                if (vbr_inherit(&handles[has_handle[p]]) != (was_in_call ? VBR_NO : VBR_YES)) return failed("inherit", p);
                if (handles[has_handle[p]].both.in_call) return failed("a mark that is left", p);
            } else if (was_in_call) has_handle[p] = free_handle++;
        }
        of[p] = &board->lives[lives_begun % LIVES];
        if ((child[p] = begin_life(&r, (int)p, &handles[has_handle[p]], random)) < 0) return failed("no process", errno);
    }
    atomic_store(&board->is_over, 1);
    for (uint32_t p = 0; p < r.at_once; p++) {
        int by_kill;
        kill(child[p], SIGCONT);
        if (!reaped(child[p], &by_kill) || by_kill) return failed("a child that was not killed", p);
    }
    if (is_careless) {
        int by_kill;
        if (!reaped(intruder, &by_kill)) return failed("a child that was not killed", 0);
        for (uint32_t i = 0; i < atomic_load(&its->count); i++) its->calls[i].position = MOST - 1;
    }
    uint32_t stamps = atomic_load(&board->stamps);
    if (atomic_load(&board->faults)) return failed("walks, or ample budgets", atomic_load(&board->faults));
    if (order_calls(&r, stamps, first_life)) return 1;
    for (uint32_t k = 0; k < r.keys; k++) {
        int is_explained = search(stamps, (int)k);
        if (is_explained != 1) return failed(is_explained ? "too many ways" : "no order explains the answers on a key", k);
        uint64_t has = ABSENT;
        vbr_answer told = vbr_map_get(&handles[0].map, k, &has);
        if (told == VBR_NO) has = ABSENT;
        int fits = 0;
        for (uint32_t i = 0; i < conf_count; i++) fits |= !confs[i].mask && confs[i].has == has;
        if (told < 0 || !fits) return failed("what a key has in the end", k);
    }
    /* handles in which a process died are given up; what they had is lost until the renewal */
    long died_in_call = in_call - in_call_before;
    for (uint32_t i = 0; i < r.handles; i++) if (vbr_inherit(&handles[i]) == VBR_NO_HANDLE) return failed("a handle is empty", i);
    long lost = count_lost(r.slots, r.handles, 0);
    if (lost < 0 || lost > 66 * died_in_call) return failed("slots lost", lost);
    lost_in_all += lost;
    if (lost > lost_most) lost_most = lost;
    if (vbr_renew_shared(handles, r.slots + 200, r.buckets, VBR_MAX_EPOCH) != VBR_OK) return failed("the renewal", 0);
    long left = count_lost(r.slots + 200, r.handles, 1);
    if (left != 0) return failed("slots lost after the renewal", left);
    won_back += lost;
    vbr_map_end_all(vbr_map_gather(handles), r.handles);
    vbr_unmap_shared(handles);
    return 0;
}

static void *shared_memory(size_t size) {
    void *it = mmap(NULL, size, PROT_READ | PROT_WRITE, MAP_SHARED | MAP_ANONYMOUS | MAP_NORESERVE, -1, 0);
    return it == MAP_FAILED ? NULL : it;
}

static int order(long wanted, uint64_t *random) {
    board = shared_memory(sizeof *board);
    events = calloc(2ul * LIVES * CALLS + 2 * LIVES, sizeof *events);
    if (!board || !events) return failed("memory", 0);
    for (long i = 0; i < wanted; i++) if (play(random)) return 1;
    printf("order: passed, %ld rounds, %ld lives, %ld kills (%ld in a call by the mark, %ld calls of unknown outcome, %ld of them outside by the mark), "
           "%ld stops, %ld calls (%ld overlaps on a key), %ld refused by name, %ld steps of walks, 0 wrong; lost slots %ld, %.2f a kill in a call, most in a "
           "round %ld, all %ld won back\n",
           rounds, lives_begun, kills, in_call, unknown, unseen, stops, calls_made, overlaps, refused, walks, lost_in_all,
           in_call ? (double)lost_in_all / (double)in_call : 0.0, lost_most, won_back);
    printf("by kind:");
    for (int i = 0; i < OPS; i++) printf(" %ld", by_op[i]);
    printf("\n");
    return 0;
}

/* One child that churns, killed once; beside it another that goes on. */
static int lost(long trials, uint64_t *random) {
    long found[80] = {0}, whole = 0, worst = 0, sum = 0, n = 0;
    board = shared_memory(sizeof *board);
    for (long t = 0; t < trials; t++) {
        rounds++;
        uint32_t keys = 4 + below(random, 120), slots = keys + 66 * 3 + 64, small = below(random, 3);
        if (vbr_map_open_shared(&handles, 3, slots, 1 + below(random, keys), VBR_MAX_EPOCH, NULL, 0) != VBR_OK) return failed("the opening", 0);
        atomic_store(&board->is_over, 0);
        pid_t child[2];
        for (int i = 0; i < 2; i++) {
            uint64_t own = next(random) | 1;
            if ((child[i] = forked())) continue;
            vbr_map_handle *m = &handles[i + 1].map;
            if (small == 0) { vbr_begin(&handles[i + 1]); vbr_map_reserve(m, 63); vbr_end(&handles[i + 1]); }
            while (!atomic_load_explicit(&board->is_over, memory_order_relaxed)) {
                uint64_t x = next(&own);
                uint64_t key = below(&own, keys);
                vbr_begin(&handles[i + 1]);
                if (small == 1 && (x & 31) == 0) { /* a wave of inserts, and then of removes, so that pools fill and empty */
                    for (uint64_t k = 0; k < keys; k++) (void)!vbr_map_insert(m, 1000 * ((uint64_t)i + 1) + k, 1);
                    for (uint64_t k = 0; k < keys; k++) (void)!vbr_map_remove(m, 1000 * ((uint64_t)i + 1) + k, NULL);
                } else if (small == 2 && (x & 63) == 0) vbr_map_give_slots_back(m);
                else if (x & 64) (void)!vbr_map_put(m, key, x, NULL);
                else (void)!vbr_map_remove(m, key, NULL);
                vbr_end(&handles[i + 1]);
            }
            _exit(0);
        }
        rest(300 + below(random, 2000));
        kill(child[0], SIGKILL);
        int by_kill;
        if (!reaped(child[0], &by_kill) || !by_kill) return failed("the kill", 0);
        kills++;
        rest(50);
        atomic_store(&board->is_over, 1);
        if (!reaped(child[1], &by_kill) || by_kill) return failed("the other child", 0);
        int was_in_call = (int)handles[1].both.in_call;
        in_call += was_in_call;
        if (vbr_inherit(&handles[1]) != (was_in_call ? VBR_NO : VBR_YES)) return failed("inherit", 0);
        long it = count_lost(slots, 3, 0);
        if (it < 0 || it > 66 || (!was_in_call && it)) return failed("slots lost", it);
        if (was_in_call) found[it]++, sum += it, n++;
        else whole++;
        if (it > worst) worst = it;
        if (vbr_renew_shared(handles, slots, 16, VBR_MAX_EPOCH) != VBR_OK || count_lost(slots, 3, 1) != 0) return failed("won back", 0);
        vbr_map_end_all(vbr_map_gather(handles), 3);
        vbr_unmap_shared(handles);
    }
    printf("lost: passed, %ld kills, %ld outside calls lost 0 slots each, %ld in calls lost %.2f in the mean and %ld at most; all won back by the renewal\nby number:", kills, whole,
           n, n ? (double)sum / (double)n : 0.0, worst);
    for (int i = 0; i < 80; i++) if (found[i]) printf(" %d:%ld", i, found[i]);
    printf("\n");
    return 0;
}

/* ---- many keys */

enum { MANY = 1 << 14, CROWD = 4, LEDGERS = 64, SPELL = 8 }; /* a renewal after so many kills */
struct ledger {
    _Atomic int8_t net[MANY]; /* inserts that were answered yes less removes that were; at most a few apart */
    _Atomic uint64_t open;    /* the call under way: its key, doubled, and 1 for a remove, and 1 more above all; 0 where none is */
    _Atomic uint64_t made;
    atomic_uint faults;
};

static int balance(long wanted, uint64_t *random) {
    long renewals = 0;
    uint64_t longest_wait = 0, longest_renewal = 0;
    struct ledger *ledgers = shared_memory(LEDGERS * sizeof *ledgers);
    board = shared_memory(sizeof *board);
    long all_calls = 0, unsettled = 0;
    for (long t = 0; t < wanted; t++) {
        rounds++;
        uint32_t slots = MANY + 66 * (CROWD + 1 + SPELL);
        madvise(ledgers, LEDGERS * sizeof *ledgers, MADV_REMOVE);
        if (vbr_map_open_shared(&handles, CROWD + 1, slots, MANY, VBR_MAX_EPOCH, NULL, 0) != VBR_OK) return failed("the opening", 0);
        atomic_store(&board->is_over, 0);
        pid_t child[CROWD];
        int of[CROWD], used = 0, stopped[CROWD] = {0};
        long in_call_before = in_call;
        int since = 0;
        for (int p = 0; p < CROWD; p++) child[p] = -1;
        for (;;) {
            for (int p = 0; p < CROWD; p++) {
                if (child[p] >= 0 || used == LEDGERS) continue;
                uint64_t own = next(random) | 1;
                of[p] = used++;
                lives_begun++;
                if ((child[p] = forked())) continue;
                struct ledger *l = &ledgers[of[p]];
                vbr_shared_handle *h = &handles[p + 1];
                uint64_t made = 0;
                while (!atomic_load_explicit(&board->is_over, memory_order_relaxed)) {
                    int pause = atomic_load(&board->pause);
                    if (pause) {
                        atomic_store(&board->at_rest[p], pause);
                        while (atomic_load(&board->pause) == pause) sched_yield();
                    }
                    uint64_t x = next(&own), key = below(&own, MANY), found;
                    if (x & 1) {
                        vbr_begin(h);
                        vbr_answer told = vbr_map_get(&h->map, key, &found);
                        vbr_end(h);
                        if (told < 0 || (told == VBR_YES && found >> 20 != key)) atomic_fetch_add(&l->faults, 1);
                    } else {
                        int is_remove = x >> 1 & 1;
                        atomic_store_explicit(&l->open, 1ul << 40 | key << 1 | (unsigned)is_remove, memory_order_relaxed);
                        vbr_begin(h);
                        vbr_answer told = is_remove ? vbr_map_remove(&h->map, key, &found) : vbr_map_insert(&h->map, key, key << 20 | (x >> 44));
                        vbr_end(h);
                        if (told < 0 || (is_remove && told == VBR_YES && found >> 20 != key)) atomic_fetch_add(&l->faults, 1);
                        if (told == VBR_YES) atomic_store_explicit(&l->net[key], (int8_t)(l->net[key] + (is_remove ? -1 : 1)), memory_order_relaxed);
                        atomic_store_explicit(&l->open, 0, memory_order_relaxed);
                    }
                    atomic_store_explicit(&l->made, ++made, memory_order_relaxed);
                }
                _exit(0);
            }
            if (used == LEDGERS) break;
            rest(100 + below(random, 4000));
            uint32_t p = below(random, CROWD);
            if (below(random, 3) == 0) { kill(child[p], stopped[p] ? SIGCONT : SIGSTOP); stopped[p] = !stopped[p]; stops++; continue; }
            kill(child[p], SIGKILL);
            int by_kill;
            if (!reaped(child[p], &by_kill) || !by_kill) return failed("the kill", 0);
            kills++;
            in_call += handles[p + 1].both.in_call;
            if (vbr_inherit(&handles[p + 1]) < 0) return failed("inherit", 0);
            child[p] = -1, stopped[p] = 0;
            if (++since < SPELL) continue;
            /* all rest between two calls; those that were stopped go on first; the dead are inherited already */
            uint64_t before = nanoseconds();
            atomic_store(&board->pause, (int)++renewals);
            for (int q = 0; q < CROWD; q++) {
                if (child[q] < 0) continue;
                if (stopped[q]) kill(child[q], SIGCONT), stopped[q] = 0;
                while (atomic_load(&board->at_rest[q]) != (int)renewals) {
                    if (waitpid(child[q], NULL, WNOHANG)) return failed("a child ended by itself", q);
                    sched_yield();
                }
            }
            uint64_t at_rest = nanoseconds();
            if (vbr_renew_shared(handles, slots, MANY, VBR_MAX_EPOCH) != VBR_OK) return failed("the renewal", 0);
            uint64_t renewed = nanoseconds();
            atomic_store(&board->pause, 0);
            if (at_rest - before > longest_wait) longest_wait = at_rest - before;
            if (renewed - at_rest > longest_renewal) longest_renewal = renewed - at_rest;
            since = 0, in_call_before = in_call;
        }
        rest(2000);
        atomic_store(&board->is_over, 1);
        for (int p = 0; p < CROWD; p++) {
            int by_kill;
            kill(child[p], SIGCONT);
            if (!reaped(child[p], &by_kill) || by_kill) return failed("a child", p);
        }
        for (int i = 0; i < LEDGERS; i++) {
            all_calls += (long)ledgers[i].made;
            if (ledgers[i].faults) return failed("an answer of a child", (long)ledgers[i].faults);
        }
        for (uint64_t k = 0; k < MANY; k++) {
            uint64_t found;
            long net = 0, more = 0, less = 0;
            for (int i = 0; i < LEDGERS; i++) {
                net += ledgers[i].net[k];
                if (ledgers[i].open >> 40 && (ledgers[i].open & 0xffffffff) >> 1 == k) { if (ledgers[i].open & 1) less++; else more++; }
            }
            vbr_answer there = vbr_map_get(&handles[0].map, k, &found);
            /* a call under way may be noted already (its net was stored) or not */
            long is = there == VBR_YES;
            if (there < 0 || is < net - less - more || is > net + more + less) return failed("the balance of a key", (long)k);
            unsettled += more + less;
        }
        long lost = count_lost(slots, CROWD + 1, 0);
        if (lost < 0 || lost > 66 * (in_call - in_call_before)) return failed("slots lost", lost);
        lost_in_all += lost;
        vbr_map_end_all(vbr_map_gather(handles), CROWD + 1);
        vbr_unmap_shared(handles);
    }
    printf("balance: passed, %ld rounds, %ld lives, %ld kills (%ld in a call), %ld stops, %ld calls, %ld of unknown outcome, 0 wrong; %ld renewals with the others alive, of %.2f ms "
           "at most and %.2f ms before until all rest; %ld slots lost at the ends\n",
           rounds, lives_begun, kills, in_call, stops, all_calls, unsettled, renewals, (double)longest_renewal / 1e6, (double)longest_wait / 1e6, lost_in_all);
    return 0;
}

int main(int count, char **words) {
    long wanted = count > 2 ? atol(words[2]) : 20;
    uint64_t random = ((uint64_t)(count > 3 ? atol(words[3]) : 1) + 1) * 0x9e3779b97f4a7c15u | 1;
    is_careless = count > 1 && !strcmp(words[1], "careless");
    if (is_careless) alarm(120); /* what two processes tear may keep this one for ever */
    if (count > 1 && (is_careless || !strcmp(words[1], "order"))) return order(wanted, &random);
    if (count > 1 && !strcmp(words[1], "lost")) return lost(wanted, &random);
    if (count > 1 && !strcmp(words[1], "balance")) return balance(wanted, &random);
    return fputs("usage: killed order|lost|balance|careless [ROUNDS [SEED]]\n", stderr), 2;
}
