/* Eight threads that borrow three handles: each handle is one thread's at a time, answers are those of one set, and a lender
   whose handles are all lent says so at once. Meanwhile the set is renewed again and again, in two shapes in turn.

       lend [ROUNDS [FAULT]]

   With FAULT 1 a handle is used behind its return: a program that is wrong, for ThreadSanitizer to find. */
#include "client.h"
#include "vbr_lend.h"

enum { THREADS = 8, HANDLES = 3, KEYS = 64, SLOTS = KEYS + 64 * HANDLES, RENEWALS = 40 };

struct worker {
    int id, balance[KEYS];
    uint64_t random;
    long lent, refused;
};

static vbr_handle handles[HANDLES];
static long used[HANDLES]; /* of each handle's calls: plain memory, written by its borrower */
static vbr_lender lender;
static struct worker workers[THREADS];
static long rounds = 50000;
static int fault, is_renewed;

static void *work(void *of) {
    struct worker *w = of;
    while (w->lent < rounds || !__atomic_load_n(&is_renewed, __ATOMIC_RELAXED)) {
        vbr_handle *mine = vbr_lend(&lender);
        if (!mine) {
            w->refused++;
            sched_yield();
            continue;
        }
        w->lent++;
        next(&w->random);
        int key = (int)(w->random >> 32 & (KEYS - 1));
        vbr_answer answer = w->random >> 40 & 1 ? vbr_insert(mine, (uint64_t)key) : vbr_remove(mine, (uint64_t)key);
        CHECK(answer == VBR_YES || answer == VBR_NO);
        if (answer == VBR_YES) w->balance[key] += w->random >> 40 & 1 ? 1 : -1;
        used[mine - handles]++;
        if (w->lent % 16 == 0) CHECK(vbr_lender_on_loan(&lender) >= 1); /* its own at least */
        vbr_give_back(&lender, mine);
        if (fault) {
            (void)!vbr_has_within(mine, 0, 8);
            sched_yield();
        }
    }
    return NULL;
}

/* Renews the set while others borrow its handles. */
static void renew_meanwhile(void) {
    for (uint32_t made = 0; made < RENEWALS; made++) {
        vbr_answer renewed;
        while ((renewed = vbr_lender_renew(&lender, SLOTS + made % 2, KEYS, VBR_MAX_EPOCH)) == VBR_IN_USE) {
            CHECK(!vbr_lend(&lender));
            sched_yield();
        }
        CHECK(renewed == VBR_OK);
        sched_yield();
    }
}

/* A renewal that isn't made leaves all handles as they were, and all are lent again but where it answers VBR_IN_USE. */
static void renewals(void) {
    static vbr_lender none;
    CHECK(vbr_lender_renew(&none, SLOTS, KEYS, 1) == VBR_MISSING);
    CHECK(vbr_lender_renew(&lender, 0, KEYS, 1) == VBR_BAD_SHAPE);
    vbr_handle *mine = vbr_lend(&lender);
    CHECK(mine && vbr_insert(mine, 1) == VBR_YES && vbr_insert(mine, 2) == VBR_YES);
    CHECK(vbr_lender_renew(&lender, SLOTS, KEYS, 9) == VBR_IN_USE && !vbr_lend(&lender) && vbr_slots(mine) == SLOTS);
    CHECK(vbr_lender_renew(&lender, SLOTS, KEYS, 9) == VBR_IN_USE && !vbr_lend(&lender) && vbr_lender_on_loan(&lender) == 1);
    vbr_lender_lend_on(&lender);
    vbr_handle *other = vbr_lend(&lender);
    CHECK(other && other != mine && vbr_last_epoch(other) == VBR_MAX_EPOCH);
    vbr_give_back(&lender, other);
    CHECK(vbr_lender_renew(&lender, SLOTS, KEYS, 9) == VBR_IN_USE);
    vbr_give_back(&lender, mine);
    CHECK(!vbr_lend(&lender) && vbr_lender_renew(&lender, 1, KEYS, 9) == VBR_NO_ROOM);
    CHECK((mine = vbr_lend(&lender)) && vbr_remove(mine, 2) == VBR_YES);
    vbr_give_back(&lender, mine);
    CHECK(vbr_lender_renew(&lender, SLOTS, 1, 9) == VBR_OK);
    CHECK((mine = vbr_lend(&lender)) && vbr_buckets(mine) == 1 && vbr_last_epoch(mine) == 9 && vbr_epoch(mine) == 1);
    CHECK(vbr_remove(mine, 1) == VBR_YES);
    vbr_give_back(&lender, mine);
    CHECK(vbr_lender_renew(&lender, SLOTS, KEYS, VBR_MAX_EPOCH) == VBR_OK);
}

static int none_is_left(void) {
    vbr_handle *mine[HANDLES];
    int seen = 0;
    for (int i = 0; i < HANDLES; i++) {
        CHECK((mine[i] = vbr_lend(&lender)) != NULL);
        seen |= 1 << (mine[i] - handles);
        CHECK(vbr_lender_on_loan(&lender) == (size_t)i + 1);
    }
    CHECK(seen == (1 << HANDLES) - 1 && vbr_lend(&lender) == NULL && vbr_lend(&lender) == NULL);
    vbr_give_back(&lender, mine[1]);
    CHECK(vbr_lender_on_loan(&lender) == HANDLES - 1);
    CHECK(vbr_lend(&lender) == mine[1] && vbr_lend(&lender) == NULL);
    for (int i = 0; i < HANDLES; i++) vbr_give_back(&lender, mine[i]);
    CHECK(vbr_lender_on_loan(&lender) == 0);
    CHECK(vbr_lend(&lender) == mine[1]); /* the one that this thread had last */
    vbr_give_back(&lender, mine[1]);
    return 1;
}

static void as_many_as_there_are(void) {
    static vbr_handle all[64];
    static vbr_lender of_all;
    CHECK(vbr_lend(&of_all) == NULL);
    CHECK(vbr_lender_init(&of_all, all, 64) == VBR_OK);
    for (int i = 0; i < 64; i++) CHECK(vbr_lend(&of_all) == &all[i]);
    CHECK(vbr_lend(&of_all) == NULL && vbr_lender_on_loan(&of_all) == 64);
    vbr_give_back(&of_all, &all[63]);
    CHECK(vbr_lend(&of_all) == &all[63]);
}

/* A count that is refused changes nothing: a lender whose handles are all lent lends none of them anew. */
static void counts(vbr_lender *lender, vbr_handle *all, vbr_lend_word *words) {
    static const size_t few[] = {0, 65, 100, SIZE_MAX}, many[] = {0, 65537, SIZE_MAX};
    for (int i = 0; i < 4; i++) CHECK(vbr_lender_init(lender, all, few[i]) == VBR_BAD_COUNT && !vbr_lend(lender));
    for (int i = 0; i < 3; i++) CHECK(vbr_lender_init_many(lender, all, many[i], words) == VBR_BAD_COUNT && !vbr_lend(lender));
    CHECK(vbr_lender_init(lender, all, 64) == VBR_OK);
    for (int i = 0; i < 64; i++) CHECK(vbr_lend(lender));
    CHECK(!vbr_lend(lender));
}

/* A set of a hundred handles lends each of them, and is renewed once all are back. */
static void a_crowd(void) {
    enum { CROWD = 100 };
    static vbr_handle crowd[CROWD];
    static vbr_lender of_crowd;
    static vbr_lend_word words[CROWD];
    static const uint64_t none[1];
    vbr_handle *mine[CROWD];
    uint64_t keys[CROWD];
    vbr_report report = {0};
    CHECK(vbr_open_many(crowd, CROWD, CROWD + 64 * CROWD, CROWD, VBR_MAX_EPOCH, none, 0) == VBR_OK);
    CHECK(vbr_lender_init_many(&of_crowd, crowd, CROWD, words) == VBR_OK);
    for (int i = 0; i < CROWD; i++) CHECK((mine[i] = vbr_lend(&of_crowd)) && vbr_insert(mine[i], (uint64_t)(mine[i] - crowd)) == VBR_YES);
    CHECK(!vbr_lend(&of_crowd) && vbr_lender_renew(&of_crowd, CROWD + 64 * CROWD, 1, VBR_MAX_EPOCH) == VBR_IN_USE);
    for (int i = 0; i < CROWD; i++) vbr_give_back(&of_crowd, mine[i]);
    CHECK(!vbr_lend(&of_crowd) && vbr_lender_renew(&of_crowd, CROWD + 64 * CROWD, 1, VBR_MAX_EPOCH) == VBR_OK);
    for (int i = 0; i < CROWD; i++) CHECK((mine[i] = vbr_lend(&of_crowd)) && vbr_buckets(mine[i]) == 1 && vbr_has(mine[i], 99) == VBR_YES);
    CHECK(!vbr_lend(&of_crowd));
    counts(&of_crowd, crowd, words);
    CHECK(vbr_close_all(crowd, CROWD, keys, CROWD, &report) == VBR_YES && report.live == CROWD && keys[99] == 99);
}

int main(int count, char **words) {
    pthread_t threads[THREADS];
    uint64_t keys[KEYS] = {0};
    vbr_report report = {0};
    long calls = 0, lent = 0, refused = 0;
    uint32_t want = 0;
    if (count > 1) rounds = atol(words[1]);
    if (count > 2) fault = atoi(words[2]);
    as_many_as_there_are();
    a_crowd();
    CHECK(vbr_open(handles, HANDLES, SLOTS, KEYS, VBR_MAX_EPOCH) == VBR_OK);
    CHECK(vbr_lender_init(&lender, handles, HANDLES) == VBR_OK);
    CHECK(none_is_left());
    renewals();
    CHECK(none_is_left());
    for (int i = 0; i < THREADS; i++) {
        workers[i].id = i;
        workers[i].random = 88172645463325252u + (uint64_t)i;
        CHECK(!pthread_create(&threads[i], NULL, work, &workers[i]));
    }
    if (!fault) renew_meanwhile();
    __atomic_store_n(&is_renewed, 1, __ATOMIC_RELAXED);
    for (int i = 0; i < THREADS; i++) CHECK(!pthread_join(threads[i], NULL));
    for (int i = 0; i < THREADS; i++) lent += workers[i].lent, refused += workers[i].refused;
    for (int i = 0; i < HANDLES; i++) calls += used[i];
    CHECK(calls == lent && lent >= THREADS * rounds && none_is_left());
    for (int key = 0; key < KEYS; key++) {
        int sum = 0;
        for (int i = 0; i < THREADS; i++) sum += workers[i].balance[key];
        CHECK(sum == 0 || sum == 1);
        CHECK(vbr_has(&handles[0], (uint64_t)key) == (sum ? VBR_YES : VBR_NO));
        want += (uint32_t)sum;
    }
    for (int i = 0; i < HANDLES; i++) CHECK(vbr_close(&handles[i], keys, KEYS, &report) == (i == HANDLES - 1 ? VBR_YES : VBR_NO));
    CHECK(report.live == want);
    printf("lent handles in C: passed, %ld loans, %ld times none was free, %d renewals\n", calls, refused, RENEWALS);
    return 0;
}
