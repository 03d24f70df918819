/* How many keys are in while threads run, by a lender: at rest the number is that of a report, over two renewals with growth and one by
   hand, and in between it lies within the bounds that the threads know.

       counted [ROUNDS]

   Four threads borrow three handles. First each loan adds one key, then each adds one and takes one out, then each takes one out. The set
   is renewed twice while keys are added, each time in a larger shape. One thread asks all the while how many keys are in. */
#include "client.h"
#include "vbr_lend.h"

enum { THREADS = 4, HANDLES = 3, OPENED = 5, MOST = 50000 };
enum { ADDS, ADDS_AND_TAKES, TAKES };

static vbr_handle handles[HANDLES];
static vbr_lender lender;
static uint64_t keys[OPENED + THREADS * MOST];
static long rounds = 5000, begun, done, asked; /* loans that add or take a key out: before they do, and after their return */
static int phase, is_over;

static vbr_handle *borrowed(void) {
    vbr_handle *mine = vbr_lend(&lender);
    for (; !mine; mine = vbr_lend(&lender)) sched_yield();
    return mine;
}

static void *work(void *of) {
    uint64_t first = OPENED + *(const uint64_t *)of * MOST;
    for (uint64_t i = 0; i < (uint64_t)rounds; i++) {
        __atomic_fetch_add(&begun, 1, __ATOMIC_SEQ_CST);
        vbr_handle *mine = borrowed();
        if (phase == ADDS) CHECK(vbr_insert(mine, first + i) == VBR_YES);
        if (phase == ADDS_AND_TAKES) CHECK(vbr_remove(mine, first + i) == VBR_YES && vbr_insert(mine, first + i) == VBR_YES);
        if (phase == TAKES) CHECK(vbr_remove(mine, first + i) == VBR_YES);
        vbr_give_back(&lender, mine);
        __atomic_fetch_add(&done, 1, __ATOMIC_SEQ_CST);
    }
    return NULL;
}

/* Each number lies between the loans that are done before it is asked for, and those that have begun afterwards. */
static void *ask(void *of) {
    long before, after, all = THREADS * rounds;
    while (!__atomic_load_n(&is_over, __ATOMIC_SEQ_CST)) {
        before = __atomic_load_n(&done, __ATOMIC_SEQ_CST);
        int64_t about = vbr_lender_count_about(&lender) - OPENED;
        after = __atomic_load_n(&begun, __ATOMIC_SEQ_CST);
        if (phase == ADDS) CHECK(before <= about && about <= after);
        if (phase == ADDS_AND_TAKES) CHECK(about == all);
        if (phase == TAKES) CHECK(all - after <= about && about <= all - before);
        asked++;
        sched_yield();
    }
    return of;
}

static uint32_t slots_for(long most) {
    return (uint32_t)most + OPENED + 64 * HANDLES;
}

/* Makes the shape larger while threads add keys: by a quarter, and once more. */
static void renew_meanwhile(void) {
    for (int made = 1; made <= 2; made++) {
        vbr_answer renewed;
        while (__atomic_load_n(&done, __ATOMIC_SEQ_CST) < made * THREADS * rounds / 3) sched_yield();
        uint32_t slots = slots_for(THREADS * rounds * (4 + made) / 4);
        while ((renewed = vbr_lender_renew(&lender, slots, slots, VBR_MAX_EPOCH)) == VBR_IN_USE) sched_yield();
        CHECK(renewed == VBR_OK);
    }
}

/* At rest the count is exact, and what a report says, which all handles are borrowed for. */
static void at_rest(long wanted) {
    vbr_handle *mine[HANDLES];
    vbr_report report = {0};
    CHECK(vbr_lender_on_loan(&lender) == 0 && vbr_lender_count_about(&lender) == wanted);
    for (int i = 0; i < HANDLES; i++) mine[i] = borrowed();
    CHECK(vbr_report_all(handles, HANDLES, keys, sizeof keys / sizeof *keys, &report) == VBR_YES && report.live == wanted);
    CHECK(vbr_lender_count_about(&lender) == wanted);
    for (int i = 0; i < HANDLES; i++) vbr_give_back(&lender, mine[i]);
    CHECK(vbr_lender_count_about(&lender) == wanted);
}

static void run(int which, long wanted) {
    pthread_t threads[THREADS], asks;
    uint64_t numbers[THREADS];
    phase = which, begun = done = is_over = 0;
    CHECK(!pthread_create(&asks, NULL, ask, NULL));
    for (uint64_t i = 0; i < THREADS; i++) numbers[i] = i;
    for (int i = 0; i < THREADS; i++) CHECK(!pthread_create(&threads[i], NULL, work, &numbers[i]));
    if (which == ADDS) renew_meanwhile();
    for (int i = 0; i < THREADS; i++) CHECK(!pthread_join(threads[i], NULL));
    __atomic_store_n(&is_over, 1, __ATOMIC_SEQ_CST);
    CHECK(!pthread_join(asks, NULL));
    at_rest(wanted);
}

/* Two renewals at rest, each larger than the one before: no return after them changes the number, whichever handle goes out first. */
static void renewed_at_rest(long wanted) {
    vbr_handle *mine[HANDLES];
    for (int i = 0; i < HANDLES; i++) CHECK((mine[i] = borrowed()) && vbr_insert(mine[i], UINT64_MAX - (uint64_t)i) == VBR_YES);
    for (int i = 0; i < HANDLES; i++) vbr_give_back(&lender, mine[i]);
    for (uint32_t made = 1; made <= 2; made++) {
        uint32_t slots = slots_for(THREADS * rounds) + 64 * made;
        CHECK(vbr_lender_renew(&lender, slots, slots, VBR_MAX_EPOCH) == VBR_OK && vbr_lender_count_about(&lender) == wanted + HANDLES);
        for (int first = 0; first < HANDLES; first++) {
            for (int i = 0; i <= first; i++) mine[i] = borrowed();
            vbr_give_back(&lender, mine[first]);
            CHECK(vbr_lender_count_about(&lender) == wanted + HANDLES);
            for (int i = 0; i < first; i++) vbr_give_back(&lender, mine[i]);
        }
    }
    vbr_handle *last = borrowed();
    for (int i = 0; i < HANDLES; i++) CHECK(vbr_remove(last, UINT64_MAX - (uint64_t)i) == VBR_YES);
    vbr_give_back(&lender, last);
    at_rest(wanted);
}

/* A renewal that isn't the lender's, with keys that come and go before and after it, and a refused one of the lender's. */
static void renewed_by_hand(long wanted) {
    vbr_handle *mine[HANDLES];
    uint32_t slots = slots_for(2 * THREADS * rounds);
    for (int i = 0; i < HANDLES; i++) mine[i] = borrowed();
    CHECK(vbr_insert(mine[0], UINT64_MAX) == VBR_YES && vbr_insert(mine[1], UINT64_MAX - 1) == VBR_YES);
    CHECK(vbr_renew_all(handles, HANDLES, slots, slots, VBR_MAX_EPOCH) == VBR_OK);
    CHECK(vbr_remove(mine[2], UINT64_MAX) == VBR_YES);
    vbr_lender_recount(&lender);
    CHECK(vbr_lender_count_about(&lender) == wanted + 1);
    CHECK(vbr_remove(mine[1], UINT64_MAX - 1) == VBR_YES && vbr_lender_count_about(&lender) == wanted + 1);
    for (int i = 0; i < HANDLES; i++) vbr_give_back(&lender, mine[i]);
    at_rest(wanted);
    CHECK(vbr_lender_renew(&lender, 1, 1, VBR_MAX_EPOCH) == VBR_NO_ROOM);
    at_rest(wanted);
}

int main(int count, char **words) {
    static const uint64_t opened[OPENED] = {0, 1, 2, 3, 4};
    static vbr_lender none;
    vbr_report report = {0};
    if (count > 1) rounds = atol(words[1]);
    CHECK(rounds > 0 && rounds <= MOST && vbr_lender_count_about(&none) == 0);
    uint32_t slots = slots_for(THREADS * rounds);
    CHECK(vbr_open_with(handles, HANDLES, slots, slots, VBR_MAX_EPOCH, opened, OPENED) == VBR_OK);
    CHECK(vbr_lender_init(&lender, handles, HANDLES) == VBR_OK);
    at_rest(OPENED);
    renewed_at_rest(OPENED);
    run(ADDS, OPENED + THREADS * rounds);
    run(ADDS_AND_TAKES, OPENED + THREADS * rounds);
    renewed_by_hand(OPENED + THREADS * rounds);
    run(TAKES, OPENED);
    CHECK(vbr_close_all(handles, HANDLES, keys, OPENED, &report) == VBR_YES && report.live == OPENED);
    printf("keys that a lender counts in C: passed, asked %ld times\n", asked);
    return 0;
}
