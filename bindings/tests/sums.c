/* Sums that threads count by vbr_map_fetch_add: no addition is lost, and no two calls find the same value.

       sums [CALLS]

   Four threads make so many calls each on each of two keys. One key is there with five less than 2^64, and the thread of number i adds
   i + 1 to it each time. The other is absent, and each call adds 1 and so draws a ticket: what it found, or 0 if the key was absent. */
#include "client.h"

enum { THREADS = 4, MOST = 1 << 20, SLOTS = 2 + 64 * THREADS, SUM = 5, TICKETS = 7 };

static vbr_map_handle handles[THREADS];
static atomic_uchar drawn[THREADS * MOST];
static long calls = 100000;

static void draw(vbr_map_handle *map) {
    uint64_t ticket = 0;
    vbr_answer told = vbr_map_fetch_add(map, TICKETS, 1, &ticket);
    CHECK(told == (ticket ? VBR_YES : VBR_NO) && ticket < THREADS * (uint64_t)calls && !atomic_exchange(&drawn[ticket], 1));
}

static void *work(void *of) {
    vbr_map_handle *map = of;
    uint64_t delta = (uint64_t)(map - handles) + 1, found = 0;
    for (long i = 0; i < calls; i++) {
        CHECK(vbr_map_fetch_add(map, SUM, delta, &found) == VBR_YES);
        draw(map);
    }
    return NULL;
}

int main(int words, char **word) {
    static const vbr_entry opened[1] = {{SUM, UINT64_MAX - 4}};
    vbr_entry left[2];
    vbr_report report = {0};
    if (words > 1) calls = atol(word[1]);
    CHECK(calls >= 1 && calls <= MOST);
    CHECK(vbr_map_open_with(handles, THREADS, SLOTS, 2, VBR_MAX_EPOCH, opened, 1) == VBR_OK);
    run_threads(THREADS, work, handles, sizeof handles[0]);
    CHECK(vbr_map_close_all(handles, THREADS, left, 2, &report) == VBR_YES && report.live == 2 && report.marked == 0);
    CHECK(left[0].key == SUM && left[0].value == (1 + 2 + 3 + 4) * (uint64_t)calls - 5);
    CHECK(left[1].key == TICKETS && left[1].value == THREADS * (uint64_t)calls);
    printf("sums of %d threads in C: passed, %ld additions\n", THREADS, 2 * THREADS * calls);
    return 0;
}
