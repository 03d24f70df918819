/* Four threads that ask one handle for its numbers at the same time, while it is in no other call.

       asked [ROUNDS [FAULT]]

   With FAULT 1 one of them looks a key up by it meanwhile: a program that is wrong, for ThreadSanitizer to find. */
#include "client.h"

enum { THREADS = 4, SLOTS = 8 + 64, BUCKETS = 8 };

static vbr_handle handle = {.steps = 5000};
static long rounds = 10000;

static void *ask(void *looks_up) {
    const vbr_handle *asked = &handle;
    for (long round = 0; round < rounds; round++) {
        CHECK(vbr_slots(asked) == SLOTS && vbr_buckets(asked) == BUCKETS && vbr_epoch(asked) == 1);
        CHECK(vbr_last_epoch(asked) == VBR_MAX_EPOCH && vbr_seed(asked) == 7 && vbr_balance(asked) == 3 && vbr_steps_of(asked) == 5000);
        if (looks_up) CHECK(vbr_has(&handle, 5) == VBR_YES);
    }
    return NULL;
}

int main(int count, char **words) {
    static const uint64_t some[3] = {2, 5, 9};
    pthread_t threads[THREADS];
    if (count > 1) rounds = atol(words[1]);
    CHECK(vbr_open_seeded(&handle, 1, SLOTS, BUCKETS, VBR_MAX_EPOCH, 7, some, 3) == VBR_OK);
    for (int i = 0; i < THREADS; i++) CHECK(!pthread_create(&threads[i], NULL, ask, count > 2 && i == 0 ? words[2] : NULL));
    for (int i = 0; i < THREADS; i++) CHECK(!pthread_join(threads[i], NULL));
    vbr_end_all(&handle, 1);
    CHECK(vbr_slots(&handle) == 0 && vbr_steps_of(&handle) == 5000);
    printf("numbers of a handle that threads ask for at the same time, in C: passed, %ld times\n", THREADS * rounds);
    return 0;
}
