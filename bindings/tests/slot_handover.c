/* Plain memory beside slots, where one thread alone reads what another published: messages that are handed over without a copy.

       slot_handover [turns [fault]]

   A sender holds a slot, writes the message beside it, and inserts a key by it. Nobody but its receiver looks this key up. The receiver
   reads the message where it is, and then takes the entry out. So nobody writes the message while it is read, though its words are plain:
   what was done before a slot was published comes before what is done by who finds the entry, and what was done before it was taken out
   before what is done by who holds the slot next. Two pairs of threads share the slots.

   ThreadSanitizer is silent on that, and reports each fault: 1, the receiver reads after it took the entry out; 2, the sender writes
   after it published the slot. */
#include "client.h"

enum { PAIRS = 2, THREADS = 2 * PAIRS, SLOTS = 12, WORDS = 16 };

static uint64_t messages[SLOTS][WORDS]; /* one for each slot */
static vbr_handle handle[THREADS];
static uint64_t turns = 20000;
static int fault;

static void write_message(uint32_t slot, uint64_t key) {
    for (int i = 0; i < WORDS; i++) messages[slot][i] = key * WORDS + (uint64_t)i;
}

static void read_message(uint32_t slot, uint64_t key) {
    const volatile uint64_t *from = messages[slot]; /* which are read in any case */
    for (int i = 0; i < WORDS; i++) CHECK(from[i] == key * WORDS + (uint64_t)i || fault);
}

static void *send(void *of) {
    vbr_handle *mine = of;
    uint64_t pair = (uint64_t)(mine - handle) / 2;
    for (uint64_t turn = 0; turn < turns; turn++) {
        uint64_t key = turn * PAIRS + pair;
        uint32_t slot = 0;
        vbr_answer told;
        while ((told = vbr_hold(mine, &slot)) == VBR_NO_SLOT) sched_yield(); /* all are in messages */
        CHECK(told == VBR_YES);
        if (fault != 2) write_message(slot, key);
        CHECK(vbr_insert_held(mine, key) == VBR_YES);
        if (fault == 2) write_message(slot, key);
    }
    vbr_give_slots_back(mine);
    return NULL;
}

static void *receive(void *of) {
    vbr_handle *mine = of;
    uint64_t pair = (uint64_t)(mine - handle) / 2;
    for (uint64_t turn = 0; turn < turns; turn++) {
        uint64_t key = turn * PAIRS + pair;
        vbr_incarnation at = {0, 0, 0};
        vbr_answer told;
        while ((told = vbr_get_entry(mine, key, &at)) == VBR_NO) sched_yield();
        CHECK(told == VBR_YES);
        if (fault != 1) read_message(at.slot, key);
        CHECK(vbr_remove_entry(mine, key, &at) == VBR_YES);
        vbr_give_slots_back(mine); /* the senders want it */
        if (fault == 1) read_message(at.slot, key);
    }
    return NULL;
}

int main(int count, char **words) {
    pthread_t threads[THREADS];
    if (count > 1) turns = strtoull(words[1], NULL, 10);
    if (count > 2) fault = atoi(words[2]);
    CHECK(vbr_open(handle, THREADS, SLOTS, 16, VBR_MAX_EPOCH) == VBR_OK);
    for (int i = 0; i < THREADS; i++) CHECK(!pthread_create(&threads[i], NULL, i % 2 ? receive : send, &handle[i]));
    for (int i = 0; i < THREADS; i++) CHECK(!pthread_join(threads[i], NULL));
    vbr_end_all(handle, THREADS);
    puts("plain memory beside slots, handed over: passed");
    return 0;
}
