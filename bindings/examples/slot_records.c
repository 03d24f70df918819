/* Records beside the slots of a map: accounts of 256 bytes that threads share. Something to begin from.

       slot_records [careless]

   A thread holds a slot, writes the record of that slot, which nobody else writes meanwhile, and makes the slot the node of the account's
   owner. A record isn't changed then. To change an account a thread writes the record of another slot, and puts that slot in the place of
   the entry that it read; to end one it takes out the entry that it read. If that entry is no longer there another thread was faster, and
   it reads again. Nobody frees a record: it goes where its slot goes.

   It does so in a map with room, in one of few slots, where a slot is handed out anew as soon as it is free and almost each hold advances
   the epoch, and in a larger one again. The records are carried over from one to the next.

   The program counts what was paid into each account: it is what the accounts have at the end, and had when they were ended. Each copy
   is whole, and of its owner. A careless reader, which doesn't ask whether the slot is the entry's own still, finds one that isn't. */
#include "vbr_records.h"

#include <pthread.h>
#include <sched.h>
#include <stdio.h>

#define CHECK(x) do { if (!(x)) { fprintf(stderr, "slot_records.c:%d: FAILED: %s\n", __LINE__, #x); exit(1); } } while (0)

enum { THREADS = 4, OWNERS = 16, WIDE = OWNERS + 64 * THREADS, NARROW = OWNERS + THREADS + 1, TURNS = 50000 };

/* An account; the last word is made of the others. */
struct account {
    uint64_t owner, paid, payments, last, reserved[27], seal;
};

static vbr_records accounts; /* one for each slot */
static int is_careless, is_narrow;

static uint64_t seal_of(const struct account *it) {
    uint64_t seal = (it->owner + 1) * 0x9E3779B97F4A7C15u ^ it->paid ^ it->payments << 32 ^ it->last;
    for (int i = 0; i < 27; i++) seal = seal * 31 + it->reserved[i];
    return seal;
}

/* The account of an owner, and its entry, if there is one. */
static int find(vbr_map_handle *map, uint64_t owner, struct account *account, vbr_incarnation *at) {
    vbr_answer there = is_careless ? vbr_map_get_entry(map, owner, at) : vbr_map_records_read(map, &accounts, owner, account, at);
    CHECK(there >= 0);
    if (is_careless && there == VBR_YES) {
        if (at->value % 64 == 0) sched_yield(); /* while others go on */
        vbr_records_copy(&accounts, at->slot, account);
    }
    if (there == VBR_NO) return 0;
    CHECK(account->seal == seal_of(account)); /* or it is a copy of two */
    CHECK(account->owner == owner);           /* or of another one's */
    return 1;
}

/* Holds a slot. Where there are few of them the others may have all that are free, for a moment. */
static uint32_t hold(vbr_map_handle *map) {
    uint32_t slot = 0;
    vbr_answer told;
    while ((told = vbr_map_hold(map, &slot)) == VBR_NO_SLOT && is_narrow) sched_yield();
    CHECK(told == VBR_YES);
    return slot;
}

/* Pays into an account, which begins with the first payment. */
static void pay(vbr_map_handle *map, uint64_t owner, uint64_t amount) {
    uint32_t slot = hold(map);
    for (;;) {
        struct account account = {0}; /* and so it stays where there is none */
        vbr_incarnation at = {0, 0, 0};
        int was_there = find(map, owner, &account, &at);
        account.owner = owner, account.last = amount;
        account.paid += amount, account.payments++;
        for (int i = 0; i < 27; i++) account.reserved[i] = account.paid + (uint64_t)i;
        account.seal = seal_of(&account);
        vbr_records_write(&accounts, slot, &account);
        vbr_answer told = was_there ? vbr_map_replace_held(map, owner, &at, account.paid) : vbr_map_insert_held(map, owner, account.paid);
        CHECK(told >= 0);
        if (told == VBR_YES) return;
    } /* another thread was faster, and the slot is held still */
}

/* Ends an account; what it had. */
static uint64_t end(vbr_map_handle *map, uint64_t owner) {
    struct account account = {0};
    vbr_incarnation at = {0, 0, 0};
    while (find(map, owner, &account, &at)) {
        vbr_answer told = vbr_map_remove_entry(map, owner, &at);
        CHECK(told >= 0 && at.value == account.paid);
        if (told == VBR_YES) return account.paid;
    }
    return 0;
}

static struct worker {
    vbr_map_handle map;
    uint64_t random, paid, ended;
} workers[THREADS];

static void *work(void *of) {
    struct worker *w = of;
    for (long turn = 0; turn < TURNS; turn++) {
        w->random ^= w->random << 13, w->random ^= w->random >> 7, w->random ^= w->random << 17;
        uint64_t x = w->random, owner = (x >> 32) % OWNERS * (x >> 40) % OWNERS; /* some come often */
        struct account seen = {0};
        vbr_incarnation at = {0, 0, 0};
        if (x >> 16 & 1) pay(&w->map, owner, x >> 20 & 15), w->paid += x >> 20 & 15;
        else if ((x >> 16 & 255) == 0) w->ended += end(&w->map, owner);
        else (void)find(&w->map, owner, &seen, &at);
        if (is_narrow) vbr_map_give_slots_back(&w->map); /* the others want what it has */
    }
    return NULL;
}

/* Four threads, for some time. */
static void serve(vbr_map_handle *map) {
    pthread_t threads[THREADS];
    for (int i = 0; i < THREADS; i++) {
        workers[i].map = map[i];
        CHECK(!pthread_create(&threads[i], NULL, work, &workers[i]));
    }
    for (int i = 0; i < THREADS; i++) {
        CHECK(!pthread_join(threads[i], NULL));
        map[i] = workers[i].map;
    }
}

/* What was paid into the accounts, by a walk; it is what was paid in all, less what had left. */
static uint64_t balance(vbr_map_handle *map) {
    vbr_cursor cursor = VBR_CURSOR_BEGIN;
    uint64_t owner = 0, left = 0, paid = 0;
    struct account account = {0};
    vbr_incarnation at = {0, 0, 0};
    vbr_answer told;
    while ((told = vbr_map_records_next(map, &cursor, &accounts, &owner, &account, &at)) == VBR_YES) {
        CHECK(account.seal == seal_of(&account) && account.owner == owner && account.paid == at.value);
        left += account.paid;
    }
    CHECK(told == VBR_NO);
    for (int i = 0; i < THREADS; i++) left += workers[i].ended, paid += workers[i].paid;
    CHECK(paid == left); /* or a payment is lost, or made twice */
    return paid;
}

int main(int count, char **words) {
    vbr_map_handle map[THREADS] = {{0}};
    uint64_t paid, ended = 0;
    is_careless = count > 1 && !strcmp(words[1], "careless");
    CHECK(vbr_map_open(map, THREADS, WIDE, OWNERS, VBR_MAX_EPOCH) == VBR_OK);
    CHECK(vbr_records_open(&accounts, vbr_map_slots(&map[0]), sizeof(struct account), NULL) == VBR_OK);
    for (int i = 0; i < THREADS; i++) workers[i].random = 88172645463325252u + (uint64_t)i;
    serve(map);
    balance(&map[0]);
    CHECK(vbr_map_records_renew_all(map, THREADS, NARROW, OWNERS, VBR_MAX_EPOCH, &accounts, NULL) == VBR_OK);
    is_narrow = 1;
    balance(&map[0]);
    serve(map);
    balance(&map[0]);
    CHECK(vbr_map_records_renew_all(map, THREADS, 2 * WIDE, 2 * OWNERS, VBR_MAX_EPOCH, &accounts, NULL) == VBR_OK);
    is_narrow = 0;
    serve(map);
    paid = balance(&map[0]);
    for (int i = 0; i < THREADS; i++) ended += workers[i].ended;
    CHECK(ended > 0);
    vbr_map_end_all(map, THREADS);
    vbr_records_close(&accounts);
    printf("records of slots in C: passed, %llu paid, of which %llu had left\n", (unsigned long long)paid, (unsigned long long)ended);
    return 0;
}
