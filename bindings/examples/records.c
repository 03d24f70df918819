/* Records beside a map, for values larger than 64 bits: accounts that threads share. Something to begin from.

       records [careless]

   The value of a key says where its record is, in an array of fixed memory, and of which generation: an index and a number. A record
   is written once, before its value is in the map, and isn't changed then. To change an account a thread writes another record and
   puts it in the place of the first by compare_exchange; to end one it takes the key out by remove_if. Whoever is answered VBR_YES has
   the old record for itself, and frees it. A record that is used again has another generation, so no value comes twice.

   Who reads a record copies it, and then sees whether it still has the generation of the value. If not, it was used again meanwhile,
   so the key has another value by now, or is gone: the reader gets it again. No reader holds anybody up.

   The program counts what was paid into each account: it is what the accounts have at the end, and had when they were ended. No copy
   is of two records. A careless reader, which doesn't compare the generation, finds one that is. */
#include "vbr.h"

#include <pthread.h>
#include <stdatomic.h>
#include <stdio.h>
#include <stdlib.h>
#include <string.h>

#define CHECK(x) do { if (!(x)) { fprintf(stderr, "records.c:%d: FAILED: %s\n", __LINE__, #x); exit(1); } } while (0)

enum { THREADS = 4, KEYS = 16, RECORDS = KEYS + THREADS, SLOTS = KEYS + 64 * THREADS, TURNS = 100000 };

/* What an account has, as the program sees it; the last word is made of the others. */
struct account {
    uint64_t owner, paid, payments, last, reserved[27], seal;
};
enum { WORDS = sizeof(struct account) / sizeof(uint64_t) };

/* A record, whose words a reader may load while a thread writes the next account there. */
static struct record {
    _Atomic uint32_t generation, next; /* of the free ones: the index of the next, plus 1 */
    _Atomic uint64_t words[WORDS];
} records[RECORDS];

static _Atomic uint64_t free_records; /* the index of the first one, plus 1; above, how often it changed */
static int is_careless;

static uint64_t seal_of(const struct account *it) { return (it->owner + 1) * 0x9E3779B97F4A7C15u ^ it->paid ^ it->payments << 32 ^ it->last; }

static void give_record(uint32_t index) {
    uint64_t first = atomic_load(&free_records);
    do atomic_store(&records[index].next, (uint32_t)first);
    while (!atomic_compare_exchange_weak(&free_records, &first, ((first >> 32) + 1) << 32 | (index + 1)));
}

static uint32_t take_record(void) {
    uint64_t first = atomic_load(&free_records);
    do CHECK((uint32_t)first); /* there is one for each key, and one for each thread */
    while (!atomic_compare_exchange_weak(&free_records, &first, ((first >> 32) + 1) << 32 | atomic_load(&records[(uint32_t)first - 1].next)));
    return (uint32_t)first - 1;
}

/* Writes an account into a record that is free, and gives the value that says where it is. */
static uint64_t written(const struct account *account) {
    uint64_t words[WORDS];
    uint32_t index = take_record();
    struct record *it = &records[index];
    uint32_t generation = atomic_load_explicit(&it->generation, memory_order_relaxed) + 1;
    memcpy(words, account, sizeof words);
    atomic_store_explicit(&it->generation, generation, memory_order_relaxed);
    for (int i = 0; i < WORDS; i++) atomic_store_explicit(&it->words[i], words[i], memory_order_release); /* who reads one sees the generation */
    return (uint64_t)generation << 32 | index;
}

/* Copies the account that a value names; whether it was still that one. */
static int read_account(uint64_t value, struct account *account) {
    uint64_t words[WORDS];
    struct record *it = &records[(uint32_t)value];
    for (int i = 0; i < WORDS; i++) words[i] = atomic_load_explicit(&it->words[i], memory_order_acquire);
    if (!is_careless && atomic_load_explicit(&it->generation, memory_order_relaxed) != value >> 32) return 0;
    memcpy(account, words, sizeof words);
    CHECK(account->seal == seal_of(account)); /* or it is a copy of two */
    return 1;
}

/* The account of an owner, and the value that names it, if there is one. */
static int find(vbr_map_handle *map, uint64_t owner, struct account *account, uint64_t *value) {
    for (;;) {
        vbr_answer there = vbr_map_get(map, owner, value);
        CHECK(there >= 0);
        if (there == VBR_NO) return 0;
        if (read_account(*value, account)) return 1;
    }
}

/* Pays into an account, which begins with the first payment. */
static void pay(vbr_map_handle *map, uint64_t owner, uint64_t amount) {
    for (;;) {
        struct account account = {.owner = owner};
        uint64_t before = 0;
        int was_there = find(map, owner, &account, &before);
        account.paid += amount, account.payments++, account.last = amount;
        account.seal = seal_of(&account);
        uint64_t after = written(&account);
        vbr_answer told = was_there ? vbr_map_compare_exchange(map, owner, before, after, NULL) : vbr_map_insert(map, owner, after);
        CHECK(told >= 0);
        if (told == VBR_YES) {
            if (was_there) give_record((uint32_t)before);
            return;
        }
        give_record((uint32_t)after); /* another thread was faster */
    }
}

/* Ends an account; what it had. */
static uint64_t end(vbr_map_handle *map, uint64_t owner) {
    struct account account = {0};
    uint64_t value = 0;
    while (find(map, owner, &account, &value)) {
        vbr_answer told = vbr_map_remove_if(map, owner, value, NULL);
        CHECK(told >= 0);
        if (told != VBR_YES) continue; /* it was paid into since, or is gone */
        give_record((uint32_t)value);
        return account.paid;
    }
    return 0;
}

static struct worker {
    vbr_map_handle map;
    uint64_t random, paid, ended;
} workers[THREADS];

static void *work(void *of) {
    struct worker *w = of;
    for (long turn = 0; turn < TURNS; turn++) {
        w->random ^= w->random << 13, w->random ^= w->random >> 7, w->random ^= w->random << 17;
        uint64_t x = w->random, owner = (x >> 32) % KEYS * (x >> 40) % KEYS, value; /* some come often */
        struct account seen = {0};
        if (x >> 16 & 1) pay(&w->map, owner, x >> 20 & 15), w->paid += x >> 20 & 15;
        else if ((x >> 16 & 255) == 0) w->ended += end(&w->map, owner);
        else if (find(&w->map, owner, &seen, &value)) CHECK(seen.owner == owner);
    }
    return NULL;
}

int main(int count, char **words) {
    pthread_t threads[THREADS];
    vbr_map_handle map[THREADS] = {{0}};
    vbr_entry entries[KEYS] = {{0, 0}};
    vbr_report report = {0};
    uint64_t paid = 0, ended = 0, left = 0;
    is_careless = count > 1 && !strcmp(words[1], "careless");
    for (uint32_t i = 0; i < RECORDS; i++) give_record(i);
    CHECK(vbr_map_open(map, THREADS, SLOTS, KEYS, VBR_MAX_EPOCH) == VBR_OK);
    for (int i = 0; i < THREADS; i++) {
        workers[i] = (struct worker){.map = map[i], .random = 88172645463325252u + (uint64_t)i};
        CHECK(!pthread_create(&threads[i], NULL, work, &workers[i]));
    }
    for (int i = 0; i < THREADS; i++) {
        CHECK(!pthread_join(threads[i], NULL));
        map[i] = workers[i].map, paid += workers[i].paid, ended += workers[i].ended;
    }
    CHECK(vbr_map_close_all(map, THREADS, entries, KEYS, &report) == VBR_YES);
    for (uint32_t i = 0; i < report.live; i++) {
        struct account account = {0};
        CHECK(read_account(entries[i].value, &account) && account.owner == entries[i].key);
        left += account.paid;
        give_record((uint32_t)entries[i].value);
    }
    CHECK(paid == left + ended && ended > 0); /* or a payment is lost, or made twice */
    for (int i = 0; i < RECORDS; i++) take_record();
    CHECK(!(uint32_t)atomic_load(&free_records)); /* or a record is lost, or free twice */
    printf("records beside a map in C: passed, %llu paid, of which %llu had left\n", (unsigned long long)paid, (unsigned long long)ended);
    return 0;
}
