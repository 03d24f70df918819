/* Calls of one kind, whose instructions valgrind's callgrind counts: instructions KIND [KEYS BUCKETS]. Without KIND it lists the
   kinds, and makes calls of each. It measures, and claims nothing but that each call answers as it should. bench/instructions makes
   the table.

   A set and a map have so many even keys in so many buckets, 10,000 in 8,192 where they aren't given, with seed 7. They have one handle
   each, so a run is as the one before. What is counted is `measured` with all that it calls: some ten instructions of each call are
   its own. */
#include "vbr.h"
#include "vbr_records.h"

#include <stdio.h>
#include <stdlib.h>
#include <string.h>

#define CHECK(x) do { if (!(x)) { fprintf(stderr, "instructions.c:%d: FAILED: %s\n", __LINE__, #x); exit(1); } } while (0)

enum { KEYS = 10000, BUCKETS = 8192, MORE_SLOTS = 6384, CALLS = 5000, BATCH = 64 };

static uint32_t many = KEYS, buckets = BUCKETS;

static vbr_handle set;
static vbr_map_handle map;
static vbr_cursor cursor;
static vbr_incarnation of_key[2 * KEYS], of_map_key[2 * KEYS], at;
static uint64_t keys[BATCH], key_told, value;
static vbr_answer answers[BATCH];
static vbr_found found[BATCH];
static vbr_entry entry;
static uint32_t slot;

#define OF(name, call) static vbr_answer name(uint64_t key) { (void)key; return call; }
OF(has, vbr_has(&set, key))
OF(next, vbr_next(&set, &cursor, &key_told))
OF(next_at, vbr_next_at(&set, &cursor, &key_told, &at))
OF(insert, vbr_insert(&set, key))
OF(removes, vbr_remove(&set, key))
OF(insert_and_remove, vbr_insert(&set, key) == VBR_YES ? vbr_remove(&set, key) : VBR_NO)
OF(hold, vbr_hold(&set, &slot))
OF(let_go, vbr_let_go(&set))
OF(insert_held, vbr_insert_held(&set, key))
OF(get_entry, vbr_get_entry(&set, key, &at))
OF(is_still, vbr_is_still(&set, &of_key[key]))
OF(remove_entry, vbr_remove_entry(&set, key, &of_key[key]))
OF(map_has, vbr_map_has(&map, key))
OF(map_get, vbr_map_get(&map, key, &value))
OF(map_next, vbr_map_next(&map, &cursor, &entry))
OF(map_next_at, vbr_map_next_at(&map, &cursor, &key_told, &at))
OF(map_insert, vbr_map_insert(&map, key, key))
OF(map_remove, vbr_map_remove(&map, key, &value))
OF(map_insert_and_remove, vbr_map_insert(&map, key, key) == VBR_YES ? vbr_map_remove(&map, key, &value) : VBR_NO)
OF(map_replace, vbr_map_replace(&map, key, key + 1, &value))
OF(map_put, vbr_map_put(&map, key, key + 1, &value))
OF(map_fetch_add, vbr_map_fetch_add(&map, key, 1, &value))
OF(map_get_or_insert, vbr_map_get_or_insert(&map, key, key, &value))
OF(map_compare_exchange, vbr_map_compare_exchange(&map, key, key, key + 1, &value))
OF(map_get_and_exchange, vbr_map_get(&map, key, &value) == VBR_YES ? vbr_map_compare_exchange(&map, key, value, value + 1, &value) : VBR_NO)
OF(map_remove_if, vbr_map_remove_if(&map, key, key, &value))
OF(map_hold, vbr_map_hold(&map, &slot))
OF(map_let_go, vbr_map_let_go(&map))
OF(map_insert_held, vbr_map_insert_held(&map, key, key))
OF(map_put_held, vbr_map_put_held(&map, key, key + 1, &value))
OF(map_replace_held, vbr_map_replace_held(&map, key, &of_map_key[key], key + 1))
OF(map_get_entry, vbr_map_get_entry(&map, key, &at))
OF(map_is_still, vbr_map_is_still(&map, &of_map_key[key]))
OF(map_remove_entry, vbr_map_remove_entry(&map, key, &of_map_key[key]))

static vbr_answer has_all(uint64_t key) {
    (void)key;
    vbr_has_all(&set, keys, BATCH, answers);
    return answers[BATCH - 1];
}

static vbr_answer map_has_all(uint64_t key) {
    (void)key;
    vbr_map_has_all(&map, keys, BATCH, answers);
    return answers[BATCH - 1];
}

static vbr_answer map_get_all(uint64_t key) {
    (void)key;
    vbr_map_get_all(&map, keys, BATCH, found);
    return found[BATCH - 1].answer;
}

/* What is called before a call that is counted, or after it. */
enum beside { NOTHING, HOLDS, MAP_HOLDS, LETS_GO, MAP_LETS_GO };

static const struct kind {
    const char *name;
    vbr_answer (*call)(uint64_t key);
    int odd; /* keys that are absent, where it isn't 0 */
    enum beside beside;
    vbr_answer answer;
} kinds[] = {
    {"has", has, 0, NOTHING, VBR_YES},
    {"has_all of 64", has_all, 0, NOTHING, VBR_YES},
    {"next", next, 0, NOTHING, VBR_YES},
    {"next_at", next_at, 0, NOTHING, VBR_YES},
    {"insert", insert, 1, NOTHING, VBR_YES},
    {"insert of a key that is there", insert, 0, NOTHING, VBR_NO},
    {"remove", removes, 0, NOTHING, VBR_YES},
    {"remove of an absent key", removes, 1, NOTHING, VBR_NO},
    {"insert and remove", insert_and_remove, 1, NOTHING, VBR_YES},
    {"hold", hold, 0, LETS_GO, VBR_YES},
    {"let_go", let_go, 0, HOLDS, VBR_YES},
    {"insert_held", insert_held, 1, HOLDS, VBR_YES},
    {"get_entry", get_entry, 0, NOTHING, VBR_YES},
    {"is_still", is_still, 0, NOTHING, VBR_YES},
    {"remove_entry", remove_entry, 0, NOTHING, VBR_YES},
    {"map_has", map_has, 0, NOTHING, VBR_YES},
    {"map_has_all of 64", map_has_all, 0, NOTHING, VBR_YES},
    {"map_get", map_get, 0, NOTHING, VBR_YES},
    {"map_get_all of 64", map_get_all, 0, NOTHING, VBR_YES},
    {"map_next", map_next, 0, NOTHING, VBR_YES},
    {"map_next_at", map_next_at, 0, NOTHING, VBR_YES},
    {"map_insert", map_insert, 1, NOTHING, VBR_YES},
    {"map_insert of a key that is there", map_insert, 0, NOTHING, VBR_NO},
    {"map_remove", map_remove, 0, NOTHING, VBR_YES},
    {"map_remove of an absent key", map_remove, 1, NOTHING, VBR_NO},
    {"map_insert and map_remove", map_insert_and_remove, 1, NOTHING, VBR_YES},
    {"map_replace", map_replace, 0, NOTHING, VBR_YES},
    {"map_put", map_put, 0, NOTHING, VBR_YES},
    {"map_put of an absent key", map_put, 1, NOTHING, VBR_NO},
    {"map_fetch_add", map_fetch_add, 0, NOTHING, VBR_YES},
    {"map_fetch_add of an absent key", map_fetch_add, 1, NOTHING, VBR_NO},
    {"map_get_or_insert", map_get_or_insert, 0, NOTHING, VBR_YES},
    {"map_get_or_insert of an absent key", map_get_or_insert, 1, NOTHING, VBR_NO},
    {"map_compare_exchange", map_compare_exchange, 0, NOTHING, VBR_YES},
    {"map_get and map_compare_exchange", map_get_and_exchange, 0, NOTHING, VBR_YES},
    {"map_remove_if", map_remove_if, 0, NOTHING, VBR_YES},
    {"map_hold", map_hold, 0, MAP_LETS_GO, VBR_YES},
    {"map_let_go", map_let_go, 0, MAP_HOLDS, VBR_YES},
    {"map_insert_held", map_insert_held, 1, MAP_HOLDS, VBR_YES},
    {"map_put_held", map_put_held, 0, MAP_HOLDS, VBR_YES},
    {"map_replace_held", map_replace_held, 0, MAP_HOLDS, VBR_YES},
    {"map_get_entry", map_get_entry, 0, NOTHING, VBR_YES},
    {"map_is_still", map_is_still, 0, NOTHING, VBR_YES},
    {"map_remove_entry", map_remove_entry, 0, NOTHING, VBR_YES},
};

enum { KINDS = sizeof kinds / sizeof *kinds };

/* Keys in an order that isn't theirs: each once. */
static uint64_t key_of(uint64_t i) { return 2 * (i * 7919 % many); }

static void opens(void) {
    CHECK(vbr_open_seeded(&set, 1, many + MORE_SLOTS, buckets, VBR_MAX_EPOCH, 7, &key_told, 0) == VBR_OK);
    CHECK(vbr_map_open_seeded(&map, 1, many + MORE_SLOTS, buckets, VBR_MAX_EPOCH, 7, &entry, 0) == VBR_OK);
    for (uint64_t i = 0; i < many; i++) {
        uint64_t key = key_of(i);
        CHECK(vbr_insert(&set, key) == VBR_YES && vbr_map_insert(&map, key, key) == VBR_YES);
        CHECK(vbr_get_entry(&set, key, &of_key[key]) == VBR_YES && vbr_map_get_entry(&map, key, &of_map_key[key]) == VBR_YES);
    }
    cursor = (vbr_cursor)VBR_CURSOR_BEGIN;
}

__attribute__((noinline)) vbr_answer measured(const struct kind *kind, uint64_t key);
vbr_answer measured(const struct kind *kind, uint64_t key) { return kind->call(key); }

static void calls(const struct kind *kind) {
    opens();
    for (uint64_t i = 0; i < CALLS; i++) {
        for (uint64_t j = 0; j < BATCH; j++) keys[j] = key_of(BATCH * i + j);
        if (kind->beside == HOLDS) CHECK(vbr_hold(&set, &slot) == VBR_YES);
        if (kind->beside == MAP_HOLDS) CHECK(vbr_map_hold(&map, &slot) == VBR_YES);
        CHECK(measured(kind, key_of(i) + (uint64_t)kind->odd) == kind->answer);
        if (kind->beside == LETS_GO) CHECK(vbr_let_go(&set) == VBR_YES);
        if (kind->beside == MAP_LETS_GO) CHECK(vbr_map_let_go(&map) == VBR_YES);
    }
    vbr_drop(&set);
    vbr_map_drop(&map);
}

int main(int argc, char **argv) {
    if (argc > 3) {
        many = (uint32_t)strtoul(argv[2], NULL, 10);
        buckets = (uint32_t)strtoul(argv[3], NULL, 10);
        CHECK(0 < many && many <= KEYS);
    }
    for (int i = 0; i < KINDS; i++) {
        if (argc < 2) puts(kinds[i].name);
        if (argc < 2 || strcmp(argv[1], kinds[i].name) == 0) calls(&kinds[i]);
    }
    return 0;
}
