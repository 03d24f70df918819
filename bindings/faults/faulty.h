/* The fault of a faulty library (faulty.c and its kin), whose number FAULT names in the environment; and the calls as they are without a
   fault. Those of one kind, of maps with -DOF_MAPS, have names without it: CALL is a call, REAL the one without a fault, and WRAP the one
   with it. WITH names what only calls on maps have. */
#include "vbr_shared.h"

#include <stdatomic.h>
#include <stdlib.h>

static inline int fault(void) {
    static atomic_int number = -1;
    if (atomic_load(&number) < 0) {
        const char *text = getenv("FAULT");
        atomic_store(&number, text ? atoi(text) : 0);
    }
    return atomic_load(&number);
}

/* Whether this is the fault, and its turn has come: once in twenty calls. */
static inline int now(int n) {
    static atomic_uint calls;
    return fault() == n && atomic_fetch_add(&calls, 1) % 20 == 19;
}

#ifdef OF_MAPS
typedef vbr_map_handle a_handle;
typedef vbr_entry an_item;
#define CALL(call) vbr_map_##call
#define REAL(call) __real_vbr_map_##call
#define WRAP(call) __wrap_vbr_map_##call
#define WITH(value) , value
#else
typedef vbr_handle a_handle;
typedef uint64_t an_item;
#define CALL(call) vbr_##call
#define REAL(call) __real_vbr_##call
#define WRAP(call) __wrap_vbr_##call
#define WITH(value)
#endif

/* What follows is made of bindings/interface/vbr.h.in by tools/interface. */

extern __typeof__(vbr_version) __real_vbr_version;
extern __typeof__(vbr_answer_text) __real_vbr_answer_text;
extern __typeof__(vbr_open) __real_vbr_open;
extern __typeof__(vbr_open_with) __real_vbr_open_with;
extern __typeof__(vbr_open_seeded) __real_vbr_open_seeded;
extern __typeof__(vbr_random_seed) __real_vbr_random_seed;
extern __typeof__(vbr_open_many) __real_vbr_open_many;
extern __typeof__(vbr_open_many_seeded) __real_vbr_open_many_seeded;
extern __typeof__(vbr_insert_within) __real_vbr_insert_within;
extern __typeof__(vbr_remove_within) __real_vbr_remove_within;
extern __typeof__(vbr_has_within) __real_vbr_has_within;
extern __typeof__(vbr_has_all_within) __real_vbr_has_all_within;
extern __typeof__(vbr_next_within) __real_vbr_next_within;
extern __typeof__(vbr_epoch) __real_vbr_epoch;
extern __typeof__(vbr_last_epoch) __real_vbr_last_epoch;
extern __typeof__(vbr_slots) __real_vbr_slots;
extern __typeof__(vbr_buckets) __real_vbr_buckets;
extern __typeof__(vbr_seed) __real_vbr_seed;
extern __typeof__(vbr_balance) __real_vbr_balance;
extern __typeof__(vbr_restarts) __real_vbr_restarts;
extern __typeof__(vbr_helps) __real_vbr_helps;
extern __typeof__(vbr_advances) __real_vbr_advances;
extern __typeof__(vbr_free_about) __real_vbr_free_about;
extern __typeof__(vbr_give_slots_back) __real_vbr_spare;
extern __typeof__(vbr_reserve) __real_vbr_reserve;
extern __typeof__(vbr_close) __real_vbr_close;
extern __typeof__(vbr_close_all) __real_vbr_close_all;
extern __typeof__(vbr_report_all) __real_vbr_report_all;
extern __typeof__(vbr_renew_all) __real_vbr_renew_all;
extern __typeof__(vbr_renew_all_seeded) __real_vbr_renew_all_seeded;
extern __typeof__(vbr_drop) __real_vbr_drop;
extern __typeof__(vbr_end_all) __real_vbr_end_all;
extern __typeof__(vbr_map_open) __real_vbr_map_open;
extern __typeof__(vbr_map_open_with) __real_vbr_map_open_with;
extern __typeof__(vbr_map_open_seeded) __real_vbr_map_open_seeded;
extern __typeof__(vbr_map_open_many) __real_vbr_map_open_many;
extern __typeof__(vbr_map_open_many_seeded) __real_vbr_map_open_many_seeded;
extern __typeof__(vbr_map_insert_within) __real_vbr_map_insert_within;
extern __typeof__(vbr_map_remove_within) __real_vbr_map_remove_within;
extern __typeof__(vbr_map_get_within) __real_vbr_map_get_within;
extern __typeof__(vbr_map_replace_within) __real_vbr_map_replace_within;
extern __typeof__(vbr_map_put_within) __real_vbr_map_put_within;
extern __typeof__(vbr_map_fetch_add_within) __real_vbr_map_fetch_add_within;
extern __typeof__(vbr_map_get_or_insert_within) __real_vbr_map_get_or_insert_within;
extern __typeof__(vbr_map_compare_exchange_within) __real_vbr_map_compare_exchange_within;
extern __typeof__(vbr_map_remove_if_within) __real_vbr_map_remove_if_within;
extern __typeof__(vbr_map_has_within) __real_vbr_map_has_within;
extern __typeof__(vbr_map_has_all_within) __real_vbr_map_has_all_within;
extern __typeof__(vbr_map_get_all_within) __real_vbr_map_get_all_within;
extern __typeof__(vbr_map_next_within) __real_vbr_map_next_within;
extern __typeof__(vbr_map_epoch) __real_vbr_map_epoch;
extern __typeof__(vbr_map_last_epoch) __real_vbr_map_last_epoch;
extern __typeof__(vbr_map_slots) __real_vbr_map_slots;
extern __typeof__(vbr_map_buckets) __real_vbr_map_buckets;
extern __typeof__(vbr_map_seed) __real_vbr_map_seed;
extern __typeof__(vbr_map_balance) __real_vbr_map_balance;
extern __typeof__(vbr_map_restarts) __real_vbr_map_restarts;
extern __typeof__(vbr_map_helps) __real_vbr_map_helps;
extern __typeof__(vbr_map_advances) __real_vbr_map_advances;
extern __typeof__(vbr_map_free_about) __real_vbr_map_free_about;
extern __typeof__(vbr_map_give_slots_back) __real_vbr_map_spare;
extern __typeof__(vbr_map_reserve) __real_vbr_map_reserve;
extern __typeof__(vbr_map_close) __real_vbr_map_close;
extern __typeof__(vbr_map_close_all) __real_vbr_map_close_all;
extern __typeof__(vbr_map_report_all) __real_vbr_map_report_all;
extern __typeof__(vbr_map_renew_all) __real_vbr_map_renew_all;
extern __typeof__(vbr_map_renew_all_seeded) __real_vbr_map_renew_all_seeded;
extern __typeof__(vbr_map_drop) __real_vbr_map_drop;
extern __typeof__(vbr_map_end_all) __real_vbr_map_end_all;
extern __typeof__(vbr_hold_within) __real_vbr_hold_within;
extern __typeof__(vbr_map_hold_within) __real_vbr_map_hold_within;
extern __typeof__(vbr_let_go) __real_vbr_let_go;
extern __typeof__(vbr_map_let_go) __real_vbr_map_let_go;
extern __typeof__(vbr_insert_held_within) __real_vbr_insert_held_within;
extern __typeof__(vbr_map_insert_held_within) __real_vbr_map_insert_held_within;
extern __typeof__(vbr_map_replace_held_within) __real_vbr_map_replace_held_within;
extern __typeof__(vbr_map_put_held_within) __real_vbr_map_put_held_within;
extern __typeof__(vbr_get_entry_within) __real_vbr_get_entry_within;
extern __typeof__(vbr_map_get_entry_within) __real_vbr_map_get_entry_within;
extern __typeof__(vbr_is_still) __real_vbr_is_still;
extern __typeof__(vbr_map_is_still) __real_vbr_map_is_still;
extern __typeof__(vbr_remove_entry_within) __real_vbr_remove_entry_within;
extern __typeof__(vbr_map_remove_entry_within) __real_vbr_map_remove_entry_within;
extern __typeof__(vbr_next_at_within) __real_vbr_next_at_within;
extern __typeof__(vbr_map_next_at_within) __real_vbr_map_next_at_within;
extern __typeof__(vbr_report_slots) __real_vbr_report_slots;
extern __typeof__(vbr_map_report_slots) __real_vbr_map_report_slots;
extern __typeof__(vbr_open_shared) __real_vbr_open_shared;
extern __typeof__(vbr_map_open_shared) __real_vbr_map_open_shared;
extern __typeof__(vbr_open_shared_in) __real_vbr_open_shared_in;
extern __typeof__(vbr_map_open_shared_in) __real_vbr_map_open_shared_in;
extern __typeof__(vbr_shared_size) __real_vbr_shared_size;
extern __typeof__(vbr_inherit) __real_vbr_inherit;
extern __typeof__(vbr_renew_shared) __real_vbr_renew_shared;
extern __typeof__(vbr_gather) __real_vbr_gather;
extern __typeof__(vbr_map_gather) __real_vbr_map_gather;
extern __typeof__(vbr_spread) __real_vbr_spread;
extern __typeof__(vbr_unmap_shared) __real_vbr_unmap_shared;
