/* A map whose epoch comes near its last again and again, or is spent: it is renewed each time, by closing it and opening one
   with its entries, so each key keeps its value. tools/interface makes it of bindings/interface/renewal.c.in. */
#include "vbr.h"

#include <stdio.h>

enum { HANDLES = 2, SLOTS = 8, BUCKETS = 4, LAST_EPOCH = 20 };

/* Here all threads stand still. All handles are closed at once. */
static int renew(vbr_map_handle *map, vbr_entry *entries, int *renewals) {
    vbr_report report = {0};
    if (vbr_map_close_all(map, HANDLES, entries, SLOTS, &report) != VBR_YES) return 1;
    ++*renewals;
    return vbr_map_open_with(map, HANDLES, SLOTS, BUCKETS, LAST_EPOCH, entries, report.live) != VBR_OK;
}

/* Stores and takes out many keys, and renews the map in time, or once an insert is refused. */
static int churn(int in_time) {
    vbr_map_handle map[HANDLES] = {{0}};
    vbr_report report = {0};
    vbr_entry entries[SLOTS] = {{0}};
    uint64_t value = 0;
    int renewals = 0;
    if (vbr_map_open(map, HANDLES, SLOTS, BUCKETS, LAST_EPOCH) != VBR_OK) return 1;
    if (vbr_map_insert(&map[1], 5, 70) != VBR_YES) return 2;
    for (uint64_t key = 100; key < 400; key++) {
        if (in_time && vbr_map_epoch(&map[0]) + 1 >= vbr_map_last_epoch(&map[0]) && renew(map, entries, &renewals)) return 3;
        vbr_answer added = vbr_map_insert(&map[0], key, 3 * key);
        if (added == VBR_EPOCH_SPENT) {
            if (in_time || renew(map, entries, &renewals)) return 4;
            added = vbr_map_insert(&map[0], key, 3 * key);
        }
        if (added != VBR_YES || vbr_map_remove(&map[0], key, &value) != VBR_YES) return 5;
        if (value != 3 * key) return 6;
    }
    if (renewals < 10 || vbr_map_get(&map[1], 5, &value) != VBR_YES) return 7;
    if (vbr_map_close_all(map, HANDLES, entries, SLOTS, &report) != VBR_YES || report.live != 1) return 8;
    return entries[0].key == 5 && entries[0].value == 70 ? 0 : 9;
}

int main(void) {
    int status = churn(0);
    if (!status) status = churn(1);
    if (!status) puts("renewal of maps in C: passed");
    return status;
}
