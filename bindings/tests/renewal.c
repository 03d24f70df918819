/* A set whose epoch comes near its last again and again, or is spent: it is renewed each time, by closing it and opening one
   with its keys. tools/interface makes it of bindings/interface/renewal.c.in. */
#include "vbr.h"

#include <stdio.h>

enum { HANDLES = 2, SLOTS = 8, BUCKETS = 4, LAST_EPOCH = 20 };

/* Here all threads stand still. The last of the handles gets the keys. */
static int renew(vbr_handle *handle, uint64_t *keys, int *renewals) {
    vbr_report report = {0};
    vbr_answer last = VBR_NO;
    for (int i = 0; i < HANDLES; i++) last = vbr_close(&handle[i], keys, SLOTS, &report);
    if (last != VBR_YES) return 1;
    ++*renewals;
    return vbr_open_with(handle, HANDLES, SLOTS, BUCKETS, LAST_EPOCH, keys, report.live) != VBR_OK;
}

/* Inserts and removes many keys, and renews the set in time, or once an insert is refused. */
static int churn(int in_time) {
    vbr_handle handle[HANDLES] = {{0}};
    vbr_report report = {0};
    uint64_t keys[SLOTS] = {0};
    int renewals = 0;
    if (vbr_open(handle, HANDLES, SLOTS, BUCKETS, LAST_EPOCH) != VBR_OK) return 1;
    if (vbr_insert(&handle[1], 5) != VBR_YES) return 2;
    for (uint64_t key = 100; key < 400; key++) {
        if (in_time && vbr_epoch(&handle[0]) + 1 >= vbr_last_epoch(&handle[0]) && renew(handle, keys, &renewals)) return 3;
        vbr_answer added = vbr_insert(&handle[0], key);
        if (added == VBR_EPOCH_SPENT) {
            if (in_time || renew(handle, keys, &renewals)) return 4;
            added = vbr_insert(&handle[0], key);
        }
        if (added != VBR_YES || vbr_remove(&handle[0], key) != VBR_YES) return 5;
    }
    if (renewals < 10 || vbr_has(&handle[1], 5) != VBR_YES) return 7;
    if (vbr_close_all(handle, HANDLES, keys, SLOTS, &report) != VBR_YES || report.live != 1) return 8;
    return keys[0] == 5 ? 0 : 9;
}

int main(void) {
    int status = churn(0);
    if (!status) status = churn(1);
    if (!status) puts("renewal in C: passed");
    return status;
}
