/* A set of up to 1,024 keys for two threads: the example of vbr.h, and of the README, which has its output too. */
#include "vbr.h"

#include <stdio.h>

int main(void) {
    vbr_handle handle[2] = {{0}};
    vbr_report report = {0};
    uint64_t keys[8] = {0};
    /* handles, count, slots (keys, and 64 for each handle), buckets (as many as keys), last_epoch */
    if (vbr_open(handle, 2, 1024 + 2 * 64, 1024, VBR_MAX_EPOCH) != VBR_OK) return 1;
    vbr_answer added = vbr_insert(&handle[0], 5);       /* VBR_YES: 5 was absent */
    vbr_answer there = vbr_has(&handle[1], 5);          /* VBR_YES, from another thread too */
    vbr_answer first = vbr_close(&handle[0], keys, 8, &report); /* VBR_NO: the other handle is open */
    vbr_answer last = vbr_close(&handle[1], keys, 8, &report);  /* VBR_YES: report.live is 1, keys[0] is 5 */
    if (added != VBR_YES || there != VBR_YES || first != VBR_NO || last != VBR_YES) return 2;
    if (report.live != 1 || keys[0] != 5) return 3;
    printf("5 was added and found; keys that are left: %u\n", (unsigned)report.live);
    return 0;
}
