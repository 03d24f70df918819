/* A map of up to 1,024 keys for two threads: the example of a map in docs/USING.md. */
#include "vbr.h"

#include <stdio.h>

int main(void) {
    vbr_map_handle map[2] = {{0}};
    vbr_report report = {0};
    vbr_entry entries[8] = {{0}};
    uint64_t value = 0, before = 0;
    /* handles, count, slots (keys, and 64 for each handle), buckets (as many as keys), last_epoch */
    if (vbr_map_open(map, 2, 1024 + 2 * 64, 1024, VBR_MAX_EPOCH) != VBR_OK) return 1;
    vbr_answer added = vbr_map_insert(&map[0], 5, 70);  /* VBR_YES: 5 was absent, and now has the value 70 */
    vbr_answer again = vbr_map_insert(&map[1], 5, 71);  /* VBR_NO: 5 keeps its value */
    vbr_answer there = vbr_map_get(&map[1], 5, &value); /* VBR_YES: value is 70 */
    vbr_answer changed = vbr_map_replace(&map[1], 5, 72, &before); /* VBR_YES: before is 70, and 5 has 72 */
    vbr_answer closed = vbr_map_close_all(map, 2, entries, 8, &report); /* VBR_YES: entries[0] is {5, 72} */
    if (added != VBR_YES || again != VBR_NO || there != VBR_YES || changed != VBR_YES || closed != VBR_YES) return 2;
    if (value != 70 || before != 70 || report.live != 1 || entries[0].key != 5 || entries[0].value != 72) return 3;
    puts("example of a map in C: passed");
    return 0;
}
