/* What it costs to open, close, renew and end a set, in seconds of processor time: costs [large]
   A set of a million keys; with `large` also one of 16,777,215 slots, empty and with sixteen million keys. A renewal by
   hand is a close of all handles and an opening with the keys of the report, and takes no longer than these two do; one by
   vbr_renew_all takes no more than one by hand. To give all handles up takes less than a close, which has a report. All but for a
   margin for what else the machine does, whose noise more rounds take away. */
#include "client.h"

#include <string.h>

enum { HANDLES = 4, ROUNDS = 5, MOST_ROUNDS = 50 };

static double least(double a, double b) { return a < b ? a : b; }

static double worked(void) { return (double)clock() / CLOCKS_PER_SEC; }

static void measure(const char *what, uint32_t slots, uint32_t buckets, uint32_t count) {
    double opening = 1e9, closing = 1e9, renewal = 1e9, ending = 1e9, at_once = 1e9;
    uint64_t *keys = calloc(slots, sizeof *keys), step = UINT64_MAX / (count + 1);
    int is_well = 0;
    CHECK(keys);
    for (int round = 0; round < ROUNDS || (!is_well && round < MOST_ROUNDS); round++) {
        vbr_handle handle[HANDLES] = {{0}};
        vbr_report report = {0};
        for (uint64_t i = 0; i < count; i++) keys[i] = i * step + (i * 0x9E3779B97F4A7C15u >> 20) % step;
        double begun = worked();
        if (count) CHECK(vbr_open_with(handle, HANDLES, slots, buckets, VBR_MAX_EPOCH, keys, count) == VBR_OK);
        else CHECK(vbr_open(handle, HANDLES, slots, buckets, VBR_MAX_EPOCH) == VBR_OK);
        double opened = worked();
        CHECK(vbr_close_all(handle, HANDLES, keys, slots, &report) == VBR_YES && report.live == count);
        double closed = worked();
        CHECK(vbr_open_with(handle, HANDLES, slots, buckets, VBR_MAX_EPOCH, keys, report.live) == VBR_OK);
        double renewed = worked();
        CHECK(vbr_renew_all(handle, HANDLES, slots, buckets, VBR_MAX_EPOCH) == VBR_OK && vbr_balance(&handle[0]) == count);
        double ends = worked();
        at_once = least(at_once, ends - renewed);
        vbr_end_all(handle, HANDLES);
        ending = least(ending, worked() - ends);
        opening = least(opening, opened - begun), closing = least(closing, closed - opened), renewal = least(renewal, renewed - opened);
        is_well = renewal < 3 * (opening + closing) && at_once < 1.5 * renewal && ending < 1.5 * closing;
    }
    free(keys);
    CHECK(is_well);
    printf("%-44s opening %6.3f, closing %6.3f, renewal by hand %6.3f, at once %6.3f, ending %6.3f s\n", what, opening, closing, renewal, at_once, ending);
}

int main(int argc, char **argv) {
    measure("1,048,576 slots and buckets, empty", 1048576, 1048576, 0);
    measure("1,048,576 slots and buckets, 1,000,000 keys", 1048576, 1048576, 1000000);
    if (argc > 1 && !strcmp(argv[1], "large")) {
        measure("16,777,215 slots, empty", 16777215, 16777216, 0);
        measure("16,777,215 slots, 16,000,000 keys", 16777215, 16777216, 16000000);
    }
    puts("costs in C: passed");
    return 0;
}
