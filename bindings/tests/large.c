/* The words of a large set are offered to the kernel for large pages, those of a small one aren't, and where there is no
   memory for them the opening says so. */
#define _POSIX_C_SOURCE 200809L
#include "vbr.h"

#include <stdio.h>
#include <stdlib.h>
#include <string.h>
#include <sys/resource.h>

/* How many kB of this process are advised to lie in large pages, or -1 where the system has none or doesn't tell. */
static long advised(void)
{
    FILE *pages = fopen("/sys/kernel/mm/transparent_hugepage/enabled", "r");
    if (!pages) return -1;
    fclose(pages);
    FILE *maps = fopen("/proc/self/smaps", "r");
    char line[4096];
    long size = 0, all = 0, flags = 0;
    if (!maps) return -1;
    while (fgets(line, sizeof line, maps)) {
        if (sscanf(line, "Size: %ld kB", &size) == 1) continue;
        if (strncmp(line, "VmFlags:", 8) == 0) {
            flags = 1;
            if (strstr(line, " hg")) all += size;
        }
    }
    fclose(maps);
    return flags ? all : -1;
}

static int opens(uint32_t slots, uint32_t buckets, vbr_handle *handle)
{
    return vbr_open(handle, 1, slots, buckets, 1000);
}

static void wants(int is_so, const char *what)
{
    if (is_so) return;
    fprintf(stderr, "large: %s\n", what);
    exit(1);
}

int main(void)
{
    vbr_handle small = {0}, large = {0}, larger = {0};
    wants(opens(1000, 1024, &small) == VBR_OK, "a small set doesn't open");
    long before = advised();
    wants(opens(1 << 20, 1 << 20, &large) == VBR_OK, "a large set doesn't open");
    long after = advised();
    /* 40 bytes for each slot and its bucket: 40 MB, of which the first and the last page may be cut */
    if (before < 0) puts("skipped: large pages, which this system has none of or doesn't tell");
    else {
        wants(before == 0, "a small set is advised to lie in large pages");
        wants(after >= 36 * 1024, "a large set isn't advised to lie in large pages");
    }
    for (uint64_t key = 0; key < 100000; key++) wants(vbr_insert(&large, key * 977) == VBR_YES, "an insert");
    for (uint64_t key = 0; key < 100000; key++) wants(vbr_has(&large, key * 977) == VBR_YES, "a look-up");

    struct rlimit few = {.rlim_cur = 256u << 20, .rlim_max = 256u << 20};
    if (setrlimit(RLIMIT_AS, &few) == 0)
        wants(opens(VBR_MAX_SLOTS, VBR_MAX_BUCKETS, &larger) == VBR_NO_MEMORY, "a set that there is no memory for");
    vbr_drop(&small);
    vbr_drop(&large);
    puts("a large set in large pages: passed");
    return 0;
}
