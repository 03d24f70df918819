/* Seeds. Keys are spread over the buckets of a set by a seed, and whoever knows it can choose keys that share a bucket. So the plain
   ways to open draw one from the system each time, and a renewal goes on with that of its set. The proved exports are given one
   (vbr_open_seeded, vbr_renew_all_seeded, and those of maps), and these calls stand before them.

   It includes nothing, so that the kit's compiler makes the same bytes of it on every machine. */
typedef unsigned long word;

long getrandom(void *bytes, word count, unsigned flags);
int clock_gettime(int clock, void *now);

word vbr_random_seed(void);

enum { AT_ONCE = 1, SINCE_BOOT = 1 }; /* GRND_NONBLOCK and CLOCK_MONOTONIC of the kernel's interface */

/* Each bit of the result hangs on each bit of x (the last steps of splitmix64, Steele, Lea and Flood 2014). */
static word mixed(word x)
{
    x = (x ^ x >> 30) * 0xBF58476D1CE4E5B9u;
    x = (x ^ x >> 27) * 0x94D049BB133111EBu;
    return x ^ x >> 31;
}

/* Where the kernel has no random number, or refuses the call, the time in nanoseconds and an address of the stack stand for one. */
word vbr_random_seed(void)
{
    word seed = 0, now[2] = {0};
    if (getrandom(&seed, sizeof seed, AT_ONCE) == sizeof seed) return seed;
    clock_gettime(SINCE_BOOT, now);
    return mixed(mixed(now[0] * 1000000000 + now[1]) + (word)&seed);
}

/* What follows is made of bindings/interface/vbr.h.in by tools/interface. */

int vbr_open_seeded(void *handles, word count, unsigned slots, unsigned buckets, word last_epoch, word seed, const word *keys, word key_count);
int vbr_open_many_seeded(void *handles, word count, unsigned slots, unsigned buckets, word last_epoch, word seed, const word *keys, word key_count);
word vbr_seed(const void *handle);
int vbr_renew_all_seeded(void *handles, word count, unsigned slots, unsigned buckets, word last_epoch, word seed);
int vbr_map_open_seeded(void *handles, word count, unsigned slots, unsigned buckets, word last_epoch, word seed, const void *entries, word entry_count);
int vbr_map_open_many_seeded(void *handles, word count, unsigned slots, unsigned buckets, word last_epoch, word seed, const void *entries, word entry_count);
word vbr_map_seed(const void *handle);
int vbr_map_renew_all_seeded(void *handles, word count, unsigned slots, unsigned buckets, word last_epoch, word seed);
int vbr_open(void *handles, word count, unsigned slots, unsigned buckets, word last_epoch);
int vbr_open_with(void *handles, word count, unsigned slots, unsigned buckets, word last_epoch, const word *keys, word key_count);
int vbr_open_many(void *handles, word count, unsigned slots, unsigned buckets, word last_epoch, const word *keys, word key_count);
int vbr_renew_all(void *handles, word count, unsigned slots, unsigned buckets, word last_epoch);
int vbr_map_open(void *handles, word count, unsigned slots, unsigned buckets, word last_epoch);
int vbr_map_open_with(void *handles, word count, unsigned slots, unsigned buckets, word last_epoch, const void *entries, word entry_count);
int vbr_map_open_many(void *handles, word count, unsigned slots, unsigned buckets, word last_epoch, const void *entries, word entry_count);
int vbr_map_renew_all(void *handles, word count, unsigned slots, unsigned buckets, word last_epoch);

int vbr_open(void *handles, word count, unsigned slots, unsigned buckets, word last_epoch)
{
    return vbr_open_seeded(handles, count, slots, buckets, last_epoch, vbr_random_seed(), &(word){0}, 0);
}

int vbr_open_with(void *handles, word count, unsigned slots, unsigned buckets, word last_epoch, const word *keys, word key_count)
{
    return vbr_open_seeded(handles, count, slots, buckets, last_epoch, vbr_random_seed(), keys, key_count);
}

int vbr_open_many(void *handles, word count, unsigned slots, unsigned buckets, word last_epoch, const word *keys, word key_count)
{
    return vbr_open_many_seeded(handles, count, slots, buckets, last_epoch, vbr_random_seed(), keys, key_count);
}

int vbr_renew_all(void *handles, word count, unsigned slots, unsigned buckets, word last_epoch)
{
    return vbr_renew_all_seeded(handles, count, slots, buckets, last_epoch, count ? vbr_seed(handles) : 0);
}

int vbr_map_open(void *handles, word count, unsigned slots, unsigned buckets, word last_epoch)
{
    return vbr_map_open_seeded(handles, count, slots, buckets, last_epoch, vbr_random_seed(), &(word){0}, 0);
}

int vbr_map_open_with(void *handles, word count, unsigned slots, unsigned buckets, word last_epoch, const void *entries, word entry_count)
{
    return vbr_map_open_seeded(handles, count, slots, buckets, last_epoch, vbr_random_seed(), entries, entry_count);
}

int vbr_map_open_many(void *handles, word count, unsigned slots, unsigned buckets, word last_epoch, const void *entries, word entry_count)
{
    return vbr_map_open_many_seeded(handles, count, slots, buckets, last_epoch, vbr_random_seed(), entries, entry_count);
}

int vbr_map_renew_all(void *handles, word count, unsigned slots, unsigned buckets, word last_epoch)
{
    return vbr_map_renew_all_seeded(handles, count, slots, buckets, last_epoch, count ? vbr_map_seed(handles) : 0);
}
