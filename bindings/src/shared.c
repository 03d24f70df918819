/* The memory of a set or a map that processes share. All that the library keeps of it (its words, what its handles know, the boxes and
   the mailboxes of their members) lies in one mapping that is made before the processes are forked. So what a handle owns has one
   address in all of them, and the handle goes from process to process as it goes from thread to thread.

   The library takes its memory by the kit's calls of malloc, realloc and free. In the archive these calls have the names block_taken,
   block_resized and block_freed, which are below. They take blocks from a mapping only while a set is opened or renewed there; a
   block of a mapping goes back to it. No call on a key takes memory, so none comes here. The proved exports vbr_forsake and
   vbr_map_forsake have the names forsake_handle and map_forsake_handle.

   It includes nothing, so that the kit's compiler makes the same bytes of it on every machine. */
typedef unsigned long word;

void *malloc(word size);
void *realloc(void *block, word size);
void free(void *block);
void *memcpy(void *to, const void *from, word size);
void *mmap(void *start, word length, int protection, int flags, int file, long offset);
int munmap(void *start, word length);
int madvise(void *start, word length, int advice);
long pread(int file, void *bytes, word count, long from);

void *block_taken(word size);
void *block_resized(void *block, word size);
void block_freed(void *block);

enum { READ_AND_WRITE = 3, SHARED = 1, ANONYMOUS = 32, NO_RESERVE = 0x4000 }; /* of mmap, in the kernel's interface */
enum { GIVEN_BACK = 9 };                                                    /* MADV_REMOVE: the pages go back to the system */
enum { VBR_OK = 0, VBR_NO = 0, VBR_YES = 1, VBR_NO_HANDLE = -4, VBR_BAD_SHAPE = -6, VBR_BAD_COUNT = -7, VBR_NO_MEMORY = -8, VBR_BAD_KEYS = -10, VBR_NO_ROOM = -11 };
enum { LINE = 64, PAGE = 4096, LARGE = 1 << 20, MAX_SLOTS = 2147483647, MAX_MANY = 65536 };

static const unsigned MAX_BUCKETS = 2147483648; /* of vbr.h, as the numbers above */
static const word MAX_EPOCH = 549755813887;     /* so is this */

/* A handle as vbr.h has it, and as it lies in a mapping, where it has lines of the cache of its own: its mark is stored at each call. */
typedef struct plain {
    void *owned;
    unsigned steps, in_call, opening;
} plain;

typedef struct handle {
    void *owned;
    unsigned steps, in_call, opening;
    word unused[13];
} handle;

/* A block of a mapping: this line, and the bytes behind it. Whoever frees it stores one word, so a process that is killed there
   leaves it taken or free. */
struct block {
    word size;     /* the bytes behind the line: whole lines */
    word is_taken;
    word unused[6];
};

/* What a mapping begins with. */
struct share {
    word size;        /* of the mapping */
    char *top;        /* blocks lie from the end of this line up to here */
    handle *handles;  /* of the set, in a block of the mapping */
    plain *gathered;  /* room for as many side by side */
    word count;
    word is_map;
    word unused[2];
};

/* The mappings that this process knows: those that it inherited, and its own. An entry is never freed, and keeps its size: where its
   mapping is gone, another one of that size may have it. So whoever finds a mapping there has its size, too. */
struct known {
    struct share *share;
    word size;
    struct known *next;
};

static struct known *known_shares;
static _Thread_local struct share *filled; /* the mapping of the set that this thread opens or renews */

static word lines(word size) { return (size + LINE - 1) & ~(word)(LINE - 1); }

/* The mapping that has this place, or none. */
static struct share *share_of(const void *place)
{
    struct known *it = __atomic_load_n(&known_shares, __ATOMIC_ACQUIRE);
    for (; it; it = it->next) {
        struct share *share = __atomic_load_n(&it->share, __ATOMIC_ACQUIRE);
        if (share && (word)place - (word)share < it->size) return share;
    }
    return 0;
}

static int note_share(struct share *share, word size)
{
    struct known *it = __atomic_load_n(&known_shares, __ATOMIC_ACQUIRE);
    for (; it; it = it->next) {
        struct share *none = 0;
        if (it->size == size && __atomic_compare_exchange_n(&it->share, &none, share, 0, __ATOMIC_ACQ_REL, __ATOMIC_RELAXED)) return 1;
    }
    it = malloc(sizeof *it);
    if (!it) return 0;
    *it = (struct known){share, size, __atomic_load_n(&known_shares, __ATOMIC_ACQUIRE)};
    while (!__atomic_compare_exchange_n(&known_shares, &it->next, it, 1, __ATOMIC_ACQ_REL, __ATOMIC_ACQUIRE)) {}
    return 1;
}

static void forget_share(struct share *share)
{
    for (struct known *it = __atomic_load_n(&known_shares, __ATOMIC_ACQUIRE); it; it = it->next)
        if (__atomic_load_n(&it->share, __ATOMIC_ACQUIRE) == share) __atomic_store_n(&it->share, 0, __ATOMIC_RELEASE);
}

static struct block *behind(struct block *block) { return (struct block *)((char *)(block + 1) + block->size); }

/* Takes a free block of at least so many bytes; free neighbours are made one, and what is left over stays free. */
static struct block *found_block(struct share *share, word size)
{
    struct block *end = (struct block *)share->top;
    for (struct block *it = (struct block *)(share + 1); it < end; it = behind(it)) {
        if (__atomic_load_n(&it->is_taken, __ATOMIC_ACQUIRE)) continue;
        while (behind(it) < end && !__atomic_load_n(&behind(it)->is_taken, __ATOMIC_ACQUIRE)) it->size += sizeof *it + behind(it)->size;
        if (it->size < size) continue;
        if (it->size >= size + 2 * LINE) {
            struct block rest = {it->size - size - sizeof rest, 0, {0}};
            it->size = size;
            *behind(it) = rest;
        }
        it->is_taken = 1;
        return it;
    }
    return 0;
}

/* Takes a block of a mapping, or none where there is no room. One thread of one process does so at a time: it opens the set, or has
   all of its handles. Others may give blocks back meanwhile. */
static void *taken_from(struct share *share, word size)
{
    size = lines(size ? size : 1);
    struct block *it = size < LARGE ? 0 : found_block(share, size);
    if (!it && size <= share->size && (word)share->top - (word)share + sizeof *it <= share->size - size) {
        it = (struct block *)share->top;
        *it = (struct block){size, 1, {0}};
        share->top = (char *)behind(it);
    }
    if (!it) it = found_block(share, size);
    return it ? it + 1 : 0;
}

/* Gives a block of a mapping back; the whole pages of a large one go back to the system at once. */
static void given_back(void *bytes)
{
    struct block *it = (struct block *)bytes - 1;
    if (it->size >= LARGE) {
        word first = ((word)bytes + PAGE - 1) & ~(word)(PAGE - 1), last = (word)behind(it) & ~(word)(PAGE - 1);
        madvise((void *)first, last - first, GIVEN_BACK);
    }
    __atomic_store_n(&it->is_taken, 0, __ATOMIC_RELEASE);
}

void *block_taken(word size)
{
    return filled ? taken_from(filled, size) : malloc(size);
}

void block_freed(void *bytes)
{
    if (bytes && __atomic_load_n(&known_shares, __ATOMIC_RELAXED) && share_of(bytes)) given_back(bytes);
    else free(bytes);
}

void *block_resized(void *bytes, word size)
{
    int is_in_share = bytes && __atomic_load_n(&known_shares, __ATOMIC_RELAXED) && share_of(bytes);
    if (!is_in_share && (bytes || !filled)) return realloc(bytes, size);
    word had = bytes ? ((struct block *)bytes - 1)->size : 0;
    if (had >= size && bytes) return bytes;
    void *fresh = block_taken(size);
    if (!fresh) return 0;
    if (bytes) {
        memcpy(fresh, bytes, had);
        given_back(bytes);
    }
    return fresh;
}

/* ---- the calls of vbr_shared.h */

/* What an opening and a renewal of sets, or of maps, are given. */
#define OPENING word count, unsigned slots, unsigned buckets, word last_epoch, const void *items, word item_count
#define RENEWAL void *handles, word count, unsigned slots, unsigned buckets, word last_epoch, word seed

int vbr_open_many_seeded(RENEWAL, const void *keys, word key_count);
int vbr_map_open_many_seeded(RENEWAL, const void *entries, word entry_count);
int renew_keys_seeded(RENEWAL);
int renew_entries_seeded(RENEWAL);
void forsake_handle(void *handle);
void map_forsake_handle(void *handle);
word vbr_seed(void *handle);
word vbr_map_seed(void *handle);
word vbr_random_seed(void);

int vbr_open_shared(handle **handles, OPENING);
int vbr_map_open_shared(handle **handles, OPENING);
int vbr_open_shared_in(int file, handle **handles, OPENING);
int vbr_map_open_shared_in(int file, handle **handles, OPENING);
int vbr_renew_all_seeded(RENEWAL);
int vbr_map_renew_all_seeded(RENEWAL);
int vbr_renew_shared(handle *handles, unsigned slots, unsigned buckets, word last_epoch);
int vbr_inherit(handle *handle);
plain *vbr_gather(handle *handles);
plain *vbr_map_gather(handle *handles);
void vbr_spread(handle *handles);
void vbr_unmap_shared(handle *handles);
word vbr_shared_size(word count, unsigned slots, unsigned buckets);

/* Room for the words four times, as a renewal wants it, for what it lists, and for what handles own. What isn't touched takes no
   memory. */
word vbr_shared_size(word count, unsigned slots, unsigned buckets)
{
    word words = 8 * ((word)buckets + 5 * (word)slots + slots / 64 + 3);
    return (4 * words + 120 * (word)slots + 16384 * count + (1 << 20) + PAGE - 1) & ~(word)(PAGE - 1);
}

/* Moves full handles side by side, for the calls that take all of them. Those that are there already stay there. */
static plain *gather(struct share *share)
{
    for (word i = 0; i < share->count; i++) {
        if (!share->handles[i].owned) continue;
        share->gathered[i] = (plain){share->handles[i].owned, share->handles[i].steps, 0, share->handles[i].opening};
        share->handles[i].owned = 0;
    }
    return share->gathered;
}

/* Moves them back, unless they are empty by now. */
static void spread(struct share *share)
{
    for (word i = 0; i < share->count; i++) {
        if (!share->gathered[i].owned) continue;
        share->handles[i].opening = share->gathered[i].opening;
        share->handles[i].owned = share->gathered[i].owned;
        share->gathered[i].owned = 0;
    }
}

static void unmap(struct share *share)
{
    word size = share->size;
    forget_share(share);
    munmap(share, size);
}

/* Whether so many slots leave room for a last epoch, as vbr_max_epoch of vbr.h says. */
static int is_last_epoch(word last_epoch, unsigned slots)
{
    word most = ~(word)0 >> 1;
    for (; slots > 0; slots >>= 1) most >>= 1;
    return last_epoch > 0 && (last_epoch == MAX_EPOCH || last_epoch <= most);
}

static int is_shape(unsigned slots, unsigned buckets, word last_epoch)
{
    return slots > 0 && slots <= MAX_SLOTS && buckets > 0 && buckets <= MAX_BUCKETS && is_last_epoch(last_epoch, slots);
}

/* Whether the keys of items, so many words apart, ascend and have room. */
static int are_keys(const word *items, word count, word apart, unsigned slots)
{
    if (count > slots) return 0;
    for (word i = 1; i < count; i++)
        if (items[(i - 1) * apart] >= items[i * apart]) return 0;
    return 1;
}

/* Whether a file ends before so many bytes: a process that touches what lies behind its end is ended by a signal. Where the file can't be
   read, the mapping is refused. */
static int is_shorter(int file, word size)
{
    char last;
    return pread(file, &last, 1, (long)(size - 1)) == 0;
}

/* The proved opening makes the same tests; here they come before the mapping, so that they are answered in the order of
   vbr_open_many. */
static int open_in(int kind, int file, word is_map, handle **handles, OPENING)
{
    const word nothing = 0;
    if (!is_shape(slots, buckets, last_epoch)) return VBR_BAD_SHAPE;
    if (count == 0 || count > MAX_MANY) return VBR_BAD_COUNT;
    if (item_count == 0) items = &nothing;
    if (!are_keys(items, item_count, is_map ? 2 : 1, slots)) return VBR_BAD_KEYS;
    word size = vbr_shared_size(count, slots, buckets);
    if (kind != ANONYMOUS && is_shorter(file, size)) return VBR_NO_ROOM;
    struct share *share = mmap(0, size, READ_AND_WRITE, SHARED | NO_RESERVE | kind, file, 0);
    if (share == (void *)-1) return VBR_NO_MEMORY;
    *share = (struct share){.size = size, .top = (char *)(share + 1), .count = count, .is_map = is_map};
    int told = VBR_NO_MEMORY;
    if (note_share(share, size)) {
        share->handles = taken_from(share, count * sizeof(handle));
        share->gathered = taken_from(share, count * sizeof(plain));
        if (share->handles && share->gathered) {
            for (word i = 0; i < count; i++) share->handles[i] = (handle){0}, share->gathered[i] = (plain){0};
            filled = share;
            told = (is_map ? vbr_map_open_many_seeded : vbr_open_many_seeded)(share->gathered, count, slots, buckets, last_epoch, vbr_random_seed(), items, item_count);
            filled = 0;
        }
    }
    if (told == VBR_OK) spread(share);
    if (told == VBR_OK) *handles = share->handles;
    else unmap(share);
    return told;
}

#define OPENS_IN_FILE(name, is_map) \
    int name(int file, handle **handles, OPENING) { return open_in(0, file, is_map, handles, count, slots, buckets, last_epoch, items, item_count); }
#define OPENS(name, is_map) \
    int name(handle **handles, OPENING) { return open_in(ANONYMOUS, -1, is_map, handles, count, slots, buckets, last_epoch, items, item_count); }

OPENS_IN_FILE(vbr_open_shared_in, 0)
OPENS_IN_FILE(vbr_map_open_shared_in, 1)
OPENS(vbr_open_shared, 0)
OPENS(vbr_map_open_shared, 1)

/* Where a process died in a call, the pool of its handle and its hand may be half written: they are given up. */
int vbr_inherit(handle *it)
{
    struct share *share = share_of(it);
    if (!share || !it->owned) return VBR_NO_HANDLE;
    if (!it->in_call) return VBR_YES;
    if (share->is_map) map_forsake_handle(it);
    else forsake_handle(it);
    it->in_call = 0;
    return VBR_NO;
}

/* The proved renewals, whose memory comes from where the handles lie: from their mapping, or from malloc. */
#define RENEWS(name, proved) \
    int name(RENEWAL) \
    { \
        filled = share_of(handles); \
        int told = proved(handles, count, slots, buckets, last_epoch, seed); \
        filled = 0; \
        return told; \
    }

RENEWS(vbr_renew_all_seeded, renew_keys_seeded)
RENEWS(vbr_map_renew_all_seeded, renew_entries_seeded)

int vbr_renew_shared(handle *handles, unsigned slots, unsigned buckets, word last_epoch)
{
    struct share *share = share_of(handles);
    if (!is_shape(slots, buckets, last_epoch)) return VBR_BAD_SHAPE;
    if (!share) return VBR_NO_HANDLE;
    for (word i = 0; i < share->count; i++)
        if (!share->handles[i].owned) return VBR_NO_HANDLE;
    for (word i = 0; i < share->count; i++) vbr_inherit(&share->handles[i]);
    plain *all = gather(share);
    int told = share->is_map ? vbr_map_renew_all_seeded(all, share->count, slots, buckets, last_epoch, vbr_map_seed(all))
                             : vbr_renew_all_seeded(all, share->count, slots, buckets, last_epoch, vbr_seed(all));
    spread(share);
    return told;
}

plain *vbr_gather(handle *handles)
{
    struct share *share = share_of(handles);
    return share && !share->is_map ? gather(share) : 0;
}

plain *vbr_map_gather(handle *handles)
{
    struct share *share = share_of(handles);
    return share && share->is_map ? gather(share) : 0;
}

void vbr_spread(handle *handles)
{
    struct share *share = share_of(handles);
    if (share) spread(share);
}

void vbr_unmap_shared(handle *handles)
{
    struct share *share = share_of(handles);
    if (share) unmap(share);
}
