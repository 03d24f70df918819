/* The memory of a large set in large pages, on Linux. The library takes its memory by the kit's call of malloc, rattle_alloc;
   in the archive that call has the name malloc_block, and this one stands before it. A set's words are one block, and a call
   on a large set waits for memory twice where they lie in pages of 4 kB: for the word, and for the page's own entry. So a
   block that has whole large pages in it is offered to the kernel for those. That is advice: it may be refused, and then all
   is as before. The block stays malloc's, and goes to realloc and free as ever.

   It includes nothing, so that the kit's compiler makes the same bytes of it on every machine. */
typedef unsigned long word;

/* The kit's answer: whether there was memory, and where. */
struct block {
    word is_there;
    void *bytes;
};

struct block malloc_block(word size, word align);
struct block rattle_alloc(word size, word align);
int madvise(void *start, word length, int advice);

enum { HUGE_PAGES = 14 }; /* MADV_HUGEPAGE of the kernel's interface */

static const word LARGE_PAGE = 1ul << 21;

static word border_below(word address) { return address & ~(LARGE_PAGE - 1); }

struct block rattle_alloc(word size, word align)
{
    struct block block = malloc_block(size, align);
    if (block.is_there && size >= 2 * LARGE_PAGE) {
        word start = (word)block.bytes;
        word first = border_below(start + LARGE_PAGE - 1);
        madvise((void *)first, border_below(start + size) - first, HUGE_PAGES);
    }
    return block;
}
