/* To be preloaded into a program: refuses its allocation number REFUSE, counted from 1, and so many together as TOGETHER
   says (0: all from there on). The file that REFUSED names is made where one is refused. A program that ends by exit
   or _exit leaves in the file that LEFT names how many of its blocks are left. */
#define _GNU_SOURCE
#include <errno.h>
#include <fcntl.h>
#include <stdatomic.h>
#include <stdio.h>
#include <stdlib.h>
#include <sys/syscall.h>
#include <unistd.h>

void *__libc_malloc(size_t size);
void *__libc_calloc(size_t count, size_t size);
void *__libc_realloc(void *block, size_t size);
void __libc_free(void *block);

static atomic_long asked, blocks;
static long first, together; /* first is 0 before the program begins: nothing is refused then */

static long number(const char *name) {
    const char *text = getenv(name);
    return text ? strtol(text, NULL, 10) : 0;
}

__attribute__((constructor)) static void begin(void) {
    atomic_store(&asked, 0);
    together = number("TOGETHER");
    first = number("REFUSE");
}

__attribute__((destructor)) static void end(void) {
    const char *name = getenv("LEFT");
    long left = atomic_load(&blocks);
    first = 0;
    FILE *file = name ? fopen(name, "w") : NULL;
    if (!file) return;
    fprintf(file, "%ld\n", left);
    fclose(file);
}

/* A program that has threads ends so, past the destructors. */
void _exit(int status) {
    end();
    for (;;) syscall(SYS_exit_group, status);
}

static int refuses(void) {
    if (first <= 0) return 0;
    long n = atomic_fetch_add(&asked, 1) + 1;
    if (n < first || (together > 0 && n >= first + together)) return 0;
    const char *name = getenv("REFUSED");
    int file = name ? open(name, O_CREAT | O_WRONLY, 0600) : -1;
    if (file >= 0) close(file);
    errno = ENOMEM; /* the C library itself looks at it, as where it starts a thread */
    return 1;
}

static void *counted(void *block) {
    if (block) atomic_fetch_add(&blocks, 1);
    return block;
}

void *malloc(size_t size) { return refuses() ? NULL : counted(__libc_malloc(size)); }

void *calloc(size_t count, size_t size) { return refuses() ? NULL : counted(__libc_calloc(count, size)); }

void *realloc(void *old, size_t size) {
    if (refuses()) return NULL;
    return old ? __libc_realloc(old, size) : counted(__libc_realloc(old, size));
}

void free(void *block) {
    if (block) atomic_fetch_sub(&blocks, 1);
    __libc_free(block);
}
