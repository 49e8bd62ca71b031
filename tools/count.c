/* Loaded before the C library, it counts a program's requests for memory, and the most bytes that it held at a time.
 *
 * At the end both counts are written to the file that REQUESTS names. A block that was moved counts as one request, and its bytes are those that the C library gave it. */
#define _GNU_SOURCE
#include <dlfcn.h>
#include <fcntl.h>
#include <malloc.h>
#include <stdio.h>
#include <stdlib.h>
#include <unistd.h>

static long asked, held, most;

__attribute__((destructor)) static void end(void) {
    const char *path = getenv("REQUESTS");
    int file = path ? open(path, O_WRONLY | O_CREAT | O_TRUNC, 0600) : -1;
    if (file < 0) return;
    dprintf(file, "%ld %ld\n", asked, most);
    close(file);
}

static void *counted(void *block, long before) {
    if (!block) return NULL;
    asked++;
    held += (long)malloc_usable_size(block) - before;
    if (held > most) most = held;
    return block;
}

void *malloc(size_t size) {
    static void *(*next)(size_t);
    if (!next) next = (void *(*)(size_t))dlsym(RTLD_NEXT, "malloc");
    return counted(next(size), 0);
}

void *calloc(size_t count, size_t size) {
    static void *(*next)(size_t, size_t);
    if (!next) next = (void *(*)(size_t, size_t))dlsym(RTLD_NEXT, "calloc");
    return counted(next(count, size), 0);
}

void *realloc(void *old, size_t size) {
    static void *(*next)(void *, size_t);
    if (!next) next = (void *(*)(void *, size_t))dlsym(RTLD_NEXT, "realloc");
    long before = old ? (long)malloc_usable_size(old) : 0;
    return counted(next(old, size), before);
}

void *aligned_alloc(size_t align, size_t size) {
    static void *(*next)(size_t, size_t);
    if (!next) next = (void *(*)(size_t, size_t))dlsym(RTLD_NEXT, "aligned_alloc");
    return counted(next(align, size), 0);
}

int posix_memalign(void **block, size_t align, size_t size) {
    static int (*next)(void **, size_t, size_t);
    if (!next) next = (int (*)(void **, size_t, size_t))dlsym(RTLD_NEXT, "posix_memalign");
    int fault = next(block, align, size);
    if (!fault) counted(*block, 0);
    return fault;
}

void free(void *block) {
    static void (*next)(void *);
    if (!next) next = (void (*)(void *))dlsym(RTLD_NEXT, "free");
    if (block) held -= (long)malloc_usable_size(block);
    next(block);
}
