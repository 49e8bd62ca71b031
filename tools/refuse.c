/* Loaded before the C library, it counts a program's requests for memory and refuses one of them, or those that the program means not to make.
 *
 * REFUSE is the number of the request that is refused, counted from 1; with 0 none is, and with `between` each one that is made between the lines.
 * Between a line `ready` on standard output and a line `done` stands a call of which the program means that it asks for nothing, or else that it asks.
 * At the end two lines are written to the file that REQUESTS names: the numbers of all requests, of those between such lines, of how often the one line came and then the other, of how often without a request between them, and of the refused requests that would have made a block no larger; and the number of requests between each two such lines. */
#define _GNU_SOURCE
#include <dlfcn.h>
#include <fcntl.h>
#include <malloc.h>
#include <stdio.h>
#include <stdlib.h>
#include <string.h>
#include <unistd.h>

enum { MOST_PAIRS = 1 << 18 };

static long asked, refused, between, pairs, quiet, before, lessening;
static long counts[MOST_PAIRS];
static int watching, refuses_between;

__attribute__((constructor)) static void start(void) {
    const char *number = getenv("REFUSE");
    refuses_between = number && !strcmp(number, "between");
    refused = number ? atol(number) : 0;
    asked = between = pairs = quiet = lessening = 0;
}

__attribute__((destructor)) static void end(void) {
    const char *path = getenv("REQUESTS");
    int file = path ? open(path, O_WRONLY | O_CREAT | O_TRUNC, 0600) : -1;
    if (file < 0) return;
    dprintf(file, "%ld %ld %ld %ld %ld\n", asked, between, pairs, quiet, lessening);
    for (long i = 0; i < pairs && i < MOST_PAIRS; i++) dprintf(file, "%ld ", counts[i]);
    dprintf(file, "\n");
    close(file);
}

/* A program that gives up writes its numbers too. */
__attribute__((noreturn)) void abort(void) {
    void (*next)(void) = (void (*)(void))dlsym(RTLD_NEXT, "abort");
    end();
    if (next) next();
    _exit(134);
}

static int is_refused(void) {
    asked++;
    between += watching;
    return asked == refused || (watching && refuses_between);
}

void *malloc(size_t size) {
    static void *(*next)(size_t);
    if (!next) next = (void *(*)(size_t))dlsym(RTLD_NEXT, "malloc");
    return is_refused() ? NULL : next(size);
}

void *realloc(void *old, size_t size) {
    static void *(*next)(void *, size_t);
    if (!next) next = (void *(*)(void *, size_t))dlsym(RTLD_NEXT, "realloc");
    if (!is_refused()) return next(old, size);
    lessening += old && size <= malloc_usable_size(old);
    return NULL;
}

/* A line comes in one write, as the language writes it. The watch begins behind the first line, and ends before the other. */
static ssize_t watched(ssize_t (*next)(int, const void *, size_t), int file, const void *text, size_t length) {
    if (file != STDOUT_FILENO) return next(file, text, length);
    if (watching && length == 5 && !memcmp(text, "done\n", 5)) {
        watching = 0;
        if (pairs < MOST_PAIRS) counts[pairs] = between - before;
        pairs++;
        quiet += between == before;
    }
    ssize_t written = next(file, text, length);
    if (length == 6 && !memcmp(text, "ready\n", 6)) {
        watching = 1;
        before = between;
    }
    return written;
}

ssize_t write(int file, const void *text, size_t length) {
    static ssize_t (*next)(int, const void *, size_t);
    if (!next) next = (ssize_t (*)(int, const void *, size_t))dlsym(RTLD_NEXT, "write");
    return watched(next, file, text, length);
}

ssize_t __write(int file, const void *text, size_t length) {
    return write(file, text, length);
}
