/* An allocator that refuses one allocation, to be preloaded before the C library's.

   REFUSALS_AT    the number of the allocation that is refused, counted from 1; 0 refuses none
   REFUSALS_ALL   where it is set, all later ones are refused, too
   REFUSALS_TOLD  a file, to which the number of allocations is written when the program ends

   bench/refusals.py builds it and says how. */
#define _GNU_SOURCE
#include <dlfcn.h>
#include <errno.h>
#include <fcntl.h>
#include <stddef.h>
#include <stdio.h>
#include <stdlib.h>
#include <unistd.h>

static unsigned long count, at;
static int is_all, is_ready;

/* What is allocated while the next allocator is looked for. */
static _Alignas(16) char early[65536];
static size_t early_used;

static void *(*next_malloc)(size_t);
static void *(*next_calloc)(size_t, size_t);
static void *(*next_realloc)(void *, size_t);
static void *(*next_aligned)(size_t, size_t);
static int (*next_memalign)(void **, size_t, size_t);
static void (*next_free)(void *);

static int is_early(const void *place) {
    return (const char *)place >= early && (const char *)place < early + sizeof early;
}

static void *from_early(size_t size) {
    size_t used = early_used;
    size = (size + 15) & ~(size_t)15;
    if (size > sizeof early - used) return NULL;
    early_used = used + size;
    return early + used;
}

__attribute__((constructor)) static void begin(void) {
    next_malloc = (void *(*)(size_t))dlsym(RTLD_NEXT, "malloc");
    next_calloc = (void *(*)(size_t, size_t))dlsym(RTLD_NEXT, "calloc");
    next_realloc = (void *(*)(void *, size_t))dlsym(RTLD_NEXT, "realloc");
    next_aligned = (void *(*)(size_t, size_t))dlsym(RTLD_NEXT, "aligned_alloc");
    next_memalign = (int (*)(void **, size_t, size_t))dlsym(RTLD_NEXT, "posix_memalign");
    next_free = (void (*)(void *))dlsym(RTLD_NEXT, "free");
    const char *text = getenv("REFUSALS_AT");
    at = text ? strtoul(text, NULL, 10) : 0;
    is_all = getenv("REFUSALS_ALL") != NULL;
    is_ready = 1;
}

__attribute__((destructor)) static void end(void) {
    char digits[32];
    const char *name = getenv("REFUSALS_TOLD");
    int file = name ? open(name, O_WRONLY | O_CREAT | O_TRUNC, 0600) : -1;
    is_ready = 0;
    if (file < 0) return;
    int length = snprintf(digits, sizeof digits, "%lu\n", count);
    if (write(file, digits, (size_t)length) < 0) _exit(99);
    close(file);
}

/* Counts an allocation, and answers whether it is refused. */
static int is_refused(void) {
    if (!is_ready) return 0;
    count++;
    if (at == 0 || count < at || (count > at && !is_all)) return 0;
    errno = ENOMEM;
    return 1;
}

void *malloc(size_t size) {
    if (is_refused()) return NULL;
    return next_malloc ? next_malloc(size) : from_early(size);
}

void *calloc(size_t items, size_t size) {
    if (is_refused()) return NULL;
    if (next_calloc) return next_calloc(items, size);
    return items == 0 || size <= sizeof early / items ? from_early(items * size) : NULL;
}

void *realloc(void *place, size_t size) {
    if (is_refused()) return NULL;
    return next_realloc ? next_realloc(place, size) : from_early(size);
}

void *aligned_alloc(size_t alignment, size_t size) {
    if (is_refused()) return NULL;
    return next_aligned ? next_aligned(alignment, size) : NULL;
}

int posix_memalign(void **place, size_t alignment, size_t size) {
    if (is_refused()) return ENOMEM;
    return next_memalign ? next_memalign(place, alignment, size) : ENOMEM;
}

void free(void *place) {
    if (place && !is_early(place) && next_free) next_free(place);
}
