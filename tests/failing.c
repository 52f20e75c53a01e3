/* Stands before malloc: the allocation of the number FAILING fails, and with FAILING_ON all behind it. How many there
   were is written to the file COUNTED. */
#include <stddef.h>
#include <stdio.h>
#include <stdlib.h>

extern void *__libc_malloc(size_t);
extern void *__libc_calloc(size_t, size_t);
extern void *__libc_realloc(void *, size_t);
extern void *__libc_memalign(size_t, size_t);

static long count, at;
static int on;

static int fails(void) {
    count++;
    return at != 0 && (count == at || (on && count > at));
}

__attribute__((constructor)) static void begin(void) {
    const char *text = getenv("FAILING");
    at = text ? atol(text) : 0;
    on = getenv("FAILING_ON") != NULL;
    count = 0;
}

__attribute__((destructor)) static void end(void) {
    const char *name = getenv("COUNTED");
    FILE *file;
    at = 0;
    if (name && (file = fopen(name, "w"))) {
        fprintf(file, "%ld", count);
        fclose(file);
    }
}

void *malloc(size_t size) { return fails() ? NULL : __libc_malloc(size); }

void *calloc(size_t number, size_t size) { return fails() ? NULL : __libc_calloc(number, size); }

void *realloc(void *old, size_t size) { return fails() ? NULL : __libc_realloc(old, size); }

void *aligned_alloc(size_t align, size_t size) { return fails() ? NULL : __libc_memalign(align, size); }

int posix_memalign(void **out, size_t align, size_t size) {
    if (fails())
        return 12;
    *out = __libc_memalign(align, size);
    return *out ? 0 : 12;
}
