// The allocator of the C library, which refuses one allocation: the one with the number that the environment names. Where
// it names a file, the count of allocations is written there at the end.
#include <errno.h>
#include <stdio.h>
#include <stdlib.h>

extern void *__libc_malloc(size_t);
extern void *__libc_calloc(size_t, size_t);
extern void *__libc_realloc(void *, size_t);

static long count;

static int is_refused(void) {
    static long number = -1;
    if (number < 0) {
        const char *named = getenv("REFUSED");
        number = named ? atol(named) : 0;
    }
    if (++count != number)
        return 0;
    errno = ENOMEM;
    return 1;
}

void *malloc(size_t size) { return is_refused() ? NULL : __libc_malloc(size); }
void *calloc(size_t items, size_t size) { return is_refused() ? NULL : __libc_calloc(items, size); }
void *realloc(void *old, size_t size) { return is_refused() ? NULL : __libc_realloc(old, size); }

__attribute__((destructor)) static void write_count(void) {
    const char *file = getenv("COUNTED");
    long counted = count;
    FILE *out = file ? fopen(file, "w") : NULL;
    if (out) {
        fprintf(out, "%ld\n", counted);
        fclose(out);
    }
}
