/* The heap of a program for nc-run: all memory from the end of the data. */

#include <nc_run.h>
#include "../heap.h"

extern char _end[];

static void find_heap(void) {
    if (!heap) {
        heap = (char *)(((uintptr_t)_end + HEAD - 1) & -(uintptr_t)HEAD);
        heap_end = (char *)(uintptr_t)nc_memory();
    }
}

/* The names by which musl's own functions call these. */
void *__libc_malloc(size_t) __attribute__((alias("malloc")));
void *__libc_calloc(size_t, size_t) __attribute__((alias("calloc")));
void *__libc_realloc(void *, size_t) __attribute__((alias("realloc")));
void __libc_free(void *) __attribute__((alias("free")));
