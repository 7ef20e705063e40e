/* A heap for the one thread of a program: malloc and its kin, in the range from `heap` to `heap_end`. What includes this defines
   `find_heap`, which malloc calls first and which may set the two. */

#include <errno.h>
#include <stdint.h>
#include <stdlib.h>
#include <string.h>

/* A block is 16 << k bytes. 16 bytes before the place that malloc gives are k and the beginning of the block; in a free one, the next. */
enum { HEAD = 16, SIZES = 26 };
typedef struct Block {
    unsigned k;
    struct Block *block;
} Block;

static Block *freed[SIZES];
static char *heap, *heap_end;
static void find_heap(void);

static size_t size_of(unsigned k) { return (size_t)HEAD << k; }

static Block *head_of(void *at) { return (Block *)((char *)at - HEAD); }

void *malloc(size_t len) {
    unsigned k = 0;
    Block *block;
    find_heap();
    while (k < SIZES && len > size_of(k) - HEAD) {
        k++;
    }
    if (k < SIZES && freed[k]) {
        block = freed[k];
        freed[k] = block->block;
    } else if (k < SIZES && size_of(k) <= (size_t)(heap_end - heap)) {
        block = (Block *)heap;
        heap += size_of(k);
    } else {
        errno = ENOMEM;
        return 0;
    }
    block->k = k;
    block->block = block;
    return (char *)block + HEAD;
}

void free(void *at) {
    if (at) {
        Block *block = head_of(at)->block;
        block->block = freed[block->k];
        freed[block->k] = block;
    }
}

/* Zeros explicitly: a block may have been used before. */
void *calloc(size_t count, size_t len) {
    unsigned long long all = (unsigned long long)count * len;
    void *at = all >> 32 ? 0 : malloc((size_t)all);
    if (all >> 32) {
        errno = ENOMEM;
    }
    return at ? memset(at, 0, (size_t)all) : 0;
}

size_t malloc_usable_size(void *at) { return at ? (size_t)((char *)head_of(at)->block + size_of(head_of(at)->block->k) - (char *)at) : 0; }

void *realloc(void *old, size_t len) {
    size_t had = malloc_usable_size(old);
    void *at = len > had || !old ? malloc(len) : old;
    if (old && at && at != old) {
        memcpy(at, old, had);
        free(old);
    }
    return at;
}

/* A place further on in a larger block, with a head of its own. */
void *aligned_alloc(size_t align, size_t len) {
    char *at, *aligned;
    if (align & (align - 1) || align > SIZE_MAX - len) {
        errno = align & (align - 1) ? EINVAL : ENOMEM;
        return 0;
    }
    at = malloc(align > HEAD ? len + align : len);
    if (!at || align <= HEAD) {
        return at;
    }
    aligned = (char *)(((uintptr_t)at + align - 1) & -align);
    *head_of(aligned) = *head_of(at);
    return aligned;
}
