/* Memory that a program maps: blocks of the heap, on pages of their own. A file is copied when it is mapped. */

#include <fcntl.h>
#include <stdlib.h>
#include <string.h>
#include <sys/mman.h>
#include <sys/stat.h>
#include <unistd.h>
#include "calls.h"

enum { PAGE = 4096 };

typedef struct Map {
    struct Map *next;
    char *at;
    size_t len; /* whole pages */
} Map;
static Map *maps;

/* 0 for no bytes, and for more than there can be. */
static size_t whole_pages(size_t len) { return len + (-len & (PAGE - 1)); }

/* Whether a copy of a file serves. A shared mapping shows what is written later, and a copy doesn't. */
static long may_copy(int file, int how) {
    struct nc_status about;
    long error = nc_status(0, file, 0, &about);
    if (error) return error;
    if ((about.how & O_ACCMODE) == O_WRONLY) return -EACCES;
    return S_ISREG(about.mode) && (how & MAP_TYPE) == MAP_PRIVATE ? 0 : -ENODEV;
}

/* Behind the file's end the bytes stay 0. */
static long copy(int file, char *to, size_t len, long long from) {
    while (len > 0) {
        ssize_t count = pread(file, to, len, from);
        if (count <= 0) return count < 0 ? -errno : 0;
        to += count, from += count, len -= (size_t)count;
    }
    return 0;
}

static long map(size_t len, int rights, int how, int file, unsigned long page) {
    int is_copy = !(how & MAP_ANONYMOUS);
    if (len == 0 || !(how & MAP_TYPE) || how & (MAP_FIXED | MAP_FIXED_NOREPLACE)) return -EINVAL;
    if (rights & PROT_EXEC) return -EPERM;
    long error = is_copy ? may_copy(file, how) : 0;
    if (error) return error;
    size_t all = whole_pages(len);
    Map *made = malloc(sizeof *made);
    char *at = all ? aligned_alloc(PAGE, all) : 0;
    error = made && at ? 0 : -ENOMEM;
    if (!error) memset(at, 0, all);
    if (!error && is_copy) error = copy(file, at, len, (long long)page * PAGE);
    if (error) {
        free(made);
        free(at);
        return error;
    }
    *made = (Map){maps, at, all};
    maps = made;
    return (long)at;
}

/* Mappings go as they came, each whole. */
static long unmap(const char *at, size_t len) {
    Map **place = &maps;
    while (*place && !((*place)->at == at && (*place)->len == whole_pages(len))) place = &(*place)->next;
    Map *gone = *place;
    if (!gone) return -EINVAL;
    *place = gone->next;
    free(gone->at);
    free(gone);
    return 0;
}

long call_of_maps(long number, long a, long b, long c, long d, long e, long f) {
    switch (number) {
    case SYS_mmap2: return map((size_t)b, (int)c, (int)d, (int)e, (unsigned long)f);
    case SYS_munmap: return unmap((const char *)a, (size_t)b);
    default: return -ENOSYS;
    }
}
