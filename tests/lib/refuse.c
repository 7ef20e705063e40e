/* Refuses allocations of a program below which it is loaded (LD_PRELOAD), so that it can be tried what the program does
   then. tests/programs/refused-growths builds it and says by the environment what is wanted:

   REFUSE_NTH     the number of the allocation that is refused, counted from 1; 0 refuses none
   REFUSE_LATER   1 if each later one is refused too
   REFUSE_MARKED  1 if only those are counted that come after the program's second write to standard output and before its
                  third; otherwise all of them are
   REFUSE_REPORT  the number of an open file, to which a line is written for each refusal, and as the program ends a line with
                  the number of allocations that it asked for, and of those that it hasn't given back

   It stands on the C library's own allocator by the names that glibc gives it. So the program that is shipped is tried: the toolchain's own
   way to refuse memory runs a program that isn't proved. */
#include "environment.h"
#include <errno.h>
#include <stdatomic.h>
#include <stdio.h>
#include <sys/syscall.h>
#include <unistd.h>

extern void *__libc_malloc(size_t size);
extern void *__libc_calloc(size_t count, size_t size);
extern void *__libc_realloc(void *old, size_t size);
extern void *__libc_memalign(size_t align, size_t size);
extern void __libc_free(void *old);

static long nth;
static long later;
static long marked;
static long report;
static atomic_long asked;
static atomic_long allocations;
static atomic_long writes;
static atomic_long kept;

__attribute__((constructor)) static void begin(void) {
    later = number("REFUSE_LATER", 0);
    marked = number("REFUSE_MARKED", 0);
    report = number("REFUSE_REPORT", 0);
    nth = number("REFUSE_NTH", 0);
}

/* Whether this allocation is to be refused. */
static int refuses(void) {
    asked++;
    if (nth == 0 || (marked && writes != 2)) return 0;
    long now = ++allocations;
    if (now != nth && !(later && now > nth)) return 0;
    syscall(SYS_write, (int)report, "refused\n", 8);
    errno = ENOMEM;
    return 1;
}

/* Counts an allocation, if there is one. */
static void *counted(void *found) {
    if (found) kept++;
    return found;
}

void *malloc(size_t size) {
    return refuses() ? NULL : counted(__libc_malloc(size));
}

void *calloc(size_t count, size_t size) {
    return refuses() ? NULL : counted(__libc_calloc(count, size));
}

void *realloc(void *old, size_t size) {
    if (refuses()) return NULL;
    void *found = __libc_realloc(old, size);
    return old ? found : counted(found);
}

void free(void *old) {
    if (old) kept--;
    __libc_free(old);
}

void *memalign(size_t align, size_t size) {
    return refuses() ? NULL : counted(__libc_memalign(align, size));
}

void *aligned_alloc(size_t align, size_t size) {
    return memalign(align, size);
}

int posix_memalign(void **place, size_t align, size_t size) {
    void *found = memalign(align, size);
    if (!found) return ENOMEM;
    *place = found;
    return 0;
}

ssize_t write(int file, const void *bytes, size_t count) {
    if (file == STDOUT_FILENO) writes++;
    return syscall(SYS_write, file, bytes, count);
}

/* Says what is kept, as the program ends. */
__attribute__((destructor)) static void end(void) {
    char line[64];
    int length = snprintf(line, sizeof line, "%ld %ld\n", (long)asked, (long)kept);
    syscall(SYS_write, (int)report, line, length);
}

void _exit(int status) {
    end();
    for (;;) syscall(SYS_exit_group, status);
}
