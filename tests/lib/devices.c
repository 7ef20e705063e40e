/* Lets a program below which it is loaded (LD_PRELOAD) read and write only a few bytes at a time on its standard input and output,
   and has one of these reads or writes fail. tests/programs/failing-devices builds it and says by the environment what is wanted:

   FAILING_SIZE   how many bytes one call moves at most
   FAILING_FILE   the file of which a call fails: 0, 1, or another number for none
   FAILING_CALL   the number of the call that fails, counted from 1. It moves nothing, and those after it go on
   FAILING_ERROR  its error, as in errno; 0 has a write answer that it took nothing
   FAILING_REPORT the number of an open file, to which a byte is written when that call comes
   STARTED_REPORT the number of an open file, to which a byte is written for each thread that the program starts
   OPENED_REPORT  the number of an open file, to which a byte is written for each file that the program opens
   WRITES_REPORT  the number of an open file, to which a byte is written for each write to standard output */
#define _GNU_SOURCE
#include "environment.h"
#include <dlfcn.h>
#include <errno.h>
#include <fcntl.h>
#include <pthread.h>
#include <stdarg.h>
#include <sys/syscall.h>
#include <unistd.h>

static long failing = -1;
static size_t size = 1;
static long calls_to_it;
static long error;
static long report;
static long calls;
static long started;
static long opened;
static long writes;

__attribute__((constructor)) static void begin(void) {
    calls_to_it = number("FAILING_CALL", -1);
    error = number("FAILING_ERROR", -1);
    report = number("FAILING_REPORT", -1);
    size = (size_t)number("FAILING_SIZE", -1);
    failing = number("FAILING_FILE", -1);
    started = number("STARTED_REPORT", -1);
    opened = number("OPENED_REPORT", -1);
    writes = number("WRITES_REPORT", -1);
}

/* Whether this call is the one that fails. */
static int fails(int file) {
    if (file != failing || ++calls != calls_to_it) return 0;
    syscall(SYS_write, (int)report, "f", 1);
    errno = error;
    return 1;
}

static size_t at_most(size_t count) {
    return count < size ? count : size;
}

ssize_t read(int file, void *bytes, size_t count) {
    if (file != STDIN_FILENO) return syscall(SYS_read, file, bytes, count);
    return fails(file) ? -1 : syscall(SYS_read, file, bytes, at_most(count));
}

ssize_t write(int file, const void *bytes, size_t count) {
    if (file != STDOUT_FILENO) return syscall(SYS_write, file, bytes, count);
    if (writes >= 0) syscall(SYS_write, (int)writes, "w", 1);
    if (fails(file)) return error ? -1 : 0;
    return syscall(SYS_write, file, bytes, at_most(count));
}

int open(const char *name, int flags, ...) {
    va_list rest;
    va_start(rest, flags);
    int mode = flags & O_CREAT ? va_arg(rest, int) : 0;
    va_end(rest);
    if (opened >= 0) syscall(SYS_write, (int)opened, "o", 1);
    return (int)syscall(SYS_openat, AT_FDCWD, name, flags, mode);
}

int pthread_create(pthread_t *thread, const pthread_attr_t *attributes, void *(*routine)(void *), void *argument) {
    int (*create)(pthread_t *, const pthread_attr_t *, void *(*)(void *), void *) = dlsym(RTLD_NEXT, "pthread_create");
    if (started >= 0) syscall(SYS_write, (int)started, "t", 1);
    return create(thread, attributes, routine, argument);
}
