/* Makes a program below which it is loaded (LD_PRELOAD) do what untrusted code would that came out of a box, or meet a system that lacks
   something, or a folder in which somebody else is at work. The environment says what is wanted:

   BREAKING   what clock_gettime does in place of its work, by a system call: one of the names below. It fails as that does, and tells its
              result as a time of so many nanoseconds, unless that is the number of a file
   LACKING    the number of a system call that `syscall` finds missing
   REFUSED    the name of a function that fails with EPERM: one of those at the end of this file
   SIGNAL     `fsync` or `ppoll`, which fails with EINTR the first time
   NO_PROC    set: /proc isn't there
   SWAPPED    a name in the folder `dir`, to which `dir/pipe` is renamed once the program has asked for the first time what is there */
#define _GNU_SOURCE
#include <errno.h>
#include <fcntl.h>
#include <linux/openat2.h>
#include <stdarg.h>
#include <stdint.h>
#include <stdio.h>
#include <stdlib.h>
#include <string.h>
#include <sys/mman.h>
#include <sys/prctl.h>
#include <sys/ptrace.h>
#include <sys/random.h>
#include <sys/socket.h>
#include <sys/stat.h>
#include <sys/syscall.h>
#include <sys/vfs.h>
#include <time.h>
#include <unistd.h>

typedef struct Act {
    const char *name;
    long number, words[4];
} Act;

static char page[4096] __attribute__((aligned(4096)));
static char *const true_words[] = {"true", NULL};

static const Act acts[] = {
    {"execve", SYS_execve, {(long)"/bin/true", (long)true_words, (long)(true_words + 1)}},
    {"socket", SYS_socket, {AF_INET, SOCK_STREAM}},
    {"ptrace", SYS_ptrace, {PTRACE_TRACEME}},
    {"protect", SYS_mprotect, {(long)page, sizeof page, PROT_READ | PROT_EXEC}},
    {"open", SYS_openat, {AT_FDCWD, (long)"secret", O_RDONLY}},
    {"open-within", SYS_openat, {AT_FDCWD, (long)"dir/file", O_RDONLY}},
    {"write-within", SYS_openat, {AT_FDCWD, (long)"dir/file", O_WRONLY}},
    {"make-within", SYS_mkdirat, {AT_FDCWD, (long)"dir/made", 0700}},
    {"make", SYS_mkdirat, {AT_FDCWD, (long)"made", 0700}},
    {"remove", SYS_unlinkat, {AT_FDCWD, (long)"secret"}},
    {"rename", SYS_renameat, {AT_FDCWD, (long)"secret", AT_FDCWD, (long)"dir/secret"}},
    {"times", SYS_utimensat, {AT_FDCWD, (long)"dir/file"}},
    {"read-9", SYS_read, {9, (long)page, 1}},
    {"dumpable", SYS_prctl, {PR_GET_DUMPABLE}},
};

static long raw(long number, long a, long b, long c, long d) {
    register long fourth __asm__("r10") = d;
    long result;
    __asm__ volatile("syscall" : "=a"(result) : "0"(number), "D"(a), "S"(b), "d"(c), "r"(fourth) : "rcx", "r11", "memory");
    if (result < 0) {
        errno = (int)-result;
    }
    return result < 0 ? -1 : result;
}

static int is_set(const char *name, const char *value) {
    const char *found = getenv(name);
    return found != NULL && strcmp(found, value) == 0;
}

int clock_gettime(clockid_t clock, struct timespec *now) {
    size_t k;
    for (k = 0; k < sizeof acts / sizeof *acts; k++) {
        if (is_set("BREAKING", acts[k].name)) {
            const long *words = acts[k].words, result = raw(acts[k].number, words[0], words[1], words[2], words[3]);
            now->tv_sec = 0;
            now->tv_nsec = acts[k].number == SYS_openat || acts[k].number == SYS_socket ? 0 : result;
            return result < 0 ? -1 : 0;
        }
    }
    return (int)raw(SYS_clock_gettime, clock, (long)now, 0, 0);
}

/* Whether somebody asks what is at the name. */
static int asks(long number, const long *words) {
    const struct open_how *how = (const struct open_how *)words[2];
    return number == SYS_openat2 && (how->flags & O_PATH) != 0 && is_set("SWAPPED", (const char *)words[1]);
}

/* Whether a function is interrupted this time. */
static int interrupted(const char *name) {
    static int times;
    return is_set("SIGNAL", name) && times++ == 0 ? (errno = EINTR, 1) : 0;
}

long syscall(long number, ...) {
    static int swapped;
    const char *lacking = getenv("LACKING");
    char to[64];
    long words[4], result;
    va_list more;
    int k;
    va_start(more, number);
    for (k = 0; k < 4; k++) {
        words[k] = va_arg(more, long);
    }
    va_end(more);
    if (lacking != NULL && number == atol(lacking)) {
        errno = ENOSYS;
        return -1;
    }
    if (number == SYS_ppoll && interrupted("ppoll")) {
        return -1;
    }
    result = raw(number, words[0], words[1], words[2], words[3]);
    if (asks(number, words) && !swapped) {
        int kept = errno;
        snprintf(to, sizeof to, "dir/%s", (const char *)words[1]);
        swapped = rename("dir/pipe", to) == 0;
        errno = kept;
    }
    return result;
}

int open(const char *path, int flags, ...) {
    va_list more;
    int mode;
    va_start(more, flags);
    mode = va_arg(more, int);
    va_end(more);
    if (getenv("NO_PROC") != NULL && strncmp(path, "/proc", 5) == 0) {
        errno = ENOENT;
        return -1;
    }
    return (int)raw(SYS_openat, AT_FDCWD, (long)path, flags, mode);
}

/* ---- Functions that fail */

#define FAILS(name) (is_set("REFUSED", name) ? (errno = EPERM, 1) : 0)

int fchmod(int file, mode_t mode) {
    return FAILS("fchmod") ? -1 : (int)raw(SYS_fchmod, file, (long)mode, 0, 0);
}

int futimens(int file, const struct timespec times[2]) {
    return FAILS("futimens") ? -1 : (int)raw(SYS_utimensat, file, 0, (long)times, 0);
}

int ftruncate(int file, off_t len) {
    return FAILS("ftruncate") ? -1 : (int)raw(SYS_ftruncate, file, len, 0, 0);
}

int fstatfs(int file, struct statfs *about) {
    return FAILS("fstatfs") ? -1 : (int)raw(SYS_fstatfs, file, (long)about, 0, 0);
}

ssize_t getrandom(void *to, size_t len, unsigned flags) {
    return FAILS("getrandom") ? -1 : raw(SYS_getrandom, (long)to, (long)len, flags, 0);
}

int clock_nanosleep(clockid_t clock, int flags, const struct timespec *wanted, struct timespec *left) {
    return FAILS("clock_nanosleep") ? EPERM : raw(SYS_clock_nanosleep, clock, flags, (long)wanted, (long)left) != 0 ? errno : 0;
}

int fsync(int file) {
    return FAILS("fsync") || interrupted("fsync") ? -1 : (int)raw(SYS_fsync, file, 0, 0, 0);
}

int pipe2(int files[2], int flags) {
    return FAILS("pipe2") ? -1 : (int)raw(SYS_pipe2, (long)files, flags, 0, 0);
}

off_t lseek(int file, off_t place, int from) {
    return FAILS("lseek") ? -1 : raw(SYS_lseek, file, place, from, 0);
}
