/* The system calls of open files and of the process. */

#include <fcntl.h>
#include <string.h>
#include <sys/ioctl.h>
#include <sys/uio.h>
#include "calls.h"

/* Reads or writes the parts of a list one by one, up to the first that isn't done whole. */
static long transfer(int call(int, const struct iovec *), int file, const struct iovec *parts, long count) {
    long all = 0;
    for (; count > 0; parts++, count--) {
        int done = call(file, parts);
        if (done < 0) return all > 0 ? all : done;
        all += done;
        if ((unsigned)done < parts->iov_len) break;
    }
    return all;
}

static int read_part(int file, const struct iovec *part) { return nc_read(file, part->iov_base, part->iov_len); }

static int write_part(int file, const struct iovec *part) {
    int done = nc_write(file, part->iov_base, part->iov_len);
    return done == -EDEADLK || (done >= 0 && (unsigned)done < part->iov_len) ? (int)part_done(file, done) : done;
}

static long read_all(int file, const struct iovec *parts, long count) {
    long done = transfer(read_part, file, parts, count);
    return done == -EDEADLK ? part_done(file, done) : done;
}

static long long wide(long low, long high) { return (long long)high << 32 | (unsigned long)low; }

static long seek(int file, long high, long low, long long *to, int from) {
    long long place = nc_lseek(file, wide(low, high), from);
    if (place < 0) return (long)place;
    *to = place;
    return 0;
}

/* Reads or writes at a place of its own, and goes back. No other thread sees the place meanwhile. */
static long transfer_at(int call(int, const struct iovec *), int file, const struct iovec *part, long long place) {
    long long was = nc_lseek(file, 0, SEEK_CUR), there = was < 0 ? was : nc_lseek(file, place, SEEK_SET);
    if (there < 0) return (long)there;
    long done = call(file, part);
    nc_lseek(file, was, SEEK_SET);
    return done;
}

/* Flags that are set when a file is opened stay as they are, but for that of a pipe. */
static long set_flags(int file, unsigned how, long flags) {
    if (how & NC_OPEN_NO_WAIT) return set_pipe_wait(file, !(flags & O_NONBLOCK));
    return (flags & (O_APPEND | O_NONBLOCK)) == (how & O_APPEND) ? 0 : -EINVAL;
}

/* No file stays open in another program. */
static long control(int file, int what, long value) {
    struct nc_status about;
    long error = nc_status(0, file, 0, &about);
    if (error < 0) return error;
    switch (what) {
    case F_DUPFD:
    case F_DUPFD_CLOEXEC: return copy_number(file, (int)value, 0);
    case F_GETFD:
    case F_SETFD: return 0;
    case F_GETFL: return about.how & (O_ACCMODE | O_APPEND | (waits_as_pipe(file) ? 0 : O_NONBLOCK));
    case F_SETFL: return set_flags(file, about.how, value);
    default: return -ENOSYS;
    }
}

static long tell_terminal(int file, unsigned long what, struct winsize *to) {
    long long size = nc_terminal(file);
    if (size < 0 || what != TIOCGWINSZ) return size < 0 ? (long)size : -ENOTTY;
    *to = (struct winsize){.ws_row = (unsigned short)(size >> 32), .ws_col = (unsigned short)size};
    return 0;
}

static long call_of_files(long number, long a, long b, long c, long d, long e) {
    struct iovec part = {(void *)b, (size_t)c};
    switch (number) {
    case SYS_read: return read_all((int)a, &part, 1);
    case SYS_write: return write_part((int)a, &part);
    case SYS_pread64: return transfer_at(read_part, (int)a, &part, wide(d, e));
    case SYS_pwrite64: return transfer_at(write_part, (int)a, &part, wide(d, e));
    case SYS_readv: return read_all((int)a, (const struct iovec *)b, c);
    case SYS_writev: return transfer(write_part, (int)a, (const struct iovec *)b, c);
    case SYS_close: return nc_close((int)a);
    case SYS__llseek: return seek((int)a, b, c, (long long *)d, (int)e);
    case SYS_ftruncate64: return nc_cut((int)a, wide(b, c));
    case SYS_getdents64: return nc_list((int)a, (void *)b, (unsigned)c);
    case SYS_dup: return copy_number((int)a, 0, 0);
    case SYS_dup2:
    case SYS_dup3: return copy_number((int)a, (int)b, 1);
    case SYS_pipe: return make_pipe((int *)a, 0);
    case SYS_pipe2: return make_pipe((int *)a, (int)b);
    case SYS_fsync:
    case SYS_fdatasync: return nc_flush((int)a);
    case SYS_fcntl64: return control((int)a, (int)b, c);
    case SYS_ioctl: return tell_terminal((int)a, (unsigned long)b, (struct winsize *)c);
    default: return -ENOSYS;
    }
}

static long call_of_process(long number, long a, long b) {
    switch (number) {
    case SYS_exit:
    case SYS_exit_group: nc_exit((int)a);
    case SYS_gettid:
    case SYS_getpid: return OWN_PROCESS;
    case SYS_getppid: return 0;
    case SYS_getuid32:
    case SYS_geteuid32:
    case SYS_getgid32:
    case SYS_getegid32: return OWN_ID;
    case SYS_getrandom: return nc_random((void *)a, (unsigned)b);
    case SYS_sched_yield: return 0;
    default: return -ENOSYS;
    }
}

long host_syscall(long number, long a, long b, long c, long d, long e, long f) {
    long result = call_of_files(number, a, b, c, d, e);
    if (result == -ENOSYS) result = call_of_process(number, a, b);
    if (result == -ENOSYS) result = call_of_signals(number, a, b, c);
    if (result == -ENOSYS) result = call_of_names(number, a, b, c, d, e);
    if (result == -ENOSYS) result = call_of_maps(number, a, b, c, d, e, f);
    if (result == -ENOSYS) result = call_of_polls(number, a, b, c, d, e, f);
    return result == -ENOSYS ? call_of_times(number, a, b, c, d) : result;
}
