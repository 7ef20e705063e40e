/* The system calls of pipes, which are within the program. A wait that only the program itself could end ends it. */

#include <fcntl.h>
#include "calls.h"

enum { ABORTED = 134 };

/* A bit for each number of a pipe's end that isn't to wait. Bits of other files say nothing. */
static unsigned long long without_wait;

static int is_end(int file, struct nc_status *about) { return nc_status(0, file, 0, about) == 0 && about->how & NC_OPEN_NO_WAIT; }

int waits_as_pipe(int file) {
    struct nc_status about;
    return is_end(file, &about) && !(without_wait >> file & 1);
}

static void set_wait(int file, int waits) {
    unsigned long long bit = 1ull << file;
    without_wait = waits ? without_wait & ~bit : without_wait | bit;
}

/* All numbers of an end wait, or none does. */
long set_pipe_wait(int file, int waits) {
    struct nc_status about, other;
    if (!is_end(file, &about)) return -EINVAL;
    for (int k = 0; k < NUMBERS; k++)
        if (is_end(k, &other) && other.inode == about.inode && other.how == about.how) set_wait(k, waits);
    return 0;
}

long make_pipe(int to[2], int flags) {
    long error = flags & ~(O_CLOEXEC | O_NONBLOCK) ? -EINVAL : nc_pipe(to);
    if (error) return error;
    set_wait(to[0], !(flags & O_NONBLOCK));
    set_wait(to[1], !(flags & O_NONBLOCK));
    return 0;
}

long copy_number(int file, int number, int exactly) {
    int copy = nc_copy(file, number, exactly);
    if (copy >= 0) set_wait(copy, !(without_wait >> file & 1));
    return copy;
}

void end_in_deadlock(const char *why, unsigned len) {
    nc_write(2, why, len);
    nc_exit(ABORTED);
}

long part_done(int file, long done) {
    static const char why[] = "deadlock: the only thread waits for its own pipe\n";
    if (waits_as_pipe(file)) end_in_deadlock(why, sizeof why - 1);
    return done == -EDEADLK ? -EAGAIN : done;
}
