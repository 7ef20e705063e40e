/* The system calls by which a program waits for files. */

#include <poll.h>
#include <sys/select.h>
#include "calls.h"

enum { THOUSAND = 1000, MILLION = 1000000, FOR_EVER = -1, SETS = 3 };

/* What select asks of a file in each set, and what it takes for an answer. */
static const struct {
    short asked, answers;
} sets[SETS] = {
    {POLLIN | POLLRDNORM | POLLRDBAND, POLLIN | POLLRDNORM | POLLRDBAND | POLLHUP | POLLERR},
    {POLLOUT | POLLWRNORM | POLLWRBAND, POLLOUT | POLLWRNORM | POLLWRBAND | POLLERR},
    {POLLPRI, POLLPRI},
};

static long long time_at(const long *at, long parts) { return at ? wait_of(at[0], at[1], parts) : FOR_EVER; }

static long long long_time_at(const long long *at) { return at ? wait_of(at[0], at[1], BILLION) : FOR_EVER; }

/* A signal that waits and that the mask lets through ends the wait, unless a file is ready. No other comes. */
static long wait_for_files(void *files, unsigned count, long long time, const void *mask) {
    static const char why[] = "deadlock: the only thread waits for nothing else\n";
    if (time < FOR_EVER) return (long)time;
    long ready = nc_poll(files, count, mask ? 0 : time);
    if (mask && !ready) ready = let_signals(mask) ? -EINTR : nc_poll(files, count, time);
    if (ready == -EDEADLK) end_in_deadlock(why, sizeof why - 1);
    return ready;
}

static int is_in(const fd_set *set, int file) { return set && FD_ISSET(file, set); }

static short asked_of(fd_set *const given[SETS], int file) {
    short all = 0;
    for (int k = 0; k < SETS; k++) all |= is_in(given[k], file) ? sets[k].asked : 0;
    return all;
}

/* Lists the files that are in any of the sets, and returns their number, or an error. */
static int list_files(fd_set *const given[SETS], int count, struct nc_ready *list) {
    int listed = 0;
    for (int file = 0; file < count; file++) {
        short asked = asked_of(given, file);
        if (asked && file >= NUMBERS) return -EBADF;
        if (asked) list[listed++] = (struct nc_ready){.file = file, .wanted = asked};
    }
    return listed;
}

/* Leaves in a set what is ready, and returns the number of that. */
static int answer(fd_set *set, int which, const struct nc_ready *list, int listed) {
    int ready = 0;
    for (int k = 0; set && k < listed; k++) {
        if (!FD_ISSET(list[k].file, set)) continue;
        if (list[k].ready & sets[which].answers) ready++;
        else FD_CLR(list[k].file, set);
    }
    return ready;
}

static long select_files(int count, fd_set *const given[SETS], long long time, const void *mask) {
    struct nc_ready list[NUMBERS];
    int listed = count < 0 ? -EINVAL : list_files(given, count < FD_SETSIZE ? count : FD_SETSIZE, list);
    long ready = listed < 0 ? listed : wait_for_files(list, (unsigned)listed, time, mask);
    if (ready < 0) return ready;
    for (int k = 0; k < listed; k++)
        if (list[k].ready & POLLNVAL) return -EBADF;
    return answer(given[0], 0, list, listed) + answer(given[1], 1, list, listed) + answer(given[2], 2, list, listed);
}

long call_of_polls(long number, long a, long b, long c, long d, long e, long f) {
    fd_set *const given[SETS] = {(fd_set *)b, (fd_set *)c, (fd_set *)d};
    const void *const *mask = (const void *const *)f;
    switch (number) {
    case SYS_poll: return wait_for_files((void *)a, (unsigned)b, c < 0 ? FOR_EVER : wait_of(c / THOUSAND, c % THOUSAND, THOUSAND), 0);
    case SYS_ppoll: return wait_for_files((void *)a, (unsigned)b, time_at((const long *)c, BILLION), (const void *)d);
    case SYS_ppoll_time64: return wait_for_files((void *)a, (unsigned)b, long_time_at((const long long *)c), (const void *)d);
    case SYS__newselect: return select_files((int)a, given, time_at((const long *)e, MILLION), 0);
    case SYS_pselect6: return select_files((int)a, given, time_at((const long *)e, BILLION), mask ? *mask : 0);
    case SYS_pselect6_time64: return select_files((int)a, given, long_time_at((const long long *)e), mask ? *mask : 0);
    default: return -ENOSYS;
    }
}
