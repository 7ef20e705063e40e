/* The system calls of clocks, and those by which a program waits. */

#include <string.h>
#include <sys/resource.h>
#include <sys/times.h>
#include <time.h>
#include "calls.h"

enum { THOUSAND = 1000, TICKS = 100, RUSAGE_WORDS = 18 };
enum { FUTEX_WAIT = 0, FUTEX_WAKE = 1, FUTEX_KIND = 127 };

/* nc-run has three. */
static int clock_of(long clock) {
    static const signed char clocks[] = {
        [CLOCK_REALTIME] = NC_CLOCK_REAL,
        [CLOCK_MONOTONIC] = NC_CLOCK_STEADY,
        [CLOCK_PROCESS_CPUTIME_ID] = NC_CLOCK_PROCESSOR,
        [CLOCK_THREAD_CPUTIME_ID] = NC_CLOCK_PROCESSOR,
        [CLOCK_MONOTONIC_RAW] = NC_CLOCK_STEADY,
        [CLOCK_REALTIME_COARSE] = NC_CLOCK_REAL,
        [CLOCK_MONOTONIC_COARSE] = NC_CLOCK_STEADY,
        [CLOCK_BOOTTIME] = NC_CLOCK_STEADY,
    };
    return (unsigned long)clock < sizeof clocks ? clocks[clock] : -1;
}

/* A clock's time, as two numbers of 64 bits. */
static long tell_time(long clock, long long *to) {
    long long now = nc_clock(clock_of(clock));
    if (now < 0) return (long)now;
    to[0] = now / BILLION;
    to[1] = now % BILLION;
    return 0;
}

static long tell_resolution(long clock, long *to) {
    if (clock_of(clock) < 0) return -EINVAL;
    if (to) to[0] = 0, to[1] = 1;
    return 0;
}

/* Of what a program uses there is its processor's time. */
static long tell_usage(long *to) {
    long long used = nc_clock(NC_CLOCK_PROCESSOR);
    memset(to, 0, RUSAGE_WORDS * sizeof *to);
    to[0] = (long)(used / BILLION);
    to[1] = (long)(used % BILLION / THOUSAND);
    return 0;
}

static long tell_ticks(struct tms *to) {
    if (to) *to = (struct tms){.tms_utime = (long)(nc_clock(NC_CLOCK_PROCESSOR) / (BILLION / TICKS))};
    return (long)(nc_clock(NC_CLOCK_STEADY) / (BILLION / TICKS));
}

long long wait_of(long long seconds, long long part, long long parts) {
    const long long most = 1ll << 33; /* seconds, some 270 years */
    if (seconds < 0 || part < 0 || part >= parts) return -EINVAL;
    return (seconds < most ? seconds : most) * BILLION + part * (BILLION / parts);
}

/* Waits for a time, or until a clock says so. */
static long wait_for(long clock, int until, long long seconds, long long part) {
    long long wanted = clock_of(clock) < 0 ? -EINVAL : wait_of(seconds, part, BILLION);
    if (wanted < 0) return (long)wanted;
    if (until) wanted -= nc_clock(clock_of(clock));
    return wanted > 0 ? nc_sleep(wanted) : 0;
}

/* The only thread waits for what another one would do. Without a time that is for ever. */
static long wait_for_thread(const volatile int *at, long kind, int value, const long *time, const long long *long_time) {
    static const char why[] = "deadlock: the only thread waits for another one\n";
    if (kind == FUTEX_WAKE) return 0;
    if (kind != FUTEX_WAIT) return -ENOSYS;
    if (*at != value) return -EAGAIN;
    if (!time && !long_time) end_in_deadlock(why, sizeof why - 1);
    long error = wait_for(CLOCK_MONOTONIC, 0, time ? time[0] : long_time[0], time ? time[1] : long_time[1]);
    return error ? error : -ETIMEDOUT;
}

long call_of_times(long number, long a, long b, long c, long d) {
    const long *time = (const long *)c;
    switch (number) {
    case SYS_clock_gettime64: return tell_time(a, (long long *)b);
    case SYS_clock_getres: return tell_resolution(a, (long *)b);
    case SYS_getrusage: return tell_usage((long *)b);
    case SYS_times: return tell_ticks((struct tms *)a);
    case SYS_nanosleep: return wait_for(CLOCK_MONOTONIC, 0, ((const long *)a)[0], ((const long *)a)[1]);
    case SYS_clock_nanosleep: return wait_for(a, b & TIMER_ABSTIME, time[0], time[1]);
    case SYS_clock_nanosleep_time64: return wait_for(a, b & TIMER_ABSTIME, ((const long long *)c)[0], ((const long long *)c)[1]);
    case SYS_futex: return wait_for_thread((const int *)a, b & FUTEX_KIND, (int)c, (const long *)d, 0);
    case SYS_futex_time64: return wait_for_thread((const int *)a, b & FUTEX_KIND, (int)c, 0, (const long long *)d);
    default: return -ENOSYS;
    }
}
