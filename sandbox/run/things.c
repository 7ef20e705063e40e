/* The host's end of the calls that aren't about files: memory, time, chance and terminals. TRUSTED, NOT PROVED. */
#define _GNU_SOURCE
#include "serve.h"

#include <errno.h>
#include <sys/ioctl.h>
#include <sys/random.h>
#include <time.h>

#define BILLION 1000000000

uint64_t call_clock(NcsBox *box, void *user, const uint32_t *args) {
    static const clockid_t clocks[] = {
        [NC_CLOCK_REAL] = CLOCK_REALTIME, [NC_CLOCK_STEADY] = CLOCK_MONOTONIC, [NC_CLOCK_PROCESSOR] = CLOCK_PROCESS_CPUTIME_ID};
    struct timespec now;
    (void)box;
    (void)user;
    if (args[0] >= sizeof clocks / sizeof *clocks) {
        return failed(EINVAL);
    }
    return clock_gettime(clocks[args[0]], &now) != 0 ? failed(errno) : result_of((long long)now.tv_sec * BILLION + now.tv_nsec);
}

uint64_t call_memory(NcsBox *box, void *user, const uint32_t *args) {
    (void)box;
    (void)args;
    return ((const Run *)user)->memory_end;
}

/* Waiting takes no time of the processor, which is what is limited. */
uint64_t call_sleep(NcsBox *box, void *user, const uint32_t *args) {
    int64_t wanted = (int64_t)((uint64_t)args[1] << 32 | args[0]);
    struct timespec left = {.tv_sec = wanted / BILLION, .tv_nsec = wanted % BILLION};
    int error;
    (void)box;
    (void)user;
    do {
        error = clock_nanosleep(CLOCK_MONOTONIC, 0, &left, &left);
    } while (error == EINTR);
    return failed(error);
}

uint64_t call_random(NcsBox *box, void *user, const uint32_t *args) {
    size_t len;
    void *bytes = serve_bytes(box, args[0], args[1], &len);
    ssize_t got;
    (void)user;
    if (bytes == NULL) {
        return failed(EFAULT);
    }
    do {
        got = getrandom(bytes, len, 0);
    } while (got < 0 && errno == EINTR);
    return got < 0 ? failed(errno) : result_of(got);
}

/* Behind the second wall no file is asked. */
void things_begin(Run *run) {
    unsigned k;
    for (k = 0; k < RUN_TERMINALS; k++) {
        struct winsize size;
        int is = files_host(&run->files, k, TO_ASK) >= 0 && ioctl((int)k, TIOCGWINSZ, &size) == 0;
        run->terminals[k] = is ? (int64_t)size.ws_row << 32 | size.ws_col : -ENOTTY;
    }
}

uint64_t call_terminal(NcsBox *box, void *user, const uint32_t *args) {
    Run *run = user;
    int host = files_host(&run->files, args[0], TO_ASK);
    (void)box;
    return host < 0 ? failed(EBADF) : files_is_standard(host) ? result_of(run->terminals[host]) : failed(ENOTTY);
}
