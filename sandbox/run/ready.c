/* The host's end of nc_poll: which files are ready. TRUSTED, NOT PROVED. */
#define _GNU_SOURCE
#include "serve.h"

#include <errno.h>
#include <poll.h>
#include <sys/syscall.h>
#include <time.h>
#include <unistd.h>

#define BILLION 1000000000
/* What a file is asked that may be read, and one that may be written; and how what lies below a folder always is. */
#define READING (POLLIN | POLLPRI | POLLRDNORM | POLLRDBAND | POLLRDHUP)
#define WRITING (POLLOUT | POLLWRNORM | POLLWRBAND)
#define AT_ONCE (POLLIN | POLLOUT | POLLRDNORM | POLLWRNORM)

_Static_assert(sizeof(struct nc_ready) == 8, "it has the same form in the box");

/* What the system is asked, file by file. */
typedef struct Asked {
    struct pollfd files[FILES_MAX];
    int knows;   /* whether one is ready without the system */
    int depends; /* whether others can make one ready */
} Asked;

/* Of the standard files the program reads only the first and writes only the others, so it is told no more of them. */
static short events_of(Files *files, uint32_t file, short wanted) {
    int events = (files_host(files, file, TO_READ) >= 0 ? READING : 0) | (files_host(files, file, TO_WRITE) >= 0 ? WRITING : 0);
    return (short)(wanted & events);
}

/* Negative numbers stand for no file. */
static void ask_one(Files *files, struct nc_ready *one, Asked *asked, struct pollfd *to) {
    const Open *file = files_of(files, (uint32_t)one->file);
    int is_asked = file != NULL && !files_is_beneath(file);
    *to = (struct pollfd){.fd = is_asked ? file->host : -1, .events = events_of(files, (uint32_t)one->file, one->wanted)};
    one->ready = (short)(is_asked || one->file < 0 ? 0 : file == NULL ? POLLNVAL : one->wanted & AT_ONCE);
    asked->knows |= one->ready != 0;
    asked->depends |= is_asked && files_is_standard(file->host);
}

static void ask_all(Files *files, struct nc_ready *all, uint32_t count, Asked *asked) {
    uint32_t k;
    asked->knows = asked->depends = 0;
    for (k = 0; k < count; k++) {
        ask_one(files, &all[k], asked, &asked->files[k]);
    }
}

/* How long the system is to wait, or for ever if that is negative. What only the program makes ready stays as it is meanwhile. */
static int64_t patience(const Asked *asked, int64_t time) {
    return asked->knows || (time < 0 && !asked->depends) ? 0 : time;
}

/* The system call keeps account of the time that is left, unlike the function of the C library. 0, or the negative error. */
static int ask_system(Asked *asked, uint32_t count, int64_t time) {
    struct timespec left = {.tv_sec = time / BILLION, .tv_nsec = time % BILLION};
    long got;
    do {
        got = syscall(SYS_ppoll, asked->files, (unsigned long)count, time < 0 ? NULL : &left, NULL, 0ul);
    } while (got < 0 && errno == EINTR);
    return got < 0 ? -errno : 0;
}

static int answer(struct nc_ready *all, uint32_t count, const Asked *asked) {
    int ready = 0;
    uint32_t k;
    for (k = 0; k < count; k++) {
        all[k].ready |= asked->files[k].revents;
        ready += all[k].ready != 0;
    }
    return ready;
}

uint64_t call_poll(NcsBox *box, void *user, const uint32_t *args) {
    int64_t time = (int64_t)((uint64_t)args[3] << 32 | args[2]);
    uint32_t count = args[1], size = count * (uint32_t)sizeof(struct nc_ready);
    struct nc_ready all[FILES_MAX];
    Asked asked;
    int result;
    if (count > FILES_MAX || (count != 0 && !ncs_get(box, all, (NcsAt){args[0]}, size))) {
        return failed(count > FILES_MAX ? EINVAL : EFAULT);
    }
    ask_all(&((Run *)user)->files, all, count, &asked);
    result = ask_system(&asked, count, patience(&asked, time));
    if (result == 0) {
        result = answer(all, count, &asked);
        (void)(count != 0 && ncs_set(box, (NcsAt){args[0]}, all, size));
    }
    return result == 0 && time < 0 ? failed(EDEADLK) : result_of(result);
}
