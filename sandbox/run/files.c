/* The files that a program has: nc-run's own three, those below its folders, and pipes within it. TRUSTED, NOT PROVED. */
#define _GNU_SOURCE
#include "run.h"

#include "guest/nc_run.h"

#include <errno.h>
#include <fcntl.h>
#include <stdlib.h>
#include <string.h>
#include <sys/stat.h>
#include <sys/syscall.h>
#include <unistd.h>

#define STANDARD 3
#define BLOCK 4096u     /* what a new file counts, and a write at a place of its own, besides the bytes */
#define CLOSE_RANGE 436 /* the system call, which older headers lack */

/* A place among 0, 1 and 2 that is free is taken by something of no use, so that no file of nc-run's or of the program's comes there. */
const char *files_begin(Files *files) {
    int k;
    memset(files, 0, sizeof *files);
    files->view.numbers = -1;
    for (k = 0; k < STANDARD; k++) {
        if (fcntl(k, F_GETFD) >= 0) {
            files_take(files, k, &(Open){.host = k, .how = k == 0 ? NC_OPEN_READ : NC_OPEN_WRITE});
        } else if (open("/dev/null", k == 0 ? O_WRONLY : O_RDONLY) != k) {
            return "/dev/null";
        }
    }
    return NULL;
}

/* Systems before Linux 5.9 close nothing. */
static void close_range_of(unsigned from, unsigned end) {
    if (from < end) {
        (void)syscall(CLOSE_RANGE, from, end - 1, 0);
    }
}

/* The numbers of the view's files ascend, with that of /proc as the last. */
void files_leave_others(const Files *files) {
    const View *view = &files->view;
    unsigned from = STANDARD, k;
    for (k = 0; k < view->count; k++) {
        close_range_of(from, (unsigned)view->folders[k].file);
        from = (unsigned)view->folders[k].file + 1;
    }
    if (view->numbers >= 0) {
        close_range_of(from, (unsigned)view->numbers);
        from = (unsigned)view->numbers + 1;
    }
    close_range_of(from, (unsigned)INT_MAX);
}

int files_is_standard(int host) {
    return host >= 0 && host < STANDARD;
}

int files_is_beneath(const Open *file) {
    return !files_is_standard(file->host) && file->pipe == 0;
}

Open *files_of(Files *files, uint32_t file) {
    return file < FILES_MAX ? files->of[file] : NULL;
}

int files_host(Files *files, uint32_t file, int use) {
    const Open *open = files_of(files, file);
    int host = open != NULL ? open->host : -1;
    return files_is_standard(host) && use != TO_ASK && (use == TO_READ) != (host == 0) ? -1 : host;
}

int files_stat(int host, struct stat *about) {
    return (int)syscall(SYS_fstat, host, about);
}

/* What a write counts besides its bytes. At a place of its own it may fill a hole, and take a block. */
static uint64_t besides(const Open *file) {
    return file->moved ? BLOCK : 0;
}

size_t files_room(const Files *files, const Open *file, size_t len) {
    uint64_t more = besides(file), room = files->left > more ? files->left - more : 0;
    return !files_is_beneath(file) || len <= room ? len : (size_t)room;
}

void files_wrote(Files *files, Open *file, size_t len) {
    if (files_is_beneath(file) && len != 0) {
        files->left -= besides(file) + len;
        file->moved = 0;
    }
}

int files_may_make(const Files *files) {
    return files->left >= BLOCK;
}

void files_made(Files *files) {
    files->left -= BLOCK;
}

int files_free(const Files *files, uint32_t from) {
    uint32_t k = from;
    while (k < FILES_MAX && files->of[k] != NULL) {
        k++;
    }
    return k < FILES_MAX ? (int)k : -1;
}

/* A number is free, so there are fewer open files than there can be. */
void files_take(Files *files, int number, const Open *file) {
    Open *open = files->open;
    while (open->users != 0) {
        open++;
    }
    *open = *file;
    open->users = 1;
    files->of[number] = open;
}

/* Nobody else reads or writes the pipe, so it never waits. */
int files_pipe(Files *files, int32_t numbers[2]) {
    int first = files_free(files, 0), second = first >= 0 ? files_free(files, (uint32_t)first + 1) : -1, ends[2];
    if (second < 0) {
        return -EMFILE;
    }
    if (pipe2(ends, O_CLOEXEC | O_NONBLOCK) != 0) {
        return -errno;
    }
    files->pipes++;
    files_take(files, first, &(Open){.host = ends[0], .how = NC_OPEN_READ | NC_OPEN_NO_WAIT, .pipe = files->pipes});
    files_take(files, second, &(Open){.host = ends[1], .how = NC_OPEN_WRITE | NC_OPEN_NO_WAIT, .pipe = files->pipes});
    numbers[0] = first;
    numbers[1] = second;
    return 0;
}

/* The standard files stay nc-run's own, which still reports. */
int files_close(Files *files, uint32_t file) {
    Open *open = files_of(files, file);
    if (open == NULL) {
        return -EBADF;
    }
    files->of[file] = NULL;
    if (--open->users != 0) {
        return 0;
    }
    free(open->name);
    open->name = NULL;
    return !files_is_standard(open->host) && close(open->host) != 0 && errno != EINTR ? -errno : 0;
}

int files_copy(Files *files, uint32_t file, uint32_t number, int exactly) {
    Open *open = files_of(files, file);
    int to;
    if (open == NULL || number >= FILES_MAX) {
        return open != NULL && !exactly ? -EINVAL : -EBADF;
    }
    to = exactly ? (int)number : files_free(files, number);
    if (to < 0 || files->of[to] == open) {
        return to < 0 ? -EMFILE : to;
    }
    if (files->of[to] != NULL) {
        (void)files_close(files, (uint32_t)to); /* as dup2, which tells no error of it */
    }
    open->users++;
    files->of[to] = open;
    return to;
}
