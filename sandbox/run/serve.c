/* The host's end of the calls on open files, and the table of all calls. TRUSTED, NOT PROVED. */
#define _GNU_SOURCE
#include "serve.h"

#include <errno.h>
#include <sys/stat.h>
#include <sys/syscall.h>
#include <unistd.h>

#define PIECE_MOST (1u << 20) /* what can be moved between two ticks */

void *serve_bytes(NcsBox *box, uint32_t at, uint32_t len, size_t *piece) {
    static char none;
    void *bytes = ncs_at(box, (NcsAt){at}, len);
    *piece = len < PIECE_MOST ? len : PIECE_MOST;
    return bytes == NULL && len == 0 ? &none : bytes;
}

/* What a pipe of the program would wait for is the program's to do. */
static int error_of(const Open *file, int error) {
    return file->pipe != 0 && error == EAGAIN ? EDEADLK : error;
}

/* Writes to a file from the box's memory, or reads from it. It waits as long as the file makes it: the time that is limited is the
   processor's. */
static uint64_t transfer(NcsBox *box, Files *files, const uint32_t *args, int use) {
    int host = files_host(files, args[0], use);
    Open *file = files_of(files, args[0]);
    size_t len;
    void *bytes = serve_bytes(box, args[1], args[2], &len);
    ssize_t moved;
    if (host < 0 || bytes == NULL) {
        return failed(host < 0 ? EBADF : EFAULT);
    }
    len = use == TO_WRITE ? files_room(files, file, len) : len;
    do {
        moved = use == TO_WRITE ? write(host, bytes, len) : read(host, bytes, len);
    } while (moved < 0 && errno == EINTR);
    if (moved < 0 || (len == 0 && args[2] != 0)) {
        return failed(moved < 0 ? error_of(file, errno) : ENOSPC);
    }
    if (use == TO_WRITE) {
        files_wrote(files, file, (size_t)moved);
    } else {
        file->moved = 1;
    }
    return result_of(moved);
}

uint64_t call_read(NcsBox *box, void *user, const uint32_t *args) {
    return transfer(box, &((Run *)user)->files, args, TO_READ);
}

uint64_t call_write(NcsBox *box, void *user, const uint32_t *args) {
    return transfer(box, &((Run *)user)->files, args, TO_WRITE);
}

uint64_t call_close(NcsBox *box, void *user, const uint32_t *args) {
    (void)box;
    return result_of(files_close(&((Run *)user)->files, args[0]));
}

uint64_t call_copy(NcsBox *box, void *user, const uint32_t *args) {
    (void)box;
    return result_of(files_copy(&((Run *)user)->files, args[0], args[1], args[2] != 0));
}

/* A pipe is made only once its numbers have a place. */
uint64_t call_pipe(NcsBox *box, void *user, const uint32_t *args) {
    int32_t numbers[2];
    int error = ncs_at(box, (NcsAt){args[0]}, sizeof numbers) != NULL ? files_pipe(&((Run *)user)->files, numbers) : -EFAULT;
    if (error == 0) {
        (void)ncs_set(box, (NcsAt){args[0]}, numbers, sizeof numbers);
    }
    return result_of(error);
}

/* The standard files have places too, but others share these with nc-run. */
uint64_t call_lseek(NcsBox *box, void *user, const uint32_t *args) {
    static const int from[] = {SEEK_SET, SEEK_CUR, SEEK_END};
    Open *file = files_of(&((Run *)user)->files, args[0]);
    off_t place;
    (void)box;
    if (file == NULL || args[3] >= sizeof from / sizeof *from) {
        return failed(file == NULL ? EBADF : EINVAL);
    }
    if (files_is_standard(file->host)) {
        return failed(ESPIPE);
    }
    place = lseek(file->host, (off_t)((uint64_t)args[2] << 32 | args[1]), from[args[3]]);
    if (place < 0) {
        return failed(errno);
    }
    file->moved = 1;
    return result_of(place);
}

uint64_t call_size(NcsBox *box, void *user, const uint32_t *args) {
    const Open *file = files_of(&((Run *)user)->files, args[0]);
    struct stat about;
    (void)box;
    if (file == NULL) {
        return failed(EBADF);
    }
    if (files_stat(file->host, &about) != 0) {
        return failed(errno);
    }
    return S_ISREG(about.st_mode) ? result_of(about.st_size) : failed(ESPIPE);
}

uint64_t call_cut(NcsBox *box, void *user, const uint32_t *args) {
    (void)box;
    return result_of(about_cut(&((Run *)user)->files, args[0], (uint64_t)args[2] << 32 | args[1]));
}

uint64_t call_flush(NcsBox *box, void *user, const uint32_t *args) {
    (void)box;
    return result_of(about_flush(&((Run *)user)->files, args[0]));
}

/* The kernel writes what nc_list is to give, in the same form. */
uint64_t call_list(NcsBox *box, void *user, const uint32_t *args) {
    const Open *file = files_of(&((Run *)user)->files, args[0]);
    size_t len;
    void *bytes = serve_bytes(box, args[1], args[2], &len);
    long got;
    if (file == NULL || bytes == NULL) {
        return failed(file == NULL ? EBADF : EFAULT);
    }
    if (file->name == NULL) {
        return failed(ENOTDIR);
    }
    got = syscall(SYS_getdents64, file->host, bytes, len);
    return got < 0 ? failed(errno) : result_of(got);
}

/* Gives the calls from one number to another. Call-backs get their addresses in their order, so the table is by numbers. */
static int give(Run *run, unsigned from, unsigned end) {
#define CALL(number, name, words) [number] = {call_##name, words},
    static const struct {
        NcsCallback function;
        unsigned words;
    } calls[] = {NC_RUN_CALLS(CALL)};
    unsigned k = from;
    while (k < end && ncs_callback(run->box, calls[k].function, run, calls[k].words).at == NCS_CALLBACK(k)) {
        k++;
    }
    return k == end;
}

/* Those for code are the library's. */
int calls_give(Run *run) {
    return give(run, 0, NC_RUN_CODE) && ncs_code_calls(run->box, ncs_room(run->module)).at == NCS_CALLBACK(NC_RUN_CODE) &&
           give(run, NC_RUN_CODE_END, NC_RUN_END);
}
