/* What a program gets to know of files, and changes of them: status, links, length, storing, rights and times. TRUSTED, NOT PROVED. */
#define _GNU_SOURCE
#include "run.h"

#include "guest/nc_run.h"

#include <errno.h>
#include <fcntl.h>
#include <string.h>
#include <sys/stat.h>
#include <sys/syscall.h>
#include <unistd.h>

#define BILLION 1000000000
#define WRITABLE 0222u
#define PASSAGE 1 /* the number of what is nowhere in the system */

_Static_assert(sizeof(struct nc_status) == 72, "it has the same form in the box");

static long long nanoseconds(const struct timespec *time) {
    long long most = INT64_MAX / BILLION - 1, seconds = time->tv_sec > most ? most : time->tv_sec < -most ? -most : time->tv_sec;
    return seconds * BILLION + time->tv_nsec;
}

static void fill(struct nc_status *to, const struct stat *about, int writable) {
    memset(to, 0, sizeof *to);
    to->device = about->st_dev;
    to->inode = about->st_ino;
    to->size = (uint64_t)about->st_size;
    to->blocks = (uint64_t)about->st_blocks;
    to->accessed = nanoseconds(&about->st_atim);
    to->modified = nanoseconds(&about->st_mtim);
    to->changed = nanoseconds(&about->st_ctim);
    to->mode = about->st_mode & ~(writable ? 0 : WRITABLE);
    to->links = (uint32_t)about->st_nlink;
}

/* A name that only leads to folders is that of a folder, which is only read. */
static void fill_passage(struct nc_status *to) {
    memset(to, 0, sizeof *to);
    to->inode = PASSAGE;
    to->mode = S_IFDIR | 0555;
    to->links = 2;
}

/* The system's number of a pipe would tell the program how many others make. */
static void fill_pipe(struct nc_status *to, uint64_t pipe) {
    to->device = 0;
    to->inode = PASSAGE + pipe;
}

/* Opens what is at a path by O_PATH, unless it is the kernel's own. */
static int open_there(const Place *place, uint64_t flags) {
    int there = beneath_open(place->folder->file, place->within, O_PATH | flags, 0);
    int error = there < 0 ? -there : kinds_judge_folder(there);
    if (there >= 0 && error != 0) {
        (void)close(there);
    }
    return error != 0 ? -error : there;
}

static int tell_path(const Files *files, const char *path, uint64_t flags, struct nc_status *to) {
    Place place;
    struct stat about;
    int error = view_find(&files->view, path, &place), there;
    if (error != 0) {
        return -error;
    }
    if (place.folder == NULL) {
        fill_passage(to);
        return 0;
    }
    there = open_there(&place, flags);
    if (there < 0) {
        return there;
    }
    error = files_stat(there, &about) != 0 ? errno : 0;
    (void)close(there);
    if (error == 0) {
        fill(to, &about, place.folder->writable);
    }
    return -error;
}

int about_tell(Files *files, const char *path, uint32_t file, uint32_t how, struct nc_status *to) {
    const Open *open = files_of(files, file);
    struct stat about;
    if ((how & ~(uint32_t)NC_OPEN_NO_LINK) != 0) {
        return -EINVAL;
    }
    if (path != NULL) {
        return tell_path(files, path, how != 0 ? O_NOFOLLOW : 0, to);
    }
    if (open == NULL || files_stat(open->host, &about) != 0) {
        return open == NULL ? -EBADF : -errno;
    }
    fill(to, &about, !files_is_beneath(open) || open->writable);
    to->how = open->how;
    if (open->pipe != 0) {
        fill_pipe(to, open->pipe);
    }
    return 0;
}

int about_link(const Files *files, const char *path, char to[PATH_MAX]) {
    Place place;
    int error = view_find(&files->view, path, &place), there;
    ssize_t len;
    if (error != 0 || place.folder == NULL) {
        return error != 0 ? -error : -EINVAL;
    }
    there = open_there(&place, O_NOFOLLOW);
    if (there < 0) {
        return there;
    }
    len = syscall(SYS_readlinkat, there, "", to, PATH_MAX);
    error = len < 0 ? errno : 0;
    (void)close(there);
    return error == 0 ? (int)len : error == ENOENT ? -EINVAL : -error; /* ENOENT is that of what is no link */
}

/* The bytes by which the file grows count as written. */
int about_cut(Files *files, uint32_t file, uint64_t len) {
    Open *open = files_of(files, file);
    struct stat about;
    uint64_t more;
    if (open == NULL || !open->writable || len > INT64_MAX) {
        return open == NULL ? -EBADF : -EINVAL;
    }
    if (files_stat(open->host, &about) != 0) {
        return -errno;
    }
    more = len > (uint64_t)about.st_size ? len - (uint64_t)about.st_size : 0;
    if (more > files->left) {
        return -ENOSPC;
    }
    if (ftruncate(open->host, (off_t)len) != 0) {
        return -errno;
    }
    files->left -= more;
    open->moved = 1;
    return 0;
}

/* Where the program only reads, it can't make the system store what others have written. */
int about_flush(Files *files, uint32_t file) {
    const Open *open = files_of(files, file);
    int error;
    if (open == NULL || !files_is_beneath(open)) {
        return open == NULL ? -EBADF : -EINVAL;
    }
    do {
        error = open->writable && fsync(open->host) != 0 ? errno : 0;
    } while (error == EINTR);
    return -error;
}

/* Opens a regular file or a folder that may be changed. */
static int open_to_change(const Files *files, const char *path) {
    Place place;
    int error = view_find(&files->view, path, &place), there, file;
    if (error != 0 || place.folder == NULL || !place.folder->writable) {
        return error != 0 ? -error : -EROFS;
    }
    there = beneath_open(place.folder->file, place.within, O_PATH, 0);
    if (there < 0) {
        return there;
    }
    error = kinds_judge_file(there);
    file = error != 0 && error != EISDIR ? -error : beneath_reopen(&files->view, there, &place, O_RDONLY | O_NONBLOCK | O_NOCTTY);
    (void)close(there);
    return file == BENEATH_CHANGED ? -ENOENT : file;
}

static struct timespec time_of(int64_t nanoseconds) {
    int64_t rest = nanoseconds % BILLION, seconds = nanoseconds / BILLION - (rest < 0);
    struct timespec time = {.tv_sec = seconds, .tv_nsec = rest < 0 ? rest + BILLION : rest};
    if (nanoseconds == NC_TIME_NOW || nanoseconds == NC_TIME_KEEP) {
        time = (struct timespec){.tv_nsec = nanoseconds == NC_TIME_NOW ? UTIME_NOW : UTIME_OMIT};
    }
    return time;
}

static int change(int host, uint32_t mode, const int64_t *times) {
    int error = mode != NC_MODE_KEEP && fchmod(host, mode & 0777) != 0 ? errno : 0;
    if (error == 0 && times != NULL) {
        const struct timespec both[] = {time_of(times[0]), time_of(times[1])};
        error = futimens(host, both) != 0 ? errno : 0;
    }
    return -error;
}

int about_change(Files *files, const char *path, uint32_t file, uint32_t mode, const int64_t *times) {
    const Open *open = files_of(files, file);
    int host, result;
    if (path == NULL) {
        return open == NULL ? -EBADF : !open->writable ? -EROFS : change(open->host, mode, times);
    }
    host = open_to_change(files, path);
    if (host < 0) {
        return host;
    }
    result = change(host, mode, times);
    (void)close(host);
    return result;
}
