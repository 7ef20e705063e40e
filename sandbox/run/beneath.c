/* How files are opened below a folder: no path leads out of it, and no file is opened in place of the one that was judged. TRUSTED, NOT
   PROVED. */
#define _GNU_SOURCE
#include "run.h"

#include <errno.h>
#include <fcntl.h>
#include <linux/openat2.h>
#include <stdio.h>
#include <sys/stat.h>
#include <sys/syscall.h>
#include <unistd.h>

#define TRIES 128 /* names may be changed below the folder meanwhile */

static int open_by(int folder, const char *path, const struct open_how *how) {
    unsigned tries;
    long file = -1;
    for (tries = 0; tries < TRIES; tries++) {
        file = syscall(SYS_openat2, folder, path, how, sizeof *how);
        if (file >= 0 || (errno != EAGAIN && errno != EINTR)) {
            break;
        }
    }
    return file >= 0 ? (int)file : errno == EXDEV || errno == ENXIO ? -EACCES : -errno;
}

int beneath_open(int folder, const char *path, uint64_t flags, uint64_t mode) {
    const struct open_how how = {.flags = flags | O_CLOEXEC, .mode = mode, .resolve = RESOLVE_BENEATH | RESOLVE_NO_MAGICLINKS};
    return open_by(folder, path, &how);
}

/* Opens the file of nc-run's that has this number once more, with other flags. */
static int open_number(int numbers, int file, uint64_t flags) {
    const struct open_how how = {.flags = flags | O_CLOEXEC};
    char name[16];
    (void)snprintf(name, sizeof name, "%d", file); /* any number has room */
    return open_by(numbers, name, &how);
}

static int is_same(int file, int other) {
    struct stat one, two;
    return files_stat(file, &one) == 0 && files_stat(other, &two) == 0 && one.st_dev == two.st_dev && one.st_ino == two.st_ino;
}

/* Its number leads to it, whatever is at its path by now. Without /proc the path is followed once more. */
int beneath_reopen(const View *view, int judged, const Place *place, uint64_t flags) {
    int by_number = view->numbers >= 0;
    int file = by_number ? open_number(view->numbers, judged, flags) : beneath_open(place->folder->file, place->within, flags, 0);
    if (file >= 0 && !by_number && !is_same(judged, file)) {
        (void)close(file);
        return BENEATH_CHANGED;
    }
    return file;
}
