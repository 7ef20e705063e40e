/* How a program makes, removes and renames what is below its folders, and goes from one folder to another. TRUSTED, NOT PROVED. */
#define _GNU_SOURCE
#include "run.h"

#include "guest/nc_run.h"

#include <errno.h>
#include <fcntl.h>
#include <string.h>
#include <sys/stat.h>
#include <sys/syscall.h>
#include <unistd.h>

/* Slashes behind the name belong to it. */
int names_parent(const Place *place, const char **name) {
    char parent[PATH_MAX + 2];
    size_t at = strlen(place->within);
    at -= at != 0 && place->within[at - 1] == '/';
    while (at != 0 && place->within[at - 1] != '/') {
        at--;
    }
    *name = place->within + at;
    memcpy(parent, place->within, at);
    memcpy(parent + at, ".", 2);
    return beneath_open(place->folder->file, parent, O_PATH | O_DIRECTORY, 0);
}

/* Finds a name that is to be changed, and opens the folder in which it is. */
static int open_parent(const Files *files, const char *path, Place *place, const char **name) {
    int error = view_find(&files->view, path, place), parent;
    if (error != 0 || place->folder == NULL) {
        return error != 0 ? -error : -EBUSY;
    }
    if (!place->folder->writable || place->ends_in_dots || strcmp(place->within, ".") == 0) {
        return !place->folder->writable ? -EROFS : place->ends_in_dots ? -EINVAL : -EBUSY;
    }
    parent = names_parent(place, name);
    error = parent < 0 ? -parent : kinds_judge_folder(parent);
    if (parent >= 0 && error != 0) {
        (void)close(parent);
    }
    return error != 0 ? -error : parent;
}

static int closed(int folder, int error) {
    (void)close(folder);
    return -error;
}

int names_make(Files *files, const char *path, uint32_t mode) {
    Place place;
    const char *name;
    int parent = open_parent(files, path, &place, &name);
    if (parent < 0) {
        return parent == -EBUSY || parent == -EINVAL ? -EEXIST : parent; /* the folder itself */
    }
    if (!files_may_make(files)) {
        return closed(parent, ENOSPC);
    }
    if (syscall(SYS_mkdirat, parent, name, mode & 0777) != 0) {
        return closed(parent, errno);
    }
    files_made(files);
    return closed(parent, 0);
}

int names_remove(Files *files, const char *path, uint32_t how) {
    Place place;
    const char *name;
    int parent = how > 1 ? -EINVAL : open_parent(files, path, &place, &name);
    return parent < 0 ? parent : closed(parent, syscall(SYS_unlinkat, parent, name, how != 0 ? AT_REMOVEDIR : 0) != 0 ? errno : 0);
}

int names_rename(Files *files, const char *path, const char *to) {
    Place place, to_place;
    const char *name, *to_name;
    int from = open_parent(files, path, &place, &name), into;
    if (from < 0) {
        return from;
    }
    into = open_parent(files, to, &to_place, &to_name);
    if (into < 0) {
        return closed(from, -into);
    }
    if (place.folder != to_place.folder) {
        (void)closed(into, 0);
        return closed(from, EXDEV);
    }
    return closed(from, -closed(into, syscall(SYS_renameat, from, name, into, to_name) != 0 ? errno : 0));
}

/* It may also be a name that only leads to folders. */
int names_enter(Files *files, const char *path) {
    Place place;
    int error = view_find(&files->view, path, &place), there;
    if (error == 0 && place.folder != NULL) {
        there = beneath_open(place.folder->file, place.within, O_PATH | O_DIRECTORY, 0);
        error = there < 0 ? -there : kinds_judge_folder(there);
        if (there >= 0) {
            (void)close(there);
        }
    }
    if (error == 0) {
        memcpy(files->view.where, place.name, sizeof place.name);
    }
    return -error;
}
