/* The view that a program has of files: the folders that it was given, by names of their own, and what is below them. TRUSTED, NOT
   PROVED. */
#define _GNU_SOURCE
#include "run.h"

#include <errno.h>
#include <fcntl.h>
#include <stdlib.h>
#include <string.h>
#include <unistd.h>

static int is_dots(const char *name, size_t len) {
    return (len == 1 && name[0] == '.') || (len == 2 && name[0] == '.' && name[1] == '.');
}

/* Appends a name to a plain path of so many bytes. Whether there was room, for a slash and a 0 as well. */
static int add_name(char plain[PATH_MAX], size_t *len, const char *name, size_t name_len) {
    if (is_dots(name, name_len)) {
        while (name_len == 2 && *len > 0 && plain[--*len] != '/') {}
        return 1;
    }
    if (name_len + 2 > PATH_MAX - *len) {
        return 0;
    }
    plain[*len] = '/';
    memcpy(plain + *len + 1, name, name_len);
    *len += name_len + 1;
    return 1;
}

int view_plain(const char *where, const char *path, char plain[PATH_MAX]) {
    size_t len = path[0] == '/' ? 0 : strlen(where), name_len;
    memmove(plain, where, len);
    for (path += strspn(path, "/"); *path != 0; path += strspn(path, "/")) {
        name_len = strcspn(path, "/");
        if (!add_name(plain, &len, path, name_len)) {
            return 0;
        }
        path += name_len;
    }
    plain[len] = 0;
    return 1;
}

/* Where /proc isn't mounted, another folder may have this name. */
static int open_numbers(void) {
    int file = open("/proc/self/fd", O_PATH | O_DIRECTORY | O_CLOEXEC);
    if (file >= 0 && !kinds_is_proc(file)) {
        (void)close(file);
        return -1;
    }
    return file;
}

/* The path of a folder on the command line. Whether there was room. */
static int copy_path(const Folder *folder, char path[PATH_MAX]) {
    if (folder->host_len >= PATH_MAX) {
        return 0;
    }
    memcpy(path, folder->host, folder->host_len);
    path[folder->host_len] = 0;
    return 1;
}

/* A system that can't confine a path is refused at once. */
static const char *begin_folder(Folder *folder) {
    static char path[PATH_MAX]; /* named where it can't be opened */
    int again;
    if (!copy_path(folder, path)) {
        errno = ENAMETOOLONG;
        return "a folder";
    }
    folder->file = open(path, O_PATH | O_DIRECTORY | O_CLOEXEC);
    if (folder->file < 0) {
        return path;
    }
    again = beneath_open(folder->file, ".", O_PATH | O_DIRECTORY, 0);
    if (again < 0) {
        errno = -again;
        return "openat2, without which no folder is confined";
    }
    (void)close(again);
    return NULL;
}

/* Whether the plain path is the folder with this name, or below it. */
static int is_below(const char *plain, const char *name) {
    size_t len = strlen(name);
    return strncmp(plain, name, len) == 0 && (plain[len] == 0 || plain[len] == '/');
}

/* The folder in which a plain path is: the one with the longest name. */
static const Folder *folder_of(const View *view, const char *plain) {
    const Folder *found = NULL;
    unsigned k;
    for (k = 0; k < view->count; k++) {
        const Folder *folder = &view->folders[k];
        if (is_below(plain, folder->name) && (found == NULL || strlen(folder->name) > strlen(found->name))) {
            found = folder;
        }
    }
    return found;
}

/* The name in the view of nc-run's own folder, whose path is here, if this folder has it and no other one has taken its name. */
static int name_here(const View *view, const Folder *folder, const char *here, char name[PATH_MAX]) {
    char path[PATH_MAX], real[PATH_MAX];
    size_t len, name_len = strlen(folder->name);
    if (!copy_path(folder, path) || realpath(path, real) == NULL) {
        return 0;
    }
    len = real[1] == 0 ? 0 : strlen(real);
    real[len] = 0;
    if (!is_below(here, real) || name_len + strlen(here + len) >= PATH_MAX) {
        return 0;
    }
    memcpy(path, folder->name, name_len);
    memcpy(path + name_len, here + len, strlen(here + len) + 1);
    return view_plain("", path, name) && folder_of(view, name) == folder;
}

/* The program begins where nc-run does, if it has that folder, and otherwise at the root. The longest name says most. */
static void begin_where(View *view) {
    char here[PATH_MAX], name[PATH_MAX];
    unsigned k, found = getcwd(here, sizeof here) != NULL && here[0] == '/' ? view->count : 0;
    for (k = 0; k < found; k++) {
        if (name_here(view, &view->folders[k], here, name) && strlen(name) > strlen(view->where)) {
            memcpy(view->where, name, sizeof name);
        }
    }
}

const char *view_begin(View *view, Folder *folders, unsigned count) {
    const char *what = NULL;
    view->folders = folders;
    view->numbers = -1;
    view->where[0] = 0;
    for (view->count = 0; view->count < count && what == NULL; view->count++) {
        what = begin_folder(&folders[view->count]);
    }
    if (what == NULL && count != 0) {
        view->numbers = open_numbers();
        begin_where(view);
    }
    return what;
}

static int leads_to_folders(const View *view, const char *plain) {
    unsigned k = 0;
    while (k < view->count && !is_below(view->folders[k].name, plain)) {
        k++;
    }
    return k < view->count;
}

/* The path below the folder. It keeps a slash at its end, since a folder has to be there. */
static void set_within(Place *place, int ends_in_slash) {
    const char *below = place->name + strlen(place->folder->name);
    size_t len;
    below += *below == '/';
    len = strlen(below);
    memcpy(place->within, below, len + 1);
    if (len == 0) {
        memcpy(place->within, ".", 2);
    } else if (ends_in_slash) {
        memcpy(place->within + len, "/", 2);
    }
}

int view_find(const View *view, const char *path, Place *place) {
    const char *slash = strrchr(path, '/'), *last = slash != NULL ? slash + 1 : path;
    place->ends_in_dots = is_dots(last, strlen(last));
    place->folder = NULL;
    if (path[0] == 0 || !view_plain(view->where, path, place->name)) {
        return path[0] == 0 ? ENOENT : ENAMETOOLONG;
    }
    place->folder = folder_of(view, place->name);
    if (place->folder == NULL) {
        return view->count == 0 ? EACCES : leads_to_folders(view, place->name) ? 0 : ENOENT;
    }
    set_within(place, last[0] == 0 || place->ends_in_dots);
    return 0;
}
