/* How a program opens a file: below one of its folders, and only once it is known what is there. TRUSTED, NOT PROVED. */
#define _GNU_SOURCE
#include "run.h"

#include "guest/nc_run.h"

#include <errno.h>
#include <fcntl.h>
#include <stdlib.h>
#include <string.h>
#include <unistd.h>

#define TRIES 128 /* names may be changed below the folder meanwhile */
#define CHANGING (NC_OPEN_CREATE | NC_OPEN_EMPTY | NC_OPEN_APPEND)
#define HOWS (NC_OPEN_WRITE | NC_OPEN_BOTH | CHANGING | NC_OPEN_NEW | NC_OPEN_FOLDER | NC_OPEN_NO_LINK | LARGE | CLOSE_ON_EXEC)
#define LARGE 0x8000 /* two that C libraries add for i386; every file is so */
#define CLOSE_ON_EXEC 0x80000

static int changes(uint32_t how) {
    return (how & (NC_OPEN_WRITE | NC_OPEN_BOTH | CHANGING)) != 0;
}

/* The error of what it isn't allowed to do, or 0. */
static int judge_how(const Folder *folder, uint32_t how) {
    uint32_t access = how & (NC_OPEN_WRITE | NC_OPEN_BOTH), makes_folder = NC_OPEN_FOLDER | NC_OPEN_CREATE;
    if ((how & ~(uint32_t)HOWS) != 0 || access == (NC_OPEN_WRITE | NC_OPEN_BOTH) || (how & makes_folder) == makes_folder) {
        return EINVAL;
    }
    return folder == NULL ? EACCES : changes(how) && !folder->writable ? EROFS : 0;
}

/* The flags for a file, with two for what may have taken its place: no terminal becomes nc-run's, and no pipe makes it wait. */
static uint64_t host_flags(uint32_t how) {
    /* clang-format off */
    static const struct { uint32_t of_program, of_host; } flags[] = {
        {NC_OPEN_WRITE, O_WRONLY}, {NC_OPEN_BOTH, O_RDWR}, {NC_OPEN_EMPTY, O_TRUNC}, {NC_OPEN_APPEND, O_APPEND},
    };
    /* clang-format on */
    uint64_t all = O_NOCTTY | O_NONBLOCK;
    size_t k;
    for (k = 0; k < sizeof flags / sizeof *flags; k++) {
        all |= (how & flags[k].of_program) != 0 ? flags[k].of_host : 0;
    }
    return all;
}

static int make_in(Files *files, int parent, const char *name, uint32_t how, uint32_t mode) {
    int error = kinds_judge_folder(parent), file;
    if (error != 0 || !files_may_make(files)) {
        return error != 0 ? -error : -ENOSPC;
    }
    file = beneath_open(parent, name, host_flags(how) | O_CREAT | O_EXCL, mode & 0777);
    if (file < 0) {
        return file == -EEXIST && (how & NC_OPEN_NEW) == 0 ? BENEATH_CHANGED : file;
    }
    files_made(files);
    return file;
}

/* Makes a file where none is. A link that leads to nothing is there, and isn't followed. */
static int make(Files *files, const Place *place, uint32_t how, uint32_t mode) {
    const char *name;
    int parent = names_parent(place, &name), file;
    if (parent < 0) {
        return parent;
    }
    file = make_in(files, parent, name, how, mode);
    (void)close(parent);
    return file;
}

/* The error of a file that is there, or 0. A folder is only read. */
static int judge_there(int there, uint32_t how, int *is_folder) {
    int error = (how & NC_OPEN_CREATE) != 0 && (how & NC_OPEN_NEW) != 0 ? EEXIST : kinds_judge_file(there);
    *is_folder = error == EISDIR && !changes(how);
    return *is_folder ? 0 : error == 0 && (how & NC_OPEN_FOLDER) != 0 ? ENOTDIR : error;
}

/* Opening by O_PATH goes unnoticed by a pipe, a device and whoever watches the file. So its kind is known before it is opened. */
static int open_once(Files *files, const Place *place, uint32_t how, uint32_t mode, int *is_folder) {
    uint64_t no_link = (how & NC_OPEN_NO_LINK) != 0 ? O_NOFOLLOW : 0;
    int there = beneath_open(place->folder->file, place->within, O_PATH | no_link, 0), error, file;
    if (there < 0) {
        return (how & NC_OPEN_CREATE) != 0 && there == -ENOENT ? make(files, place, how, mode) : there;
    }
    error = judge_there(there, how, is_folder);
    file = error != 0 ? -error : beneath_reopen(&files->view, there, place, host_flags(how) | (*is_folder ? O_DIRECTORY : 0));
    (void)close(there);
    return file;
}

static int take(Files *files, int number, int host, const Place *place, const Open *about) {
    Open file = *about;
    file.host = host;
    if (file.name != NULL) {
        file.name = strdup(place->name);
    }
    if (about->name != NULL && file.name == NULL) {
        (void)close(host);
        return -ENOMEM;
    }
    files_take(files, number, &file);
    return number;
}

int opening_open(Files *files, const char *path, uint32_t how, uint32_t mode) {
    Place place;
    int error = view_find(&files->view, path, &place), number = files_free(files, 0), file = BENEATH_CHANGED, is_folder = 0;
    unsigned tries;
    error = error != 0 ? error : judge_how(place.folder, how);
    if (error != 0 || number < 0) {
        return error != 0 ? -error : -EMFILE;
    }
    for (tries = 0; tries < TRIES && file == BENEATH_CHANGED; tries++) {
        file = open_once(files, &place, how, mode, &is_folder);
    }
    if (file < 0) {
        return file == BENEATH_CHANGED ? -ENOENT : file;
    }
    return take(files, number, file, &place,
                &(Open){.how = how, .writable = place.folder->writable, .name = is_folder ? place.name : NULL});
}
