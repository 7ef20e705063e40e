/* The folder of the program of the target `calls`. */
#define _GNU_SOURCE
#include "folder.h"

#include "fuzz.h"

#include <fcntl.h>
#include <ftw.h>
#include <limits.h>
#include <stdio.h>
#include <stdlib.h>
#include <string.h>
#include <sys/stat.h>
#include <unistd.h>

#define LEVELS (FOLDER_PARTS + 1) /* of folders above */

typedef struct Known {
    const char *name, *text; /* below the folder above; and its contents */
    struct stat was;
} Known;

/* What is there at first: the files in the folder, one outside of it, and links. */
static Known inside[] = {{"dir/file", "four\n", {0}}, {"dir/sub/inner", "inner\n", {0}}};
static Known secret = {"secret", "secret\n", {0}};
static const struct {
    const char *name, *to;
} links[] = {
    {"dir/sub/up", "../file"}, {"dir/out", "../secret"}, {"dir/above", ".."},
    {"dir/beyond", "../made"}, {"dir/loop", "loop"},     {"dir/self", "/proc/self"},
};
#define LENGTH(table) (sizeof(table) / sizeof *(table))

static char root[PATH_MAX / 4], above[PATH_MAX / 2], path[PATH_MAX];
static struct stat levels_were[LEVELS];
static struct stat folders_were[2]; /* the folder, and `sub` in it */
static int folder = -1;             /* the folder above */

/* ---- Removing */

static int remove_one(const char *name, const struct stat *about, int kind, struct FTW *where) {
    (void)about;
    return where->level == 0 && strcmp(name, path) == 0 ? 0 : kind == FTW_DP ? rmdir(name) : unlink(name);
}

static int was_closed; /* a folder that can't be read, before it was opened up */

static int open_up(const char *name, const struct stat *about, int kind, struct FTW *where) {
    (void)about;
    (void)where;
    was_closed |= kind == FTW_DNR;
    return kind == FTW_D || kind == FTW_DNR ? chmod(name, 0755) : 0;
}

/* All that is below a folder of ours, and that folder itself unless it is the one of the program. */
static int remove_below(const char *name) {
    int error = 0;
    do {
        was_closed = 0;
        error |= nftw(name, open_up, 16, FTW_PHYS);
    } while (was_closed && error == 0);
    return error == 0 ? nftw(name, remove_one, 16, FTW_DEPTH | FTW_PHYS) : error;
}

static void remove_all(void) {
    (void)remove_below(root); /* nobody is told, since the process ends */
}

/* ---- Making */

static void make_levels(void) {
    const char *where = getenv("TMPDIR");
    unsigned k;
    int len = snprintf(root, sizeof root, "%s/nc-fuzz-XXXXXX", where != NULL ? where : "/tmp");
    MUST(len > 0 && (size_t)len < sizeof root && mkdtemp(root) != NULL && realpath(root, above) != NULL && strlen(above) < sizeof root);
    MUST(atexit(remove_all) == 0);
    for (k = 0; k < LEVELS; k++) {
        strcat(above, "/d");
        MUST(mkdir(above, 0755) == 0);
    }
    len = snprintf(path, sizeof path, "%s/dir", above);
    MUST(len > 0 && (size_t)len < sizeof path && mkdir(path, 0755) == 0);
    folder = open(above, O_PATH | O_DIRECTORY | O_CLOEXEC);
    MUST(folder >= 0);
}

static void write_one(Known *known) {
    int file = openat(folder, known->name, O_WRONLY | O_CREAT | O_TRUNC | O_CLOEXEC | O_NOFOLLOW, 0644);
    size_t len = strlen(known->text);
    MUST(file >= 0 && write(file, known->text, len) == (ssize_t)len && fchmod(file, 0644) == 0 && close(file) == 0);
    MUST(fstatat(folder, known->name, &known->was, AT_SYMLINK_NOFOLLOW) == 0);
}

static void see_folders(void) {
    MUST(fstatat(folder, "dir", &folders_were[0], 0) == 0 && fstatat(folder, "dir/sub", &folders_were[1], 0) == 0);
}

/* The k-th folder above, counted from the one above the folder. */
static struct stat level(unsigned k) {
    char up[3 * LEVELS + 2] = ".";
    struct stat about;
    while (k-- != 0) {
        strcat(up, "/..");
    }
    MUST(fstatat(folder, up, &about, 0) == 0);
    return about;
}

static void make_links(void) {
    size_t k;
    MUST(mkdirat(folder, "dir/sub", 0755) == 0 && mkfifoat(folder, "dir/pipe", 0644) == 0);
    for (k = 0; k < LENGTH(links); k++) {
        MUST(symlinkat(links[k].to, folder, links[k].name) == 0);
    }
    MUST(symlinkat(above, folder, "dir/root") == 0);
}

static void see_levels(void) {
    unsigned k;
    for (k = 0; k < LEVELS; k++) {
        levels_were[k] = level(k);
    }
}

static void fill(void) {
    size_t k;
    make_links();
    for (k = 0; k < LENGTH(inside); k++) {
        write_one(&inside[k]);
    }
    see_folders();
}

void folder_begin(void) {
    make_levels();
    write_one(&secret);
    fill();
    see_levels();
}

const char *folder_path(void) {
    return path;
}

const char *folder_above(void) {
    return above;
}

const char *folder_part(unsigned number) {
    static const char *const parts[] = {"file", "sub",  "inner", "made",   "..",  ".", "",   "up",  "out", "above", "beyond", "loop",
                                        "self", "root", "pipe",  "secret", "dir", "d", "fd", "mem", "cwd", "more",  "\n",     "\xFF"};
    return parts[number % LENGTH(parts)];
}

/* ---- What has changed */

static int is_same(const struct stat *a, const struct stat *b) {
    return a->st_ino == b->st_ino && a->st_mode == b->st_mode && a->st_nlink == b->st_nlink && a->st_size == b->st_size &&
           a->st_ctim.tv_sec == b->st_ctim.tv_sec && a->st_ctim.tv_nsec == b->st_ctim.tv_nsec;
}

/* Some systems change a time once in some milliseconds only, so the contents count too. */
static int has_its_text(const Known *known) {
    char text[16];
    int file = openat(folder, known->name, O_RDONLY | O_CLOEXEC | O_NOFOLLOW);
    ssize_t len = file >= 0 ? read(file, text, sizeof text) : -1;
    MUST(file < 0 || close(file) == 0);
    return len == (ssize_t)strlen(known->text) && memcmp(text, known->text, (size_t)len) == 0;
}

static int is_as_it_was(const Known *known) {
    struct stat about;
    return fstatat(folder, known->name, &about, AT_SYMLINK_NOFOLLOW) == 0 && is_same(&about, &known->was) && has_its_text(known);
}

int folder_outside_is_same(void) {
    unsigned k;
    for (k = 0; k < LEVELS; k++) {
        struct stat about = level(k);
        if (!is_same(&about, &levels_were[k])) {
            return 0;
        }
    }
    return is_as_it_was(&secret);
}

/* ---- What is in it */

typedef struct Counts {
    unsigned all, links, pipes, others;
} Counts;
static Counts counts;

static int count_one(const char *name, const struct stat *about, int kind, struct FTW *where) {
    (void)name;
    (void)kind;
    counts.all += where->level != 0;
    counts.links += S_ISLNK(about->st_mode);
    counts.pipes += S_ISFIFO(about->st_mode);
    counts.others += !S_ISLNK(about->st_mode) && !S_ISFIFO(about->st_mode) &&
                     ((!S_ISREG(about->st_mode) && !S_ISDIR(about->st_mode)) || (about->st_mode & 07000) != 0);
    return 0;
}

/* What is in folders that can't be read isn't counted. */
static Counts count(void) {
    memset(&counts, 0, sizeof counts);
    MUST(nftw(path, count_one, 16, FTW_PHYS) == 0);
    return counts;
}

unsigned folder_count(void) {
    return count().all;
}

int folder_inside_is_same(void) {
    struct stat dir, sub;
    MUST(fstatat(folder, "dir", &dir, 0) == 0);
    return is_same(&dir, &folders_were[0]) && fstatat(folder, "dir/sub", &sub, 0) == 0 && is_same(&sub, &folders_were[1]) &&
           is_as_it_was(&inside[0]) && is_as_it_was(&inside[1]);
}

int folder_inside_is_good(void) {
    Counts now = count();
    return now.links <= LENGTH(links) + 1 && now.pipes <= 1 && now.others == 0;
}

void folder_restore(void) {
    if (!folder_inside_is_same()) {
        MUST(chmod(path, 0755) == 0 && remove_below(path) == 0);
        fill();
    }
}
