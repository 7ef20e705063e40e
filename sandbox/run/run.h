/* What the files of nc-run share. TRUSTED, NOT PROVED. */
#ifndef RUN_H
#define RUN_H

#include "nc_sandbox.h"

#include <limits.h>
#include <stddef.h>
#include <stdint.h>

struct stat;

/* The statuses that aren't the program's own. */
enum { STATUS_USAGE = 122, STATUS_SYSTEM, STATUS_LATE, STATUS_REFUSED, STATUS_CRASHED };

/* ---- view.c: the names that a program has for files, which begin at `/`; and what it has there */

#define FOLDERS_MAX 16u

/* A folder of the system's that the program has. */
typedef struct Folder {
    const char *host; /* its path, of so many bytes */
    size_t host_len;
    char name[PATH_MAX]; /* in the view, such as /a/b, or nothing for `/` */
    int writable;
    int file; /* or -1 */
} Folder;

typedef struct View {
    Folder *folders;
    unsigned count;
    int numbers;          /* the file of /proc/self/fd, or -1 if it isn't there */
    char where[PATH_MAX]; /* where paths begin that don't begin with a slash, as in `name` */
} View;

/* What a path of the program's means. */
typedef struct Place {
    char name[PATH_MAX];       /* in the view, as that of a folder */
    const Folder *folder;      /* in which it is, or NULL if it only leads to folders */
    char within[PATH_MAX + 2]; /* below that, for openat; "." for the folder itself */
    int ends_in_dots;          /* its last name is `.` or `..` */
} Place;

/* Makes a path of the view plain: without `.`, `..` and slashes that say nothing. `..` takes away the name before it, whatever that is, and
   at the root nothing. `where` is plain. Whether there was room. */
int view_plain(const char *where, const char *path, char plain[PATH_MAX]);

/* Opens the folders, whose files get ascending numbers. NULL, or what failed, with errno. */
const char *view_begin(View *view, Folder *folders, unsigned count);

/* Finds what a path means. 0, or an error. */
int view_find(const View *view, const char *path, Place *place);

/* ---- line.c */

/* What becomes of a program on a system without the whole second wall; or there is to be none. */
enum { WALL_TRY, WALL_MUST, WALL_NONE };

#define ENV_MAX 256u

typedef struct Line {
    uint32_t milliseconds, memory;
    uint32_t live;            /* bytes of code that the program may make */
    uint64_t write;           /* bytes that may be written below the folders */
    const char *call;         /* the function to call, or NULL for the entry */
    const char *env[ENV_MAX]; /* each as NAME=VALUE */
    unsigned env_count;
    int wall;
    int maps;     /* whether perf is told of its functions */
    int debugger; /* the file by which a debugger is told where the program is, or 0 */
    const char *file;
    char **words; /* those that follow the file's name */
    unsigned count;
    uint32_t numbers[NCS_ARGS_MAX]; /* the words, if a function is called */
    unsigned folder_count;
    Folder folders[FOLDERS_MAX]; /* the last, since most of these pages are never touched */
} Line;

/* Reads the command line. What the program ends with at once: after a help or a version 0, after a mistake STATUS_USAGE; or -1. */
int line_read(int argc, char **argv, Line *line);

/* ---- files.c */

#define FILES_MAX 64

/* What a call does with a file. Of the standard ones 0 is for reading, and 1 and 2 are for writing. */
enum { TO_ASK, TO_READ, TO_WRITE };

/* An open file, which has at least one number of the program. */
typedef struct Open {
    int host;       /* nc-run's file */
    unsigned users; /* its numbers; 0 if this is none */
    int moved;      /* whether its place has moved since the last write */
    uint32_t how;   /* it was opened */
    int writable;   /* whether it is below a writable folder */
    uint64_t pipe;  /* of which it is an end, from 1 on; or 0 */
    char *name;     /* of a folder, in the view; or NULL */
} Open;

/* The files of the program by its numbers for them. It never has the number of another file of nc-run. */
typedef struct Files {
    View view;
    uint64_t left;  /* bytes that may still be written below the folders */
    uint64_t pipes; /* that were made */
    Open open[FILES_MAX];
    Open *of[FILES_MAX];
} Files;

/* Before any file is opened: sees which of 0, 1 and 2 are open. NULL, or what failed, with errno. */
const char *files_begin(Files *files);

/* Closes what nc-run has from its parent besides 0, 1 and 2. */
void files_leave_others(const Files *files);

/* The open file behind a number of the program, or NULL. */
Open *files_of(Files *files, uint32_t file);

/* The file of nc-run behind a number of the program, or -1. */
int files_host(Files *files, uint32_t file, int use);

/* Whether it is 0, 1 or 2 of nc-run's, whose place others share. */
int files_is_standard(int host);

/* Whether it lies below a folder of the program. */
int files_is_beneath(const Open *file);

/* As fstat, by a system call that takes no path. */
int files_stat(int host, struct stat *about);

/* How many of so many bytes may be written to a file that the program has. */
size_t files_room(const Files *files, const Open *file, size_t len);

/* Keeps an account of a write to such a file. */
void files_wrote(Files *files, Open *file, size_t len);

/* Whether a file or a folder more may be made; and that it was. */
int files_may_make(const Files *files);
void files_made(Files *files);

int files_free(const Files *files, uint32_t from); /* the least number, from this one on, that the program has no file for, or -1 */
void files_take(Files *files, int number, const Open *file);
int files_close(Files *files, uint32_t file); /* 0, or the negative error */

/* Gives an open file another number: this one, whose own file is closed, or else the least from this one on. The number, or the error. */
int files_copy(Files *files, uint32_t file, uint32_t number, int exactly);

/* Makes a pipe, and tells the numbers of its ends. 0, or the negative error. */
int files_pipe(Files *files, int32_t numbers[2]);

/* ---- beneath.c: each returns a file, or the negative error */

/* Opens what a path below a folder leads to. No "..", link or mount of the kernel's own kind leads out of the folder. */
int beneath_open(int folder, const char *path, uint64_t flags, uint64_t mode);

#define BENEATH_CHANGED (-4096) /* no error has this number: what is at the path has changed meanwhile */

/* Opens a file that was judged, which is there by O_PATH. */
int beneath_reopen(const View *view, int judged, const Place *place, uint64_t flags);

/* ---- opening.c and names.c: each returns 0 or a number of a file, or the negative error */

int opening_open(Files *files, const char *path, uint32_t how, uint32_t mode);

/* Opens the folder that has the last name of a path in a folder, and tells the name. */
int names_parent(const Place *place, const char **name);

/* As mkdir, unlink or rmdir, rename, and chdir. */
int names_make(Files *files, const char *path, uint32_t mode);
int names_remove(Files *files, const char *path, uint32_t how);
int names_rename(Files *files, const char *path, const char *to);
int names_enter(Files *files, const char *path);

/* ---- about.c: what is known of files, and changed; each returns 0 or what it says, or the negative error */

struct nc_status;

/* Of what is at a path, or, if there is none, of an open file. `how` is that of nc_status. */
int about_tell(Files *files, const char *path, uint32_t file, uint32_t how, struct nc_status *to);

/* Where a link leads: so many bytes. */
int about_link(const Files *files, const char *path, char to[PATH_MAX]);

/* As ftruncate. */
int about_cut(Files *files, uint32_t file, uint64_t len);

/* As fsync. */
int about_flush(Files *files, uint32_t file);

/* Changes rights and times; `times` has two, or is NULL. */
int about_change(Files *files, const char *path, uint32_t file, uint32_t mode, const int64_t *times);

/* ---- kinds.c: each tells the error of what a program doesn't get, or 0 */

int kinds_judge_file(int file);   /* one that it would open: EISDIR for a folder, and ELOOP for a link */
int kinds_judge_folder(int file); /* one in which it would make a file, or of which it asks something */
int kinds_is_proc(int file);      /* no error: whether it is one of procfs */

/* ---- lines.c: source lines of the program's code, which nc-run doesn't read, and a debugger */

/* Whether a file that is accepted says which lines its code is of. */
int lines_are_in(const uint8_t *bytes, size_t len);

/* Prints the command that tells the lines of these places of the code. */
void lines_print_command(const char *file, const uint32_t *places, size_t count);

/* ---- perf.c */

/* Writes perf-PID.map of /tmp, by which perf names the program's functions. NULL, or what failed, with errno. */
const char *perf_write_map(const NcsModule *module, const NcsBox *box);

/* ---- main.c */

#define RUN_TERMINALS 3u

typedef struct Run {
    Line line;
    Files files;
    uint8_t *bytes; /* of the file */
    size_t len;
    int has_lines;
    NcsModule *module;
    NcsBox *box;
    uint32_t memory_end;              /* of the memory that the program may use */
    int64_t terminals[RUN_TERMINALS]; /* what nc_terminal says of 0, 1 and 2 */
    int lacks_folder, lacks_right;    /* whether a call failed that --dir, or --dir-rw, would have let succeed */
} Run;

/* ---- things.c, ready.c and serve.c: what a program calls */

/* Sees which of the standard files are terminals. */
void things_begin(Run *run);

/* Gives the box the calls of nc_run.h. Whether it has them. */
int calls_give(Run *run);

/* ---- report.c: each tells why nc-run ends, in a line on standard error, and returns the status */

int report_system(const char *what, int error);                          /* errno, or 0 for none */
int report_file(const Run *run, const char *sentence, const char *word); /* the word follows the sentence */
int report_refusal(const Run *run, const NcsRefusal *why);
int report_end(const Run *run, const NcsEnd *end, int was_entered); /* of a call that neither returned nor exited */
int report_wall(int stands, const NcsRefusal *why);                 /* that isn't whole */
int report_lack(const Run *run, int status);                        /* which option would have helped a program that failed */

#endif
