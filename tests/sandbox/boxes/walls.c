/* The second wall. Each row is a system call behind a wall, in a process of its own, with the end that the rules for the wall give it. Then
   come threads, boxes, walls that can't be built, and the wall's own system calls, each of which is refused in turn. Each group prints a
   line. A WRONG line says what isn't as it has to be. */
#define _GNU_SOURCE
#include "codes.h"
#include "refusing.h"

#include <errno.h>
#include <fcntl.h>
#include <linux/openat2.h>
#include <netinet/in.h>
#include <pthread.h>
#include <sched.h>
#include <signal.h>
#include <stdio.h>
#include <stdlib.h>
#include <string.h>
#include <sys/ioctl.h>
#include <sys/mman.h>
#include <sys/prctl.h>
#include <sys/stat.h>
#include <sys/syscall.h>
#include <sys/wait.h>
#include <unistd.h>

#define COUNT(table) (sizeof(table) / sizeof *(table))
#define X32 0x40000000
#define SOCKET 100 /* the number of a socket that the test has */

/* How a process ends: with the error of a row's system call as its status, or 0; with BAD, if something else was wrong; by SIGSYS; or by
   another signal. */
enum { MADE = 0, BAD = 200, KILLED = -1, SIGNALLED = 1000 };

typedef struct Row {
    const char *name;
    int end;
    long number, words[6];
    long from; /* the version of Landlock that has this rule; 0 for any */
} Row;

static long landlock; /* its version here */
static NcsFolder reading, writing;
static char page[PAGE] __attribute__((aligned(PAGE)));
static char *const no_words[] = {NULL};
static const struct open_how to_read = {.flags = O_RDONLY};
static const struct sockaddr_in anywhere = {.sin_family = AF_INET};

/* ---- Processes */

/* The kernel's result of a system call that no wrapper sees. */
static long raw(long number, const long *words) {
    register long fourth __asm__("r10") = words[3];
    register long fifth __asm__("r8") = words[4];
    register long sixth __asm__("r9") = words[5];
    long result;
    __asm__ volatile("syscall"
                     : "=a"(result)
                     : "0"(number), "D"(words[0]), "S"(words[1]), "d"(words[2]), "r"(fourth), "r"(fifth), "r"(sixth)
                     : "rcx", "r11", "memory");
    return result;
}

static int made(long number, long first) {
    const long words[6] = {first};
    long result = raw(number, words);
    return result < 0 ? (int)-result : MADE;
}

/* How a process ends in which this is done. */
static int ended(int (*act)(const void *), const void *given) {
    int status = -1;
    pid_t child;
    (void)fflush(stdout);
    child = fork();
    if (child == 0) {
        int end;
        testing_wrong = 0;
        end = act(given);
        (void)fflush(stdout);
        (void)made(SYS_exit_group, end);
    }
    CHECK(child > 0 && waitpid(child, &status, 0) == child);
    return WIFEXITED(status) ? WEXITSTATUS(status) : WTERMSIG(status) == SIGSYS ? KILLED : SIGNALLED + WTERMSIG(status);
}

static void expect(const char *name, int end, int wanted) {
    if (end != wanted) {
        printf("WRONG: %s: %d, not %d\n", name, end, wanted);
        testing_wrong++;
    }
}

static void build(const NcsWall *wall) {
    NcsRefusal why;
    if (ncs_wall(wall, &why) != NCS_WALL_WHOLE || why.kind != NCS_OK) {
        printf("WRONG: no wall: %s\n", why.sentence);
        testing_wrong++;
    }
}

/* ---- Rows */

typedef struct Trial {
    const NcsWall *wall;
    const Row *row;
} Trial;

static int try_row(const void *given) {
    const Trial *trial = given;
    long result;
    build(trial->wall);
    result = raw(trial->row->number, trial->row->words);
    return testing_wrong != 0 ? BAD : result < 0 ? (int)-result : MADE;
}

static void try_rows(const char *name, const NcsWall *wall, const Row *rows, size_t count) {
    size_t k;
    for (k = 0; k < count; k++) {
        const Trial trial = {wall, &rows[k]};
        if (rows[k].from <= landlock) {
            expect(rows[k].name, ended(try_row, &trial), rows[k].end);
        }
    }
    puts(name);
}

static const Row CLOSED[] = {
    {"a read", EBADF, SYS_read, {-1}, 0},
    {"a write", EBADF, SYS_write, {-1}, 0},
    {"a place", EBADF, SYS_lseek, {-1}, 0},
    {"what a file is", EBADF, SYS_fstat, {-1}, 0},
    {"what the file of a path is", ENOSYS, SYS_newfstatat, {AT_FDCWD, (long)"out", (long)page}, 0},
    {"what a terminal is told", ENOTTY, SYS_ioctl, {0, TIOCSTI, (long)page}, 0},
    {"memory", MADE, SYS_mmap, {0, PAGE, PROT_READ | PROT_WRITE, MAP_PRIVATE | MAP_ANONYMOUS, -1}, 0},
    {"memory of code", KILLED, SYS_mmap, {0, PAGE, PROT_READ | PROT_EXEC, MAP_PRIVATE | MAP_ANONYMOUS, -1}, 0},
    {"data again", MADE, SYS_mprotect, {(long)page, PAGE, PROT_READ | PROT_WRITE}, 0},
    {"data as code", KILLED, SYS_mprotect, {(long)page, PAGE, PROT_READ | PROT_EXEC}, 0},
    {"data as code with a key", KILLED, 329, {(long)page, PAGE, PROT_READ | PROT_EXEC, -1}, 0},
    {"memory of a file", KILLED, SYS_memfd_create, {(long)"x"}, 0},
    {"shared memory", KILLED, SYS_shmat, {0}, 0},
    {"a file", KILLED, SYS_openat, {AT_FDCWD, (long)"in/file", O_RDONLY}, 0},
    {"a file in the old way", KILLED, SYS_open, {(long)"in/file", O_RDONLY}, 0},
    {"a file in the new way", KILLED, SYS_openat2, {AT_FDCWD, (long)"in/file", (long)&to_read, sizeof to_read}, 0},
    {"a program", KILLED, SYS_execve, {(long)"/bin/true", (long)no_words, (long)no_words}, 0},
    {"a program by its file", KILLED, SYS_execveat, {AT_FDCWD, (long)"/bin/true", (long)no_words, (long)no_words}, 0},
    {"a process", KILLED, SYS_fork, {0}, 0},
    {"a process by clone", KILLED, SYS_clone, {SIGCHLD}, 0},
    {"a thread", KILLED, SYS_clone, {CLONE_VM | CLONE_SIGHAND | CLONE_THREAD}, 0},
    {"a thread in the new way", ENOSYS, 435, {(long)page, 88}, 0},
    {"a socket", KILLED, SYS_socket, {AF_INET, SOCK_STREAM}, 0},
    {"the life of another process", KILLED, SYS_ptrace, {0}, 0},
    {"the memory of another process", KILLED, SYS_process_vm_writev, {1}, 0},
    {"a signal to another process", KILLED, SYS_kill, {1}, 0},
    {"a signal to a thread of it", KILLED, SYS_tgkill, {1, 1}, 0},
    {"the process's name", KILLED, SYS_prctl, {PR_SET_NAME, (long)"x"}, 0},
    {"a way to make calls known", EINVAL, SYS_prctl, {59, 99}, 0},
    {"a further filter", KILLED, SYS_seccomp, {0}, 0},
    {"a ring of calls", KILLED, 425, {1, (long)page}, 0},
    {"a program of the kernel's", KILLED, SYS_bpf, {0}, 0},
    {"a mount", KILLED, SYS_mount, {0}, 0},
    {"a namespace", KILLED, SYS_unshare, {CLONE_NEWUSER}, 0},
    {"a user", KILLED, SYS_setuid, {0}, 0},
    {"a number without a call", KILLED, 1000, {0}, 0},
    {"a number of x32", KILLED, X32 + SYS_getpid, {0}, 0},
};

static const Row READING[] = {
    {"a file in the folder", MADE, SYS_openat, {AT_FDCWD, (long)"in/file", O_RDONLY}, 0},
    {"a file in the folder, in the new way", MADE, SYS_openat2, {AT_FDCWD, (long)"in/file", (long)&to_read, sizeof to_read}, 0},
    {"a file to be written", EACCES, SYS_openat, {AT_FDCWD, (long)"in/file", O_WRONLY}, 0},
    {"a file to be made", EACCES, SYS_openat, {AT_FDCWD, (long)"in/made", O_WRONLY | O_CREAT, 0600}, 0},
    {"a file to be cut", EACCES, SYS_openat, {AT_FDCWD, (long)"in/file", O_RDONLY | O_TRUNC}, 3},
    {"names in the folder", MADE, SYS_openat, {AT_FDCWD, (long)"in", O_RDONLY | O_DIRECTORY}, 0},
    {"names outside of it", EACCES, SYS_openat, {AT_FDCWD, (long)".", O_RDONLY | O_DIRECTORY}, 0},
    {"a file outside of it", EACCES, SYS_openat, {AT_FDCWD, (long)"out", O_RDONLY}, 0},
    {"a file outside of it, by a detour", EACCES, SYS_openat, {AT_FDCWD, (long)"in/../out", O_RDONLY}, 0},
    {"a file outside of it, in the new way", EACCES, SYS_openat2, {AT_FDCWD, (long)"out", (long)&to_read, sizeof to_read}, 0},
    {"the memory of the process", EACCES, SYS_openat, {AT_FDCWD, (long)"/proc/self/mem", O_RDWR}, 0},
    {"what a file system is", EBADF, SYS_fstatfs, {-1}, 0},
    {"a socket, with a folder", KILLED, SYS_socket, {AF_INET, SOCK_STREAM}, 0},
    {"times of an open file, with a folder", KILLED, SYS_utimensat, {-1}, 0},
};

static const Row WRITING[] = {
    {"a file in the folder, to be read", MADE, SYS_openat, {AT_FDCWD, (long)"in/file", O_RDONLY}, 0},
    {"a file in the folder, to be written", MADE, SYS_openat, {AT_FDCWD, (long)"in/file", O_WRONLY}, 0},
    {"a file in the folder, to be made", MADE, SYS_openat, {AT_FDCWD, (long)"in/new", O_WRONLY | O_CREAT, 0600}, 0},
    {"a file in the folder, to be cut", MADE, SYS_openat, {AT_FDCWD, (long)"in/file", O_WRONLY | O_TRUNC}, 0},
    {"a file outside of it, to be written", EACCES, SYS_openat, {AT_FDCWD, (long)"out", O_WRONLY}, 0},
    {"a file outside of it, to be made", EACCES, SYS_openat, {AT_FDCWD, (long)"new", O_WRONLY | O_CREAT, 0600}, 0},
    {"a folder", KILLED, SYS_mkdir, {(long)"in/folder", 0700}, 0},
    {"a file that goes", KILLED, SYS_unlink, {(long)"in/file"}, 0},
    {"a file of another name", KILLED, SYS_rename, {(long)"in/file", (long)"in/other"}, 0},
    {"a link", KILLED, SYS_link, {(long)"out", (long)"in/link"}, 0},
    {"a device", KILLED, SYS_mknod, {(long)"in/device", S_IFCHR | 0600, 0}, 0},
    {"rights of a file", KILLED, SYS_chmod, {(long)"in/file", 04777}, 0},
    {"times of an open file", EBADF, SYS_utimensat, {-1}, 0},
    {"times of a file at a path", KILLED, SYS_utimensat, {AT_FDCWD, (long)"out"}, 0},
    {"times of a file at a path whose address ends in zeros", KILLED, SYS_utimensat, {AT_FDCWD, 1l << 32}, 0},
    {"times of a file at a path whose address begins with zeros", KILLED, SYS_utimensat, {AT_FDCWD, 1}, 0},
};

/* What the host names besides, for names in the folder. */
static const int CHANGES[] = {SYS_mkdirat, SYS_unlinkat, SYS_renameat, SYS_symlinkat};
static const Row CHANGING[] = {
    {"a folder in the folder", MADE, SYS_mkdirat, {AT_FDCWD, (long)"in/folder", 0700}, 0},
    {"a folder outside of it", EACCES, SYS_mkdirat, {AT_FDCWD, (long)"folder", 0700}, 0},
    {"a folder that goes", MADE, SYS_unlinkat, {AT_FDCWD, (long)"in/folder", AT_REMOVEDIR}, 0},
    {"a file outside of it that goes", EACCES, SYS_unlinkat, {AT_FDCWD, (long)"out"}, 0},
    {"a file of another name", MADE, SYS_renameat, {AT_FDCWD, (long)"in/file", AT_FDCWD, (long)"in/other"}, 0},
    {"its old name", MADE, SYS_renameat, {AT_FDCWD, (long)"in/other", AT_FDCWD, (long)"in/file"}, 0},
    {"a file that comes out", EACCES, SYS_renameat, {AT_FDCWD, (long)"in/file", AT_FDCWD, (long)"file"}, 2},
    {"a file that comes in", EACCES, SYS_renameat, {AT_FDCWD, (long)"out", AT_FDCWD, (long)"in/out"}, 2},
    {"a link in the folder", EACCES, SYS_symlinkat, {(long)"out", AT_FDCWD, (long)"in/link"}, 0},
};
static const Row UNCHANGING[] = {
    {"a folder in the folder to be read", EACCES, SYS_mkdirat, {AT_FDCWD, (long)"in/folder", 0700}, 0},
    {"a file in the folder to be read that goes", EACCES, SYS_unlinkat, {AT_FDCWD, (long)"in/file"}, 0},
    {"a name in the folder to be read", EACCES, SYS_renameat, {AT_FDCWD, (long)"in/file", AT_FDCWD, (long)"in/other"}, 0},
};

static const int CALLS[] = {SYS_getppid, SYS_openat, SYS_kill, SYS_bind};
static const Row CALLING[] = {
    {"a call that the host names", MADE, SYS_getppid, {0}, 0},
    {"one that it doesn't name", KILLED, SYS_getuid, {0}, 0},
    {"one that it names, for a file", EACCES, SYS_openat, {AT_FDCWD, (long)"in/file", O_RDONLY}, 0},
    {"one that it names, for a signal to another process", EPERM, SYS_kill, {1}, 6},
    {"one that it names, for a place in the network", EACCES, SYS_bind, {SOCKET, (long)&anywhere, sizeof anywhere}, 4},
};

static const Row THREADING[] = {
    {"a process, with threads", KILLED, SYS_clone, {SIGCHLD}, 0},
    {"a process in the new way, with threads", ENOSYS, 435, {(long)page, 88}, 0},
    {"a thread in other namespaces", KILLED, SYS_clone, {CLONE_VM | CLONE_SIGHAND | CLONE_THREAD | CLONE_NEWNS}, 0},
};

/* ---- Ways that aren't rows */

/* getpid in the numbers of 32-bit code. */
static int old_way(const void *given) {
    long result = 20;
    if (given != NULL) {
        build(given);
    }
    __asm__ volatile("int $0x80" : "+a"(result) : : "r8", "r9", "r10", "r11", "memory");
    return result > 0 ? MADE : BAD;
}

static int signal_itself(const void *given) {
    build(given);
    abort();
}

static int runs, goes_on; /* atomic */

static void wait_for(const int *flag) {
    while (!__atomic_load_n(flag, __ATOMIC_SEQ_CST)) {
        (void)sched_yield();
    }
}

static void *make_another_call(void *given) {
    __atomic_store_n(&runs, 1, __ATOMIC_SEQ_CST);
    wait_for(&goes_on);
    (void)made(SYS_getppid, 0);
    return given;
}

/* A thread that was there before the wall. */
static int earlier_thread(const void *given) {
    pthread_t thread;
    CHECK(pthread_create(&thread, NULL, make_another_call, NULL) == 0);
    wait_for(&runs);
    build(given);
    __atomic_store_n(&goes_on, 1, __ATOMIC_SEQ_CST);
    CHECK(pthread_join(thread, NULL) == 0);
    return MADE;
}

static void *open_outside(void *given) {
    int *error = given;
    const long words[6] = {AT_FDCWD, (long)"out", O_RDONLY};
    *error = (int)-raw(SYS_openat, words);
    return NULL;
}

/* A thread behind the wall, with the error that it has where it opens a file outside of the folder. */
static int later_thread(const void *given) {
    pthread_t thread;
    int error = -1;
    build(given);
    CHECK(pthread_create(&thread, NULL, open_outside, &error) == 0 && pthread_join(thread, NULL) == 0);
    return testing_wrong != 0 ? BAD : error;
}

static void try_ways(void) {
    const NcsWall closed = {.threads = 0}, threads = {.folders = &reading, .folder_count = 1, .threads = 1};
    if (ended(old_way, NULL) == MADE) { /* not if the system runs no 32-bit code */
        expect("a call by the way of 32-bit code", ended(old_way, &closed), KILLED);
    }
    expect("a signal to itself", ended(signal_itself, &closed), SIGNALLED + SIGABRT);
    expect("a thread that was there before", ended(earlier_thread, &closed), KILLED);
    expect("a thread behind the wall", ended(later_thread, &threads), EACCES);
    puts("other ways");
}

/* ---- Boxes behind a wall */

/* A module, live code and their boxes, all made before the wall. */
typedef struct Made {
    NcsModule *module, *live, *sparse; /* the last has no page of code yet */
    NcsBox *box, *live_box;
} Made;

static const uint8_t RETURNS[CODE_LEN] = {0x59, 0x83, 0xE1, 0xE0, 0xFF, 0xE1}; /* pop ecx; and ecx, -32; jmp ecx */

static Made make(void) {
    Made m;
    m.module = testing_module(RETURNS);
    m.live = codes_module(BUNDLES);
    m.sparse = ncs_module_live(0x10000, 1, NULL);
    m.box = testing_box(m.module);
    m.live_box = codes_box(m.live, SHORT);
    return m;
}

static NcsEnd enter(NcsBox *box) {
    return ncs_call(box, (NcsAt){CODE_AT}, NCS_NO_ARGS);
}

static void *enter_first(void *box) {
    CHECK(enter(box).how == NCS_RETURNED);
    return NULL;
}

static void try_live(const Made *m) {
    uint8_t loop[BUNDLE], load[BUNDLE], mov[MOV_LEN];
    codes_loop(loop);
    codes_load(load, 0x1234);
    codes_mov(mov, 8);
    CHECK(codes_create_number(m->live, HERE, 7) && codes_returns(m->live_box, HERE, 7));
    CHECK(ncs_patch(m->live, (NcsAt){HERE}, mov, MOV_LEN, NULL) && codes_returns(m->live_box, HERE, 8));
    CHECK(codes_delete(m->live, HERE) && ncs_reclaim(m->live) == 1);
    CHECK(codes_create(m->live, HERE, loop, BUNDLE) && codes_run(m->live_box, HERE).how == NCS_LATE && ncs_reset(m->live_box));
    CHECK(codes_create(m->live, THERE, load, BUNDLE) && codes_run(m->live_box, THERE).trap == 14 && ncs_reset(m->live_box));
    CHECK(codes_run(m->live_box, THERE + BUNDLE).how == NCS_STOPPED && ncs_reset(m->live_box));
    ncs_kill(m->live_box);
    CHECK(codes_run(m->live_box, HERE).how == NCS_KILLED);
}

/* Code where no page was, on the first one and in the midst. */
static void try_pages(NcsModule *sparse) {
    NcsBox *box = codes_box(sparse, SHORT);
    CHECK(codes_create_number(sparse, HERE, 7) && codes_returns(box, HERE, 7));
    CHECK(codes_create_number(sparse, HERE + 0x100000, 8) && codes_returns(box, HERE + 0x100000, 8));
    codes_end(sparse, box);
}

static int use_boxes(const void *given) {
    Made m = make();
    NcsBox *later;
    pthread_t thread;
    build(given);
    later = testing_box(m.module);
    CHECK(enter(m.box).how == NCS_RETURNED && enter(later).how == NCS_RETURNED && ncs_reset(later));
    CHECK(pthread_create(&thread, NULL, enter_first, later) == 0 && pthread_join(thread, NULL) == 0);
    try_live(&m);
    try_pages(m.sparse);
    CHECK(ncs_free(m.box) && ncs_free(later));
    codes_end(m.live, m.live_box);
    ncs_module_free(m.module);
    return testing_wrong != 0 ? BAD : MADE;
}

static int make_module(const void *given) {
    Made m = make();
    build(given);
    return testing_module(RETURNS) == m.module;
}

static void try_boxes(void) {
    const NcsWall wall = {.threads = 1};
    int end = ended(use_boxes, &wall);
    if (end == SKIPPED) {
        exit(SKIPPED);
    }
    expect("boxes", end, MADE);
    expect("a module", ended(make_module, &wall), KILLED);
    puts("boxes");
}

/* ---- Walls that can't be built */

/* The number that the next file gets. */
static int next_file(void) {
    int file = dup(0);
    return close(file) == 0 ? file : -1;
}

static int is_refused(const NcsWall *wall, uint32_t kind) {
    NcsRefusal why;
    return ncs_wall(wall, &why) == NCS_NO_WALL && why.kind == kind && why.sentence != NULL && ncs_wall(wall, NULL) == NCS_NO_WALL;
}

static int build_wrongly(const void *given) {
    static int many[NCS_WALL_CALLS + 1], negative = -1, of_x32 = X32 + SYS_getpid;
    const NcsFolder nothing = {.file = -1};
    const NcsWall walls[] = {{.calls = many, .call_count = NCS_WALL_CALLS + 1},
                             {.calls = &negative, .call_count = 1},
                             {.calls = &of_x32, .call_count = 1}},
                  lost = {.folders = &nothing, .folder_count = 1};
    const NcsWall *good = given;
    int next = next_file();
    size_t k;
    for (k = 0; k < COUNT(walls); k++) {
        CHECK(is_refused(&walls[k], NCS_BAD_LIMITS));
    }
    CHECK(is_refused(&lost, NCS_BAD_SYSTEM) && next_file() == next);
    CHECK(prctl(PR_GET_NO_NEW_PRIVS, 0ul, 0ul, 0ul, 0ul) == 0 && made(SYS_getppid, 0) == MADE);
    build(good);
    CHECK(is_refused(good, NCS_BAD_SYSTEM));
    return testing_wrong != 0 ? BAD : MADE;
}

static int build_with_many(const void *given) {
    static int many[NCS_WALL_CALLS]; /* all of them read */
    const NcsWall wall = {.folders = &reading, .folder_count = 1, .calls = many, .call_count = NCS_WALL_CALLS, .threads = 1};
    const long words[6] = {AT_FDCWD, (long)"in/file", O_RDONLY};
    int next = next_file();
    (void)given;
    build(&wall);
    return raw(SYS_openat, words) == next ? made(SYS_fstatfs, -1) : BAD;
}

static void try_refusals(void) {
    const NcsWall closed = {.threads = 0};
    expect("walls that are wrong", ended(build_wrongly, &closed), MADE);
    expect("a wall with all calls that there may be", ended(build_with_many, NULL), EBADF);
    puts("walls that can't be built");
}

/* ---- What the system refuses */

typedef struct Refused {
    unsigned nth;
    int later;
    int *which; /* shared with the child */
} Refused;

/* Without Landlock the filter stands alone. A wall that is refused has no filter, and can be built once more. */
static int build_refused(const void *given) {
    const Refused *r = given;
    const NcsWall wall = {.folders = &reading, .folder_count = 1};
    NcsRefusal why;
    int stands;
    refusing_begin(r->nth, r->later);
    stands = ncs_wall(&wall, &why);
    *r->which = refusing_end();
    if (stands == NCS_NO_WALL) {
        CHECK(*r->which >= 0 && why.kind == NCS_BAD_SYSTEM && made(SYS_getppid, 0) == MADE);
        build(&wall);
    } else {
        CHECK(why.kind == NCS_OK && (*r->which < 0 || *r->which == REFUSES_landlock_create_ruleset));
        CHECK(stands == (*r->which < 0 ? NCS_WALL_WHOLE : NCS_WALL_FILTER));
    }
    return testing_wrong != 0 ? BAD : made(SYS_fstatfs, -1);
}

static void try_refused(int *which) {
    int seen[REFUSABLES] = {0}, k;
    for (k = 0; k < 20; k++) {
        const Refused r = {1 + (unsigned)k / 2, k % 2, which};
        expect("a wall that is refused", ended(build_refused, &r), EBADF);
        seen[*which >= 0 ? *which : 0] += *which >= 0;
    }
    printf("refused:");
    for (k = 0; k < REFUSABLES; k++) {
        printf("%s%s", seen[k] != 0 ? " " : "", seen[k] != 0 ? refusing_name(k) : "");
    }
    puts("");
}

static int can_build(const void *given) {
    return ncs_wall(given, NULL);
}

static char place[] = "walls-XXXXXX";

/* A folder `in` with a file, and a file beside it, in a folder of the test's own. */
static int lay(void) {
    if (mkdtemp(place) == NULL || chdir(place) != 0 || mkdir("in", 0700) != 0) {
        return 0;
    }
    reading.file = writing.file = open("in", O_PATH | O_DIRECTORY);
    writing.writable = 1;
    return reading.file >= 0 && close(creat("in/file", 0600)) == 0 && close(creat("out", 0600)) == 0 &&
           dup2(socket(AF_INET, SOCK_STREAM, 0), SOCKET) == SOCKET;
}

static void clear(void) {
    static const char *const names[] = {"in/file",   "in/new", "in/made", "in/other", "in/out", "in/link",
                                        "in/folder", "new",    "out",     "file",     "folder"};
    size_t k;
    for (k = 0; k < COUNT(names); k++) {
        (void)remove(names[k]); /* not all of them are there */
    }
    CHECK(rmdir("in") == 0 && chdir("..") == 0 && rmdir(place) == 0);
}

int main(void) {
    const NcsWall closed = {.threads = 0}, read_alone = {.folders = &reading, .folder_count = 1},
                  written = {.folders = &writing, .folder_count = 1},
                  changed = {.folders = &writing, .folder_count = 1, .calls = CHANGES, .call_count = COUNT(CHANGES)},
                  unchanged = {.folders = &reading, .folder_count = 1, .calls = CHANGES, .call_count = COUNT(CHANGES)},
                  calling = {.calls = CALLS, .call_count = COUNT(CALLS)}, threads = {.threads = 1};
    int *which = mmap(NULL, sizeof *which, PROT_READ | PROT_WRITE, MAP_SHARED | MAP_ANONYMOUS, -1, 0);
    if (which == MAP_FAILED || !lay()) {
        return 2;
    }
    if (ended(can_build, &closed) != NCS_WALL_WHOLE) {
        clear();
        puts("skipped: the second wall, which the system hasn't, or not whole");
        return SKIPPED;
    }
    landlock = syscall(444, NULL, 0, 1); /* landlock_create_ruleset, which tells it */
    try_rows("nothing to open", &closed, CLOSED, COUNT(CLOSED));
    try_rows("a folder", &read_alone, READING, COUNT(READING));
    try_rows("a folder to be written", &written, WRITING, COUNT(WRITING));
    try_rows("names in it", &changed, CHANGING, COUNT(CHANGING));
    try_rows("names in a folder to be read", &unchanged, UNCHANGING, COUNT(UNCHANGING));
    try_rows("calls of the host's", &calling, CALLING, COUNT(CALLING));
    try_rows("threads", &threads, THREADING, COUNT(THREADING));
    try_ways();
    try_boxes();
    try_refusals();
    try_refused(which);
    clear();
    printf("%u wrong\n", testing_wrong);
    return testing_wrong != 0;
}
