/* A program that asks the C library for what it has of the system: files by name, folders, clocks, and the ways of one thread. Its first
   word says what. It prints the same natively and by nc-run, in a folder that the trial has laid. */
#define _GNU_SOURCE
#include <dirent.h>
#include <errno.h>
#include <fcntl.h>
#include <ftw.h>
#include <pthread.h>
#include <semaphore.h>
#include <signal.h>
#include <stdio.h>
#include <stdlib.h>
#include <string.h>
#include <sys/mman.h>
#include <sys/resource.h>
#include <sys/select.h>
#include <sys/stat.h>
#include <sys/time.h>
#include <sys/times.h>
#include <time.h>
#include <unistd.h>
#include <utime.h>

static char begun[4096]; /* where the program began */

/* A call's result, and the number of its error if there is one. */
static void told(const char *name, long result) {
    int error = errno;
    printf("%s: %ld %d\n", name, result, result < 0 ? error : 0);
}
#define TELL(call) told(#call, (long)(call))

/* A path without what is above the folder. */
static const char *shown(const char *path) {
    size_t len = strlen(begun);
    if (!path) return errno == ENOENT ? "not there" : "wrong";
    return strcmp(begun, "/") == 0 || strncmp(path, begun, len) != 0 ? path : path[len] ? path + len : "/";
}

static void tell_status(const char *name, const struct stat *about) {
    printf("%s: %o %ld %d\n", name, (unsigned)about->st_mode, S_ISREG(about->st_mode) ? (long)about->st_size : -1,
           S_ISDIR(about->st_mode) || about->st_nlink == 1);
}

static int status(void) {
    static const char *const names[] = {"file", "sub", "sub/up", "pipe", "none", "file/none", "", "loop"};
    struct stat about, open_one;
    for (size_t k = 0; k < sizeof names / sizeof *names; k++) {
        int error = stat(names[k], &about);
        told(names[k], error);
        if (error == 0) tell_status("stat", &about);
        if (lstat(names[k], &about) == 0) tell_status("lstat", &about);
    }
    int file = open("file", O_RDONLY), again = open("sub/up", O_RDONLY), other = open("sub/inner", O_RDONLY);
    fstat(file, &about);
    tell_status("fstat", &about);
    printf("%d", fstat(again, &open_one) == 0 && open_one.st_ino == about.st_ino && open_one.st_dev == about.st_dev);
    printf(" %d", fstat(other, &open_one) == 0 && (open_one.st_ino != about.st_ino || open_one.st_dev != about.st_dev));
    printf(" %d\n", about.st_uid == getuid() && about.st_gid == getgid() && about.st_blksize > 0);
    TELL(fstat(99, &about));
    TELL(fstat(-1, &about));
    return 0;
}

static int visit(const char *path, const struct stat *about, int kind, struct FTW *where) {
    (void)kind;
    printf("%s %d %d\n", path, S_ISDIR(about->st_mode), where->level);
    return 0;
}

static int compare(const struct dirent **one, const struct dirent **other) {
    return strcmp((*one)->d_name, (*other)->d_name);
}

static int folders(void) {
    struct dirent **names;
    int count = scandir(".", &names, NULL, compare), again = 0;
    for (int k = 0; k < count; k++) printf("%s %d\n", names[k]->d_name, names[k]->d_type);
    DIR *folder = opendir("sub");
    while (readdir(folder)) again++;
    rewinddir(folder);
    long place = telldir(folder);
    struct dirent *first = readdir(folder);
    char name[256];
    strcpy(name, first->d_name);
    seekdir(folder, place);
    printf("%d %d\n", again, strcmp(readdir(folder)->d_name, name));
    TELL(closedir(folder));
    TELL(mkdir("new", 0750));
    TELL(mkdir("new", 0750));
    TELL(mkdir("new/inner", 0700));
    TELL(mkdir("none/inner", 0700));
    TELL(mkdir("file/inner", 0700));
    TELL(nftw("new", visit, 9, FTW_PHYS | FTW_DEPTH));
    TELL(rmdir("new"));
    TELL(rmdir("file"));
    TELL(rmdir("none"));
    TELL(rmdir("new/inner"));
    TELL(opendir("file") != NULL);
    TELL(opendir("none") != NULL);
    TELL(open("sub", O_WRONLY));
    int file = open("sub", O_RDONLY);
    TELL(read(file, name, 1));
    return 0;
}

static int renames(void) {
    TELL(rename("file", "moved"));
    TELL(rename("file", "moved"));
    TELL(rename("sub", "moved"));
    TELL(rename("moved", "sub"));
    TELL(rename("sub/inner", "inner"));
    TELL(rename("sub", "sub/below"));
    TELL(unlink("sub"));
    TELL(unlink("none"));
    TELL(unlink("sub/up"));
    TELL(remove("moved"));
    TELL(remove("none"));
    TELL(remove("sub"));
    TELL(access("inner", F_OK));
    return 0;
}

static int where(void) {
    char small[2], *own = getcwd(NULL, 0);
    printf("%s\n", shown(own));
    TELL(chdir("sub"));
    printf("%s\n", shown(getcwd(NULL, 0)));
    TELL(access("inner", R_OK));
    TELL(chdir("inner"));
    TELL(chdir("none"));
    TELL(getcwd(small, 1) != NULL);
    int folder = open("..", O_RDONLY | O_DIRECTORY);
    TELL(fchdir(folder));
    printf("%s\n", shown(getcwd(NULL, 0)));
    printf("%s\n", shown(realpath("sub/up", NULL)));
    printf("%s\n", shown(realpath("sub/../sub/./inner", NULL)));
    printf("%s\n", shown(realpath("none", NULL)));
    TELL(readlink("sub/up", small, sizeof small));
    TELL(readlink("file", small, sizeof small));
    return 0;
}

static int rights(void) {
    struct stat about;
    umask(027);
    int file = open("made", O_WRONLY | O_CREAT | O_EXCL, 0666);
    fstat(file, &about);
    tell_status("made", &about);
    TELL(open("made", O_WRONLY | O_CREAT | O_EXCL, 0666));
    TELL(fchmod(file, 0604));
    TELL(chmod("file", 0711));
    TELL(chmod("none", 0711));
    TELL(fchown(file, -1, getgid()));
    TELL(fchown(99, -1, -1));
    TELL(chown("file", getuid(), -1));
    TELL(chown("none", -1, -1));
    TELL(lchown("sub/up", getuid(), getgid()));
    stat("made", &about);
    tell_status("made", &about);
    printf("%o\n", (unsigned)umask(0));
    TELL(access("file", R_OK | W_OK | X_OK));
    TELL(access("none", R_OK));
    return 0;
}

static int moments(void) {
    const struct timespec both[] = {{.tv_sec = 1000000000, .tv_nsec = 123456789}, {.tv_nsec = UTIME_OMIT}};
    const struct utimbuf old = {.actime = 5, .modtime = 6};
    struct stat about, before;
    stat("file", &before);
    TELL(utimensat(AT_FDCWD, "file", both, 0));
    stat("file", &about);
    printf("%lld %ld %d\n", (long long)about.st_atim.tv_sec, about.st_atim.tv_nsec, about.st_mtim.tv_sec == before.st_mtim.tv_sec);
    TELL(utime("file", &old));
    stat("file", &about);
    printf("%lld %lld\n", (long long)about.st_atime, (long long)about.st_mtime);
    TELL(utimensat(AT_FDCWD, "file", NULL, 0));
    stat("file", &about);
    printf("%d\n", about.st_mtime > 1600000000);
    TELL(utime("none", NULL));
    TELL(futimens(open("file", O_WRONLY), both));
    return 0;
}

static int lengths(void) {
    char text[16] = "";
    int file = open("file", O_RDWR);
    TELL(ftruncate(file, 2));
    TELL(lseek(file, 0, SEEK_END));
    TELL(pwrite(file, "xyz", 3, 6));
    TELL(pread(file, text, 9, 1));
    printf("%d %d %s\n", text[0], text[1], text + 5);
    TELL(lseek(file, 0, SEEK_CUR));
    TELL(truncate("file", 4));
    TELL(truncate("none", 4));
    TELL(ftruncate(file, -1));
    TELL(lseek(file, 0, SEEK_END));
    TELL(ftruncate(open("file", O_RDONLY), 1) < 0);
    return 0;
}

static int numbers(void) {
    char text[8] = "";
    int file = open("file", O_RDONLY), other = dup(file);
    TELL(lseek(other, 2, SEEK_SET));
    TELL(read(file, text, 2));
    puts(text);
    TELL(dup2(file, 20));
    TELL(fcntl(file, F_DUPFD, 30));
    TELL(fcntl(file, F_GETFL) & O_ACCMODE);
    TELL(fcntl(open("file", O_WRONLY | O_APPEND), F_GETFL) & (O_ACCMODE | O_APPEND));
    TELL(fcntl(1, F_GETFD));
    TELL(fcntl(99, F_GETFD));
    TELL(close(file));
    TELL(read(other, text, 1));
    TELL(dup2(99, 1));
    TELL(dup(99));
    fflush(stdout);
    int kept = dup(1);
    TELL(dup2(open("printed", O_WRONLY | O_CREAT, 0600), 1));
    puts("into a file");
    fflush(stdout);
    TELL(dup2(kept, 1) < 0);
    TELL(isatty(1) + isatty(0));
    return 0;
}

static int temporary(void) {
    char name[] = "x-XXXXXX", folder[] = "y-XXXXXX", text[8] = "";
    FILE *file = tmpfile();
    fputs("hello", file);
    rewind(file);
    TELL(fread(text, 1, sizeof text, file));
    puts(text);
    int made = mkstemp(name);
    TELL(write(made, "a", 1));
    TELL(unlink(name));
    TELL(mkdtemp(folder) != NULL);
    TELL(rmdir(folder));
    file = fopen("made", "w+");
    fputs("text", file);
    TELL(fclose(file));
    file = freopen("made", "a", fopen("file", "r"));
    TELL(ftell(file) >= 0);
    return 0;
}

static int at(void) {
    struct stat about;
    int folder = open("sub", O_RDONLY | O_DIRECTORY);
    TELL(openat(folder, "inner", O_RDONLY) > folder);
    TELL(openat(folder, "none", O_RDONLY));
    TELL(fstatat(folder, "up", &about, AT_SYMLINK_NOFOLLOW));
    tell_status("up", &about);
    TELL(mkdirat(folder, "new", 0700));
    TELL(renameat(folder, "inner", AT_FDCWD, "inner"));
    TELL(unlinkat(folder, "new", 0));
    TELL(unlinkat(folder, "new", AT_REMOVEDIR));
    TELL(faccessat(folder, "up", R_OK, 0));
    TELL(fchmodat(folder, "../file", 0640, 0));
    TELL(fchownat(folder, "../file", -1, -1, 0));
    TELL(openat(99, "inner", O_RDONLY));
    TELL(openat(open("file", O_RDONLY), "inner", O_RDONLY));
    TELL(openat(AT_FDCWD, "file", O_RDONLY | O_DIRECTORY));
    TELL(openat(AT_FDCWD, "sub/up", O_RDONLY | O_NOFOLLOW));
    TELL(fdopendir(folder) != NULL);
    return 0;
}

static int clocks(void) {
    const struct timespec wait = {.tv_nsec = 20000000};
    struct timespec before, after, end;
    struct timeval day, none = {.tv_usec = 1000};
    struct rusage used;
    struct tms ticks;
    TELL(clock_gettime(CLOCK_MONOTONIC, &before));
    TELL(nanosleep(&wait, NULL));
    TELL(usleep(1000) + select(0, NULL, NULL, NULL, &none));
    TELL(clock_gettime(CLOCK_MONOTONIC, &after));
    long long passed = (after.tv_sec - before.tv_sec) * 1000000000ll + after.tv_nsec - before.tv_nsec;
    printf("%d\n", passed >= 22000000);
    TELL(clock_gettime(CLOCK_REALTIME, &end));
    end.tv_nsec = 0;
    TELL(clock_nanosleep(CLOCK_REALTIME, TIMER_ABSTIME, &end, NULL));
    TELL(clock_gettime(CLOCK_THREAD_CPUTIME_ID, &after));
    TELL(clock_gettime(99, &after));
    TELL(clock_getres(CLOCK_MONOTONIC, &after));
    TELL(gettimeofday(&day, NULL));
    TELL(getrusage(RUSAGE_SELF, &used));
    printf("%d %d\n", day.tv_sec > 1600000000, times(&ticks) != -1);
    const struct timespec bad = {.tv_nsec = -1};
    TELL(nanosleep(&bad, NULL));
    return 0;
}

static int environment(void) {
    printf("%s %s\n", getenv("GIVEN"), getenv("NOT_GIVEN"));
    TELL(setenv("OWN", "value", 1) + unsetenv("GIVEN"));
    printf("%s %s\n", getenv("OWN"), getenv("GIVEN"));
    return 0;
}

static int chance(void) {
    unsigned char one[32] = {0}, other[32] = {0};
    TELL(getentropy(one, sizeof one));
    TELL(getentropy(other, sizeof other));
    printf("%d\n", memcmp(one, other, sizeof one) != 0);
    TELL(getentropy(one, 257));
    return 0;
}

static volatile sig_atomic_t caught, last;
static void catch (int signal) {
    caught++;
    last = signal;
}
static void catch_with_cause(int signal, siginfo_t *about, void *context) {
    catch (about->si_signo == signal);
    (void)context;
}

static int signals(void) {
    struct sigaction action = {.sa_sigaction = catch_with_cause, .sa_flags = SA_SIGINFO | SA_RESETHAND}, before;
    sigset_t set, old;
    TELL(signal(SIGUSR1, catch) == SIG_DFL);
    TELL(raise(SIGUSR1) + kill(getpid(), SIGUSR1));
    printf("%d %d\n", caught, last == SIGUSR1);
    TELL(sigaction(SIGUSR1, &action, &before));
    printf("%d\n", before.sa_handler == catch);
    TELL(raise(SIGUSR1));
    TELL(sigaction(SIGUSR1, NULL, &before));
    printf("%d %d %d\n", caught, last, before.sa_handler == SIG_DFL);
    TELL(signal(SIGTERM, SIG_IGN) == SIG_DFL);
    TELL(raise(SIGTERM) + raise(SIGCHLD));
    signal(SIGUSR2, catch);
    sigemptyset(&set);
    sigaddset(&set, SIGUSR2);
    TELL(sigprocmask(SIG_BLOCK, &set, &old));
    TELL(raise(SIGUSR2) + raise(SIGUSR2));
    TELL(sigpending(&set));
    printf("%d %d %d\n", caught, sigismember(&set, SIGUSR2), sigismember(&old, SIGUSR2));
    TELL(sigprocmask(SIG_SETMASK, &old, NULL));
    printf("%d %d\n", caught, last == SIGUSR2);
    TELL(sigaction(SIGKILL, &action, NULL));
    TELL(kill(getpid(), 0));
    TELL(raise(65));
    signal(SIGABRT, catch);
    fflush(stdout);
    abort();
}

static int begins;
static void begin(void) {
    begins++;
}
static void *nothing(void *given) {
    return given;
}

/* What code for many threads does where there is one. */
static int threads(void) {
    pthread_mutex_t mutex = PTHREAD_MUTEX_INITIALIZER;
    pthread_cond_t condition = PTHREAD_COND_INITIALIZER;
    pthread_rwlock_t lock = PTHREAD_RWLOCK_INITIALIZER;
    pthread_once_t once = PTHREAD_ONCE_INIT;
    pthread_key_t key;
    sem_t semaphore;
    struct timespec now;
    TELL(pthread_mutex_lock(&mutex));
    TELL(pthread_mutex_trylock(&mutex) == EBUSY);
    TELL(pthread_cond_signal(&condition) + pthread_cond_broadcast(&condition));
    clock_gettime(CLOCK_REALTIME, &now);
    now.tv_nsec = now.tv_nsec / 2;
    TELL(pthread_cond_timedwait(&condition, &mutex, &now) == ETIMEDOUT);
    now.tv_sec++;
    TELL(pthread_cond_timedwait(&condition, &mutex, &now) == ETIMEDOUT);
    TELL(pthread_mutex_unlock(&mutex));
    TELL(pthread_once(&once, begin) + pthread_once(&once, begin));
    printf("%d\n", begins);
    TELL(pthread_key_create(&key, NULL));
    TELL(pthread_setspecific(key, &key));
    printf("%d\n", pthread_getspecific(key) == &key);
    TELL(pthread_rwlock_rdlock(&lock) + pthread_rwlock_unlock(&lock) + pthread_rwlock_wrlock(&lock));
    TELL(sem_init(&semaphore, 0, 1) + sem_wait(&semaphore));
    TELL(sem_trywait(&semaphore));
    TELL(pthread_equal(pthread_self(), pthread_self()) != 0);
    return 0;
}

enum { MANY = 3 * 4096 + 100 };

/* How a mapping fails. */
static void refuses(size_t len, int rights, int how, int file, off_t from) {
    void *at = mmap(NULL, len, rights, how, file, from);
    told("mmap", at == MAP_FAILED ? -1 : 0);
}

/* The bytes of a mapping, each with its place, and whether it is on pages of its own. */
static void tell_map(const unsigned char *at, size_t len) {
    unsigned sum = 0;
    for (size_t k = 0; k < len; k++) sum += (unsigned)(k + 1) * at[k];
    printf("%u %d\n", sum, ((unsigned long)at & 4095) == 0);
}

static unsigned char *map_of(int file, off_t from) {
    return mmap(NULL, MANY, PROT_READ | PROT_WRITE, MAP_PRIVATE | (file < 0 ? MAP_ANONYMOUS : 0), file, from);
}

static int maps(void) {
    static unsigned char bytes[5 * 4096];
    for (int round = 0; round < 3; round++) { /* what was freed is 0 again */
        unsigned char *at = map_of(-1, 0);
        tell_map(at, MANY);
        memset(at, 255, MANY);
        TELL(munmap(at, MANY));
    }
    for (size_t k = 0; k < sizeof bytes; k++) bytes[k] = (unsigned char)(k * k >> 7);
    int file = open("large", O_RDWR | O_CREAT, 0644);
    TELL(write(file, bytes, sizeof bytes));
    TELL(lseek(file, 11, SEEK_SET));
    unsigned char *whole = map_of(file, 0), *rest = map_of(file, 4 * 4096);
    TELL(lseek(file, 0, SEEK_CUR));
    TELL(close(file));
    tell_map(whole, MANY);
    tell_map(rest, 4096); /* behind its last page natively nothing can be read */
    memset(whole, 1, MANY);
    TELL(munmap(whole, MANY));
    TELL(munmap(rest, MANY));
    file = open("large", O_RDONLY);
    whole = map_of(file, 0);
    tell_map(whole, MANY);
    refuses(0, PROT_READ, MAP_PRIVATE, file, 0);
    refuses(MANY, PROT_READ, 0, file, 0);
    refuses(MANY, PROT_READ, MAP_ANONYMOUS, -1, 0);
    refuses(MANY, PROT_READ, MAP_PRIVATE, file, 100);
    refuses(MANY, PROT_READ, MAP_PRIVATE, 99, 0);
    refuses(-1ul, PROT_READ, MAP_PRIVATE | MAP_ANONYMOUS, -1, 0);
    refuses(MANY, PROT_READ, MAP_PRIVATE, open("large", O_WRONLY), 0);
    refuses(MANY, PROT_READ, MAP_PRIVATE, open("sub", O_RDONLY), 0);
    TELL(munmap(whole + 1, MANY));
    return 0;
}

/* What natively succeeds. */
static int copies(void) {
    int file = open("file", O_RDWR);
    refuses(4, PROT_READ, MAP_SHARED, file, 0);
    refuses(4, PROT_READ, MAP_SHARED_VALIDATE, file, 0);
    refuses(4, PROT_READ | PROT_EXEC, MAP_PRIVATE, file, 0);
    char *at = mmap(NULL, 8192, PROT_READ, MAP_SHARED | MAP_ANONYMOUS, -1, 0);
    refuses(8192, PROT_READ, MAP_PRIVATE | MAP_ANONYMOUS | MAP_FIXED, -1, 0);
    TELL(munmap(at, 4096));
    TELL(munmap(at + 4096, 4096));
    TELL(munmap(at, 8191));
    TELL(munmap(at, 8192));
    return 0;
}

/* Of a user who isn't root. */
static int owners(void) {
    int file = open("file", O_RDONLY);
    TELL(chown("file", 12345, -1));
    TELL(fchown(file, -1, 12345));
    return 0;
}

static int starts(void) {
    pthread_t thread;
    return pthread_create(&thread, NULL, nothing, NULL) == ENOSYS ? 7 : 0;
}

static int waits(void) {
    pthread_mutex_t mutex = PTHREAD_MUTEX_INITIALIZER;
    pthread_mutex_lock(&mutex);
    return pthread_mutex_lock(&mutex);
}

int main(int argc, char **argv) {
    static const struct {
        const char *name;
        int (*function)(void);
    } all[] = {{"status", status},   {"folders", folders}, {"renames", renames},         {"where", where},         {"rights", rights},
               {"moments", moments}, {"lengths", lengths}, {"numbers", numbers},         {"temporary", temporary}, {"at", at},
               {"clocks", clocks},   {"chance", chance},   {"environment", environment}, {"threads", threads},     {"signals", signals},
               {"maps", maps},       {"copies", copies},   {"owners", owners},           {"starts", starts},       {"waits", waits}};
    setvbuf(stdout, NULL, _IOFBF, 1 << 14);
    getcwd(begun, sizeof begun);
    for (size_t k = 0; argc > 1 && k < sizeof all / sizeof *all; k++)
        if (!strcmp(argv[1], all[k].name)) return all[k].function();
    return 99;
}
