/* The functions of the C library that fail with ENOSYS by nc-run, as docs/GUIDE.md lists them: prints the names of those that do. */
#define _GNU_SOURCE
#include <errno.h>
#include <fcntl.h>
#include <pthread.h>
#include <signal.h>
#include <spawn.h>
#include <stdio.h>
#include <sys/file.h>
#include <sys/mman.h>
#include <sys/resource.h>
#include <sys/socket.h>
#include <sys/stat.h>
#include <sys/statvfs.h>
#include <sys/time.h>
#include <sys/utsname.h>
#include <sys/wait.h>
#include <time.h>
#include <unistd.h>

static char *const no_words[] = {NULL};
static struct flock lock = {.l_type = F_RDLCK};
static struct itimerval interval;
static struct rlimit limit;
static struct statvfs system_of_files;
static struct utsname name;
static int status;
static pthread_t thread;
static pid_t child;
static timer_t timer;

static void *nothing(void *given) {
    return given;
}

/* Tells a function whose result is -1 and an error, or an error's number. */
static void tell(const char *function, long result) {
    if ((result == -1 ? errno : result) == ENOSYS) puts(function);
    errno = 0;
}

int main(void) {
    tell("alarm", setitimer(ITIMER_REAL, &interval, NULL));
    tell("execve", execve("program", no_words, no_words));
    tell("fcntl(F_SETLK)", fcntl(0, F_SETLK, &lock));
    tell("flock", flock(0, LOCK_SH));
    tell("fork", fork());
    tell("getrlimit", getrlimit(RLIMIT_NOFILE, &limit));
    tell("link", link("a", "b"));
    tell("mkfifo", mkfifo("a", 0600));
    tell("mprotect", mprotect(&status, 4096, PROT_READ));
    tell("posix_spawn", posix_spawn(&child, "program", NULL, NULL, no_words, no_words));
    tell("pthread_create", pthread_create(&thread, NULL, nothing, NULL));
    tell("socket", socket(AF_UNIX, SOCK_STREAM, 0));
    tell("statvfs", statvfs(".", &system_of_files));
    tell("symlink", symlink("a", "b"));
    tell("timer_create", timer_create(CLOCK_REALTIME, NULL, &timer));
    tell("uname", uname(&name));
    tell("waitpid", waitpid(-1, &status, 0));
    return 0;
}
