/* A program that asks the C library for pipes, and waits for files. Its first word says what. It prints the same natively and by nc-run, but
   for the last three, which end it. */
#define _GNU_SOURCE
#include <errno.h>
#include <fcntl.h>
#include <poll.h>
#include <signal.h>
#include <stdio.h>
#include <string.h>
#include <sys/select.h>
#include <sys/stat.h>
#include <unistd.h>

/* A call's result, and the number of its error if there is one. */
static void told(const char *name, long result) {
    int error = errno;
    printf("%s: %ld %d\n", name, result, result < 0 ? error : 0);
}
#define TELL(call) told(#call, (long)(call))

static char many[1 << 17]; /* more than a pipe holds */

static int pipes(void) {
    char text[16] = "";
    int ends[2], other[2], put;
    struct stat about;
    signal(SIGPIPE, SIG_IGN);
    TELL(pipe(ends));
    printf("%d\n", ends[1] - ends[0]);
    TELL(write(ends[1], "hello", 5));
    TELL(read(ends[0], text, 3));
    puts(text);
    TELL(read(ends[0], text, 9));
    TELL(read(ends[1], text, 1));
    TELL(write(ends[0], text, 1));
    TELL(lseek(ends[0], 0, SEEK_CUR));
    TELL(pread(ends[0], text, 1, 0));
    TELL(ftruncate(ends[1], 0));
    TELL(fsync(ends[1]));
    TELL(fstat(ends[0], &about));
    printf("%o %lld\n", (unsigned)about.st_mode, (long long)about.st_size);
    TELL(fcntl(ends[0], F_GETFL) & (O_ACCMODE | O_NONBLOCK));
    TELL(fcntl(ends[1], F_GETFL) & (O_ACCMODE | O_NONBLOCK));
    TELL(fcntl(ends[0], F_SETFL, O_NONBLOCK));
    TELL(read(ends[0], text, 1));
    TELL(read(dup(ends[0]), text, 1));
    TELL(fcntl(dup2(ends[0], 20), F_SETFL, 0));
    TELL(fcntl(ends[0], F_GETFL) & O_NONBLOCK);
    TELL(pipe2(other, O_NONBLOCK | O_CLOEXEC));
    TELL(fcntl(other[1], F_GETFL) & (O_ACCMODE | O_NONBLOCK));
    TELL(read(other[0], text, 1));
    while ((put = (int)write(other[1], many, sizeof many)) > 0) {}
    told("full", put);
    TELL(read(other[0], many, sizeof many) >= 4096);
    TELL(close(other[0]));
    TELL(write(other[1], "x", 1));
    TELL(pipe2(other, 1));
    TELL(close(dup2(ends[1], 21)));
    FILE *in = fdopen(ends[0], "r"), *out = fdopen(ends[1], "w");
    TELL(fputs("a line\nrest", out) < 0);
    TELL(fclose(out));
    TELL(fgets(text, sizeof text, in) != NULL);
    fputs(text, stdout);
    TELL(fread(text, 1, sizeof text, in));
    TELL(feof(in) != 0);
    return 0;
}

static void tell_ready(struct pollfd *files, int count, int time) {
    int ready = poll(files, (nfds_t)count, time);
    told("poll", ready);
    for (int k = 0; k < count; k++) printf(" %d", files[k].revents);
    puts("");
}

static int tell_selected(int file, fd_set *in, fd_set *out, fd_set *odd, int milliseconds) {
    struct timeval time = {.tv_usec = 1000 * milliseconds};
    TELL(select(file + 1, in, out, odd, &time));
    return printf("%d %d %d\n", in && FD_ISSET(file, in), out && FD_ISSET(file, out), odd && FD_ISSET(file, odd));
}

static int polls(void) {
    const struct timespec some = {.tv_nsec = 1000000}, bad = {.tv_nsec = 1000000000};
    int ends[2], file = open("file", O_RDONLY);
    fd_set in, out, odd;
    TELL(pipe(ends));
    struct pollfd files[] = {{.fd = ends[0], .events = POLLIN},
                             {.fd = ends[1], .events = POLLOUT},
                             {.fd = -1, .events = POLLIN},
                             {.fd = file, .events = POLLIN | POLLOUT | POLLPRI},
                             {.fd = 99, .events = POLLIN}};
    tell_ready(files, 4, 0);
    tell_ready(files, 1, 1);
    tell_ready(files, 5, -1);
    TELL(write(ends[1], "x", 1));
    tell_ready(files, 1, -1);
    tell_ready(files, 2, 1000000);
    FD_ZERO(&in);
    FD_SET(ends[0], &in);
    out = odd = in;
    tell_selected(ends[0], &in, &out, &odd, 0);
    FD_SET(ends[1], &out);
    tell_selected(ends[1], NULL, &out, NULL, 1000);
    FD_SET(50, &odd);
    TELL(select(51, NULL, NULL, &odd, NULL));
    TELL(select(-1, NULL, NULL, NULL, NULL));
    TELL(close(ends[1]));
    tell_ready(files, 1, -1);
    TELL(read(ends[0], many, 9));
    tell_ready(files, 1, -1);
    tell_selected(ends[0], &in, NULL, NULL, 1000);
    TELL(ppoll(files, 0, &some, NULL));
    TELL(ppoll(files, 0, &bad, NULL));
    TELL(pselect(0, NULL, NULL, NULL, &some, NULL));
    TELL(poll(NULL, 0, 1));
    return 0;
}

static volatile sig_atomic_t caught;
static void catch (int signal) {
    caught += signal;
}

/* A signal that waits comes while a mask lets it through, unless a file is ready. */
static int masks(void) {
    const struct timespec none = {0};
    struct pollfd file = {.fd = open("file", O_RDONLY), .events = POLLIN};
    sigset_t set, old;
    signal(SIGUSR1, catch);
    sigemptyset(&set);
    sigaddset(&set, SIGUSR1);
    TELL(sigprocmask(SIG_BLOCK, &set, &old));
    TELL(raise(SIGUSR1));
    TELL(ppoll(&file, 1, NULL, &old));
    TELL(caught);
    TELL(pselect(0, NULL, NULL, NULL, NULL, &old));
    TELL(caught == SIGUSR1);
    TELL(raise(SIGUSR1));
    TELL(ppoll(NULL, 0, &none, &set));
    TELL(caught == SIGUSR1);
    TELL(ppoll(NULL, 0, NULL, &old));
    TELL(caught == 2 * SIGUSR1);
    TELL(sigprocmask(SIG_SETMASK, NULL, &set));
    TELL(sigismember(&set, SIGUSR1));
    return 0;
}

static int stores(void) {
    int file = open("file", O_RDWR);
    TELL(write(file, "x", 1));
    TELL(fsync(file) + fdatasync(file) + fsync(open(".", O_RDONLY)));
    TELL(fsync(0));
    TELL(fsync(99));
    return 0;
}

/* Waits that only the program itself could end. */
static int reads(void) {
    int ends[2];
    char byte;
    return pipe(ends) == 0 ? (int)read(ends[0], &byte, 1) : 9;
}

static int writes(void) {
    int ends[2];
    return pipe(ends) == 0 ? (int)write(ends[1], many, sizeof many) : 9;
}

static int waits(void) {
    int ends[2];
    struct pollfd file = {.events = POLLIN};
    file.fd = pipe(ends) == 0 ? ends[0] : -1;
    return poll(&file, 1, -1);
}

int main(int argc, char **argv) {
    static const struct {
        const char *name;
        int (*function)(void);
    } all[] = {{"pipes", pipes}, {"polls", polls},   {"masks", masks}, {"stores", stores},
               {"reads", reads}, {"writes", writes}, {"waits", waits}};
    for (size_t k = 0; argc > 1 && k < sizeof all / sizeof *all; k++)
        if (!strcmp(argv[1], all[k].name)) return all[k].function();
    return 99;
}
