/* A server that forks workers. Each worker makes a module and a box of its own, since those from before the fork are refused there. Once
   ../unpacker.c is built, in the folder above:

       gcc $(pkg-config --cflags nc_sandbox) prefork/host.c libunpacker.so -Wl,-rpath,'$ORIGIN' -o server
       ./server unpack.elf */
#define _GNU_SOURCE
#include "../unpacker.h"
#include "nc_sandbox.h"

#include <stdio.h>
#include <sys/mman.h>
#include <sys/wait.h>
#include <unistd.h>

#define WORKERS 4
#define TOLD_MAX 100

/* What each worker has found out, in memory that the server shares with its workers. */
typedef char Told[TOLD_MAX];

static void tell(Told told, const char *what) {
    (void)snprintf(told, TOLD_MAX, "%s", what);
}

/* What a worker does with a box of its own. */
static void serve(const char *path, Told told) {
    char text[UNPACKED_MAX + 1];
    const char *wrong = NULL;
    Unpacker *own = unpacker_new(path, &wrong);
    if (own != NULL) {
        wrong = unpacker_unpack(own, "3a1b10c", text);
    }
    tell(told, wrong != NULL ? wrong : text);
}

/* What a worker gets from a box and a module of the server. */
static void inherit(const Unpacker *servers, Told call, Told box) {
    static const NcsLimits limits = {.memory = 4 << 20, .depth = 1, .milliseconds = 100};
    NcsRefusal why;
    NcsEnd end = ncs_call(servers->box, ncs_symbol(servers->module, "unpack"), NCS_ARGS(0, 0, 0));
    tell(call, ncs_how(end.how));
    tell(box, ncs_box_new(servers->module, &limits, &why) == NULL ? why.sentence : "made");
}

/* `servers` may be null. */
static void fork_workers(const char *path, const Unpacker *servers, Told told[WORKERS + 2]) {
    int k;
    for (k = 0; k < WORKERS; k++) {
        pid_t worker;
        tell(told[k], "no worker");
        worker = fork();
        if (worker == 0) {
            serve(path, told[k]);
            if (servers != NULL && k == 0) {
                inherit(servers, told[WORKERS], told[WORKERS + 1]);
            }
            _exit(0);
        }
    }
}

static void wait_for_workers(void) {
    while (wait(NULL) > 0) {}
}

static void print_workers(Told told[WORKERS], const char *when) {
    int k;
    for (k = 0; k < WORKERS; k++) {
        printf("worker %d%s: %s\n", k, when, told[k]);
    }
}

int main(int argc, char **argv) {
    const char *path = argc == 2 ? argv[1] : "", *why = NULL;
    char text[UNPACKED_MAX + 1];
    Unpacker *servers;
    Told *told = mmap(NULL, (WORKERS + 2) * sizeof(Told), PROT_READ | PROT_WRITE, MAP_SHARED | MAP_ANONYMOUS, -1, 0);
    if (told == MAP_FAILED) {
        return 1;
    }
    fork_workers(path, NULL, told);
    wait_for_workers();
    print_workers(told, "");
    servers = unpacker_new(path, &why);
    if (servers == NULL) {
        printf("the server: %s\n", why);
        return 1;
    }
    fork_workers(path, servers, told);
    wait_for_workers();
    print_workers(told, " of a server with boxes");
    printf("a call of the server's box in a worker: %s\n", told[WORKERS]);
    printf("a box of the server's module in a worker: %s\n", told[WORKERS + 1]);
    why = unpacker_unpack(servers, "1o1k", text);
    printf("the server's box: %s\n", why != NULL ? why : text);
    return 0;
}
