/* A job in another process. It gets the file and gives back pixels, or the names of elements with a 0 behind each. */
#define _GNU_SOURCE
#include "costs.h"

#include <linux/futex.h>
#include <signal.h>
#include <stdio.h>
#include <stdlib.h>
#include <string.h>
#include <sys/mman.h>
#include <sys/prctl.h>
#include <sys/syscall.h>
#include <sys/wait.h>
#include <unistd.h>

/* A request, and the reply to it. */
typedef struct Head {
    uint32_t kind, len;
    uint64_t took;
} Head;

/* What both processes see. The turn is even while the client has it. */
typedef struct Shared {
    uint32_t turn;
    Head head;
    uint8_t in[FILE_MAX], out[PIXELS_MAX];
} Shared;

struct Server {
    pid_t child;
    int to, from;
    Shared *shared; /* which is shared only where there are no pipes for files */
    int by_memory, is_program;
};

static void all(int file, void *bytes, size_t len, int writes) {
    uint8_t *at = bytes;
    while (len != 0) {
        ssize_t done = writes ? write(file, at, len) : read(file, at, len);
        if (done <= 0 && !writes) {
            _exit(0); /* the other process has ended */
        }
        need(done > 0, "a pipe has no other end");
        at += done;
        len -= (size_t)done;
    }
}

static void put_name(void *user, const char *name) {
    uint8_t **end = user;
    size_t len = strlen(name) + 1;
    memcpy(*end, name, len);
    *end += len;
}

/* Does what the head says, in the shared memory or in a copy of it. */
static void serve(Shared *s) {
    Job job = {"", "", s->head.kind, s->head.len, s->in};
    uint8_t *end = s->out;
    if (s->head.kind == PICTURE) {
        end += native_picture(&job, s->out);
    } else if (s->head.kind != NOTHING) {
        native_document(&job, put_name, &end);
    }
    s->head.len = (uint32_t)(end - s->out);
}

static void serve_pipes(Shared *s, int from, int to) {
    for (;;) {
        uint64_t begun = processor_time();
        all(from, &s->head, sizeof s->head, 0);
        all(from, s->in, s->head.len, 0);
        serve(s);
        all(to, &s->head, sizeof s->head, 1);
        all(to, s->out, s->head.len, 1);
        begun = processor_time() - begun;
        all(to, &begun, sizeof begun, 1);
    }
}

static void pass(Shared *s) {
    __atomic_add_fetch(&s->turn, 1, __ATOMIC_SEQ_CST);
    (void)syscall(SYS_futex, &s->turn, FUTEX_WAKE, 1, NULL, NULL, 0);
}

static void await(Shared *s, uint32_t odd) {
    uint32_t turn;
    while ((turn = __atomic_load_n(&s->turn, __ATOMIC_SEQ_CST)) % 2 != odd) {
        (void)syscall(SYS_futex, &s->turn, FUTEX_WAIT, turn, NULL, NULL, 0);
    }
}

static void serve_memory(Shared *s) {
    for (;;) {
        uint64_t begun = processor_time();
        await(s, 1);
        serve(s);
        s->head.took = processor_time() - begun;
        pass(s);
    }
}

static Server *server_new(int by_memory, const char *program) {
    Server *server = calloc(1, sizeof *server);
    int to[2], from[2];
    need(server != NULL && pipe(to) == 0 && pipe(from) == 0, "no server");
    server->shared = mmap(NULL, sizeof(Shared), PROT_READ | PROT_WRITE, MAP_SHARED | MAP_ANONYMOUS, -1, 0);
    need(server->shared != MAP_FAILED, "no shared memory");
    server->by_memory = by_memory;
    server->is_program = program != NULL;
    server->to = to[1];
    server->from = from[0];
    server->child = fork();
    need(server->child >= 0, "no process");
    if (server->child != 0) {
        need(close(to[0]) == 0 && close(from[1]) == 0, "no pipe");
        return server;
    }
    need(prctl(PR_SET_PDEATHSIG, SIGKILL) == 0, "no process");
    if (program != NULL) {
        need(dup2(to[0], 0) == 0 && dup2(from[1], 1) == 1 && close(to[1]) == 0 && execl(program, program, (char *)NULL) == 0, program);
    }
    if (by_memory) {
        serve_memory(server->shared);
    }
    need(close(to[1]) == 0, "no pipe");
    serve_pipes(server->shared, to[0], from[1]);
    _exit(0);
}

Server *server_by_pipe(void) {
    return server_new(0, NULL);
}

Server *server_by_memory(void) {
    return server_new(1, NULL);
}

Server *server_of_program(const char *program) {
    return access(program, X_OK) == 0 ? server_new(0, program) : NULL;
}

/* One line of native32. */
static uint64_t ask_program(Server *server, const Job *job, Made *made) {
    char line[512];
    size_t len = 0;
    unsigned long long took;
    int n = snprintf(line, sizeof line, "%u %s\n", (unsigned)job->kind, job->file);
    all(server->to, line, (size_t)n, 1);
    do {
        need(len + 1 < sizeof line, "native32 says something else");
        all(server->from, line + len, 1, 0);
    } while (line[len++] != '\n');
    line[len] = 0;
    need(sscanf(line, "%llu %u %u", &took, &made->count, &made->sum) == 3, "native32 says something else");
    return took;
}

static void ask(Server *server, const Job *job) {
    Shared *s = server->shared;
    s->head.kind = job->kind;
    s->head.len = job->len;
    if (server->by_memory) {
        memcpy(s->in, job->bytes, job->len);
        pass(s);
        await(s, 0);
        return;
    }
    all(server->to, &s->head, sizeof s->head, 1);
    all(server->to, (void *)job->bytes, job->len, 1);
    all(server->from, &s->head, sizeof s->head, 0);
    all(server->from, s->out, s->head.len, 0);
    all(server->from, &s->head.took, sizeof s->head.took, 0);
}

uint64_t server_do(Server *server, const Job *job, Made *made) {
    const Shared *s = server->shared;
    uint64_t begun = processor_time(), took;
    const char *name = (const char *)s->out;
    memset(made, 0, sizeof *made);
    if (server->is_program) {
        return ask_program(server, job, made);
    }
    ask(server, job);
    while (job->kind == DOCUMENT && name < (const char *)s->out + s->head.len) {
        add_name(made, name);
        name += strlen(name) + 1;
    }
    took = processor_time() - begun + s->head.took;
    if (job->kind == PICTURE) {
        add_pixels(made, s->out, s->head.len);
    }
    return took;
}

void server_end(Server *server) {
    (void)kill(server->child, SIGKILL);
    (void)waitpid(server->child, NULL, 0);
    (void)munmap(server->shared, sizeof(Shared));
    (void)close(server->to);
    (void)close(server->from);
    free(server);
}
