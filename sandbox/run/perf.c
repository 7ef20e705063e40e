/* The names of a program's functions for perf, which finds them in perf-PID.map of /tmp, as those of a compiler at run time. TRUSTED,
   NOT PROVED. */
#include "run.h"

#include <errno.h>
#include <fcntl.h>
#include <stdio.h>
#include <stdlib.h>
#include <unistd.h>

typedef struct Function {
    uint32_t at;
    size_t order; /* of the file; of several at one address the last one counts */
    const char *name;
} Function;

typedef struct Functions {
    Function *of;
    size_t count, room;
    int is_short; /* of memory */
} Functions;

static void note(void *user, NcsAt at, const char *name) {
    Functions *functions = user;
    if (functions->count == functions->room) {
        size_t room = functions->room != 0 ? 2 * functions->room : 256;
        Function *more = realloc(functions->of, room * sizeof *more);
        if (more == NULL) {
            functions->is_short = 1;
            return;
        }
        functions->of = more;
        functions->room = room;
    }
    functions->of[functions->count] = (Function){at.at, functions->count, name};
    functions->count++;
}

static int compare(const void *a, const void *b) {
    const Function *one = a, *other = b;
    return one->at != other->at ? (one->at > other->at) - (one->at < other->at) : (one->order > other->order) - (one->order < other->order);
}

/* A function ends where the next one begins. Whether all lines are written. */
static int write_lines(FILE *file, const Functions *functions, const NcsLinear *linear) {
    uint32_t end = linear->file.from.at + linear->file.len;
    size_t k;
    for (k = 0; k < functions->count; k++) {
        const Function *f = &functions->of[k];
        uint32_t next = k + 1 < functions->count ? f[1].at : end;
        if (next != f->at && fprintf(file, "%x %x %s\n", (unsigned)(linear->code + f->at), (unsigned)(next - f->at), f->name) < 0) {
            return 0;
        }
    }
    return 1;
}

/* A new file: anybody can write in that folder. What an earlier process of this number has left is removed. */
static FILE *open_new(const char *path) {
    int number;
    FILE *file;
    (void)unlink(path);
    number = open(path, O_WRONLY | O_CREAT | O_EXCL | O_NOFOLLOW | O_CLOEXEC, 0600);
    file = number >= 0 ? fdopen(number, "w") : NULL;
    if (number >= 0 && file == NULL) {
        (void)close(number);
    }
    return file;
}

const char *perf_write_map(const NcsModule *module, const NcsBox *box) {
    static char path[40];
    Functions functions = {NULL, 0, 0, 0};
    NcsLinear linear = ncs_linear(box);
    FILE *file;
    int made;
    (void)snprintf(path, sizeof path, "%s/perf-%ld.map", "/tmp", (long)getpid()); /* any number has room */
    file = open_new(path);
    if (file == NULL) {
        return path;
    }
    ncs_functions(module, note, &functions);
    if (functions.count != 0) {
        qsort(functions.of, functions.count, sizeof *functions.of, compare);
    }
    made = !functions.is_short && write_lines(file, &functions, &linear);
    free(functions.of);
    if (fclose(file) != 0 || !made) {
        errno = functions.is_short ? ENOMEM : errno;
        return path;
    }
    return NULL;
}
