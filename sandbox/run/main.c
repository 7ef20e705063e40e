/* nc-run: runs a program that nc-cc has compiled, in a box. docs/man/nc-run.1 describes it. TRUSTED, NOT PROVED. */
#define _GNU_SOURCE
#include "run.h"

#include "nc_host.h"

#include <errno.h>
#include <fcntl.h>
#include <signal.h>
#include <stdio.h>
#include <stdlib.h>
#include <string.h>
#include <sys/prctl.h>
#include <sys/syscall.h>
#include <unistd.h>

#define FILE_MOST ((size_t)1 << 30)
#define LACKING 127
#define LOW_BITS 0xFFu /* of a status */
#define ON (-1)        /* no status yet: nc-run goes on */

/* The rest of a file, in memory that grows. 0, or an error. */
static int read_all(int file, uint8_t **bytes, size_t *len) {
    size_t room = 0;
    ssize_t got = 1;
    *bytes = NULL;
    *len = 0;
    while (got != 0) {
        if (*len == room) {
            uint8_t *more = room < FILE_MOST ? realloc(*bytes, room != 0 ? 2 * room : 1 << 16) : NULL;
            if (more == NULL) {
                return room < FILE_MOST ? ENOMEM : EFBIG;
            }
            *bytes = more;
            room = room != 0 ? 2 * room : 1 << 16;
        }
        got = read(file, *bytes + *len, room - *len);
        if (got < 0 && errno != EINTR) {
            return errno;
        }
        *len += got > 0 ? (size_t)got : 0;
    }
    return 0;
}

/* A program makes one call at a time. */
static NcsModule *make_module(const Run *run, NcsRefusal *why) {
    uint32_t bundles = (run->line.live + NC_BUNDLE - 1) / NC_BUNDLE;
    return bundles == 0 ? ncs_module_elf(run->bytes, run->len, why) : ncs_module_live_elf(run->bytes, run->len, bundles, 1, why);
}

static int load(Run *run) {
    int file = open(run->line.file, O_RDONLY | O_CLOEXEC), error = file < 0 ? errno : read_all(file, &run->bytes, &run->len);
    NcsRefusal why;
    if (file >= 0) {
        (void)close(file);
    }
    if (error != 0) {
        return error == ENOMEM ? report_system("out of memory", 0) : report_file(run, strerror(error), "");
    }
    run->module = make_module(run, &why);
    if (run->module == NULL) {
        return report_refusal(run, &why);
    }
    run->has_lines = lines_are_in(run->bytes, run->len);
    free(run->bytes); /* the module has a copy */
    run->bytes = NULL;
    return ON;
}

static int make_box(Run *run) {
    const NcsLimits limits = {.memory = run->line.memory, .depth = 1, .milliseconds = run->line.milliseconds};
    NcsRefusal why;
    run->box = ncs_box_new(run->module, &limits, &why);
    if (run->box == NULL) {
        return report_refusal(run, &why);
    }
    run->memory_end = run->line.memory;
    return calls_give(run) ? ON : report_system("a call of the host can't be added to the box", 0);
}

/* The words of the command line, from the file's name on, and behind them those of the environment. */
static const char *word(const Run *run, unsigned k) {
    const Line *line = &run->line;
    return k == 0 ? line->file : k <= line->count ? line->words[k - 1] : line->env[k - 1 - line->count];
}

/* Their bytes, each with its 0. */
static uint64_t words_len(const Run *run, unsigned count) {
    uint64_t len = 0;
    unsigned k;
    for (k = 0; k < count; k++) {
        len += strlen(word(run, k)) + 1;
    }
    return len;
}

/* Writes words to an address of the box, and their addresses from another one on, with a null behind them. The address behind the words, or
   0. */
static uint32_t lay_some(Run *run, unsigned from, unsigned end, uint32_t at, uint32_t pointers) {
    const uint32_t zero = 0;
    unsigned k;
    for (k = from; k < end; k++, pointers += 4) {
        uint32_t size = (uint32_t)strlen(word(run, k)) + 1;
        if (!ncs_set(run->box, (NcsAt){pointers}, &at, 4) || !ncs_set(run->box, (NcsAt){at}, word(run, k), size)) {
            return 0;
        }
        at += size;
    }
    return ncs_set(run->box, (NcsAt){pointers}, &zero, 4) ? at : 0;
}

/* Writes the words at the end of the memory, and below them argv and the environment, each of which ends with a null. The address of argv, a
   multiple of 16; or 0 if there is no room above the data. */
static uint32_t lay_words(Run *run) {
    unsigned own = 1 + run->line.count, count = own + run->line.env_count;
    uint32_t heap = ncs_take(run->box, 0).at, at, argv;
    uint64_t len = words_len(run, count), room = 4 * (count + 2ull);
    if (heap == 0 || len + room + 15 > run->line.memory - heap) {
        return 0;
    }
    at = run->line.memory - (uint32_t)len;
    argv = (at - (uint32_t)room) & ~15u;
    run->memory_end = argv;
    at = lay_some(run, 0, own, at, argv);
    return at != 0 && lay_some(run, own, count, at, argv + 4 * (own + 1)) != 0 ? argv : 0;
}

/* The result of a function goes to standard output; that of the program is its status. */
static int finish(Run *run, NcsAt function, const NcsEnd *end) {
    if (end->how == NCS_EXITED) {
        return report_lack(run, (int)(end->status & LOW_BITS));
    }
    if (end->how != NCS_RETURNED) {
        NcsEnd again = end->how == NCS_BAD_ENTRY ? ncs_call(run->box, function, NCS_NO_ARGS) : *end;
        return report_end(run, end, again.how != NCS_BAD_ENTRY); /* a box that was entered is dead */
    }
    if (run->line.call == NULL) {
        return report_lack(run, (int)(end->result & LOW_BITS));
    }
    return printf("%u\n", (unsigned)end->result) < 0 || fflush(stdout) != 0 ? report_system("standard output", errno) : 0;
}

static int call_function(Run *run) {
    NcsAt function = ncs_symbol(run->module, run->line.call);
    NcsEnd end;
    if (function.at == 0) {
        return report_file(run, "it has no global symbol ", run->line.call);
    }
    end = ncs_call(run->box, function, run->line.count, run->line.numbers);
    return finish(run, function, &end);
}

static int start(Run *run) {
    uint32_t argv = lay_words(run);
    NcsAt entry = ncs_entry(run->module);
    NcsEnd end;
    if (argv == 0) {
        return report_file(run, "there is no room for the words of the command line above its data: give more --memory", "");
    }
    end = ncs_call(run->box, entry, NCS_ARGS(1 + run->line.count, argv));
    return finish(run, entry, &end);
}

/* Before anything untrusted is read. No other process of this user reads or writes the memory from here on. A write that nobody reads, and
   one beyond the longest file allowed, are errors of the program's call. NULL, or what failed, with errno. */
static const char *prepare(Run *run) {
    const char *what = files_begin(&run->files);
    if (what == NULL && run->line.debugger == 0 && prctl(PR_SET_DUMPABLE, 0ul, 0ul, 0ul, 0ul) != 0) {
        what = "prctl";
    }
    if (what == NULL && (signal(SIGPIPE, SIG_IGN) == SIG_ERR || signal(SIGXFSZ, SIG_IGN) == SIG_ERR)) {
        what = "a signal";
    }
    run->files.left = run->line.write;
    things_begin(run);
    return what != NULL ? what : view_begin(&run->files.view, run->line.folders, run->line.folder_count);
}

/* What the calls of nc_run.h need of the system besides: always, for folders that are only read, and for others. */
/* clang-format off */
static const int CALLS[] = {
    SYS_pipe2, SYS_ppoll,
    SYS_getdents64, SYS_readlinkat,
    SYS_mkdirat, SYS_unlinkat, SYS_renameat, SYS_ftruncate, SYS_fchmod, SYS_fsync,
};
/* clang-format on */
#define CALLS_ALWAYS 2u
#define CALLS_TO_READ 4u
#define CALLS_TO_CHANGE (sizeof CALLS / sizeof *CALLS)

static int build_wall(const Run *run, NcsRefusal *why) {
    NcsFolder folders[FOLDERS_MAX];
    NcsWall wall = {.folders = folders, .folder_count = run->files.view.count, .calls = CALLS, .call_count = CALLS_ALWAYS};
    unsigned k;
    for (k = 0; k < wall.folder_count; k++) {
        folders[k] = (NcsFolder){.file = run->line.folders[k].file, .writable = run->line.folders[k].writable};
        wall.call_count = folders[k].writable || wall.call_count == CALLS_TO_CHANGE ? CALLS_TO_CHANGE : CALLS_TO_READ;
    }
    return ncs_wall(&wall, why);
}

/* Tells a debugger where the program is: the linear addresses of code and data, the span of the code, the entry, the end of the memory, and
   the file. Then it waits until the debugger lets it go on. */
static int wait_for_debugger(const Run *run) {
    NcsLinear at = ncs_linear(run->box);
    NcsAt entry = run->line.call != NULL ? ncs_symbol(run->module, run->line.call) : ncs_entry(run->module);
    FILE *file = fdopen(run->line.debugger, "w");
    int told = file != NULL &&
               fprintf(file, "%08x %08x %08x %08x %08x %08x %s\n", (unsigned)at.code, (unsigned)at.data, (unsigned)at.file.from.at,
                       (unsigned)(at.file.from.at + at.file.len), (unsigned)entry.at, (unsigned)run->line.memory, run->line.file) > 0;
    told = file != NULL && fclose(file) == 0 && told;
    return told && raise(SIGSTOP) == 0 ? ON : report_system("the debugger's file", errno);
}

/* What tools of developers are told, if they are to be. */
static int tell_tools(const Run *run) {
    const char *what = run->line.maps ? perf_write_map(run->module, run->box) : NULL;
    return what != NULL ? report_system(what, errno) : run->line.debugger != 0 ? wait_for_debugger(run) : ON;
}

/* Gives up what the program's calls don't need: files from the parent, and by the second wall all that the system can take away. */
static int give_up(const Run *run) {
    NcsRefusal why;
    int stands, status;
    files_leave_others(&run->files);
    if (run->line.wall == WALL_NONE) {
        return ON;
    }
    stands = build_wall(run, &why);
    if (stands == NCS_WALL_WHOLE) {
        return ON;
    }
    status = report_wall(stands, &why);
    return run->line.wall == WALL_MUST ? status : ON;
}

static int run_all(Run *run) {
    const char *what = prepare(run);
    int status = what != NULL ? report_system(what, errno) : load(run);
    status = status == ON ? make_box(run) : status;
    status = status == ON ? tell_tools(run) : status;
    status = status == ON ? give_up(run) : status;
    return status != ON ? status : run->line.call != NULL ? call_function(run) : start(run);
}

/* What nc_host was built for: NC_RUN_LEVEL 2 is x86-64-v2, and so on. This file is for any processor. */
static int lacks(void) {
#if NC_RUN_LEVEL >= 3
    return !__builtin_cpu_supports("avx2") || !__builtin_cpu_supports("bmi2");
#elif NC_RUN_LEVEL >= 2
    return !__builtin_cpu_supports("sse4.2") || !__builtin_cpu_supports("popcnt");
#else
    return 0;
#endif
}

int main(int argc, char **argv) {
    static Run run;
    int status;
    if (lacks()) {
        (void)report_system("this processor lacks instructions for which nc-run was built", 0);
        return LACKING;
    }
    status = line_read(argc, argv, &run.line);
    if (status >= 0) {
        return status;
    }
    status = run_all(&run);
    (void)ncs_free(run.box);
    ncs_module_free(run.module);
    free(run.bytes);
    return status;
}
