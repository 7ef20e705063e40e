/* What stands in the process while code can run: its maps, its segments, its handlers and this thread's signals. */
#define _GNU_SOURCE
#include "kit.h"

#include <asm/ldt.h>
#include <signal.h>
#include <stdio.h>
#include <string.h>
#include <sys/syscall.h>
#include <unistd.h>

#ifndef SS_AUTODISARM
#define SS_AUTODISARM (1u << 31)
#endif
#define SIGNALS 65
#define MAPS 4096

typedef struct Map {
    uint64_t from, to;
    char can[5];
    char file[32]; /* its device and number; a blank begins the one of memory without a file */
    int named;     /* a file of the file system, as the host's own code is */
} Map;

static Map maps[MAPS];

/* How many there are; 0 if they can't be read. */
static size_t read_maps(void) {
    FILE *file = fopen("/proc/self/maps", "r");
    char line[512];
    size_t count = 0;
    while (file != NULL && count < MAPS && fgets(line, sizeof line, file) != NULL) {
        Map *m = &maps[count];
        unsigned long from, to, inode, offset;
        char device[16], name[256] = "";
        if (sscanf(line, "%lx-%lx %4s %lx %15s %lu %255s", &from, &to, m->can, &offset, device, &inode, name) < 6) {
            continue;
        }
        m->from = from;
        m->to = to;
        m->named = name[0] == '/' && strstr(name, "memfd:") == NULL;
        snprintf(m->file, sizeof m->file, "%s %lu", inode != 0 ? device : "", inode);
        count++;
    }
    if (file != NULL) {
        fclose(file);
    }
    return count;
}

static int can(const Map *m, char what) {
    return strchr(m->can, what) != NULL;
}

static int overlaps(const Map *m, uint64_t from, uint64_t to) {
    return from < to && m->from < to && from < m->to;
}

/* [1, 3]: nothing is writable and executable, and the text of untrusted code has no second mapping that can be written, but for a live
   text's, which no segment reaches. */
static const char *judge_text(const KitBox *box, size_t count) {
    uint64_t text = (uint64_t)box->code_base + box->code_at;
    const Map *own = NULL;
    size_t k;
    for (k = 0; k < count; k++) {
        if (can(&maps[k], 'w') && can(&maps[k], 'x')) {
            return "A PAGE CAN BE WRITTEN AND EXECUTED";
        }
        own = overlaps(&maps[k], text, text + 1) ? &maps[k] : own;
    }
    if (own == NULL || !can(own, 'x')) {
        return "THE TEXT CAN'T BE EXECUTED";
    }
    for (k = 0; own->file[0] != ' ' && k < count; k++) {
        if (can(&maps[k], 'w') && strcmp(maps[k].file, own->file) == 0 && (!kit_host.live || maps[k].from >> 32 == 0)) {
            return "THE TEXT HAS A MAPPING THAT CAN BE WRITTEN";
        }
    }
    return NULL;
}

/* A segment as the processor reads it: SDM volume 3, "Segment Descriptors". */
typedef struct Segment {
    uint64_t base, end;
    int is_there, is_code, is_64_bit, is_users, expands_down;
} Segment;

static int reaches(const Segment *s, uint64_t at, uint64_t len) {
    return s->base < at + len && at < s->end;
}

static Segment segment(uint64_t d) {
    uint64_t limit = (d & 0xFFFF) | (d >> 32 & 0xF0000);
    /* clang-format off */
    Segment s = {.base = (d >> 16 & 0xFFFFFF) | d >> 56 << 24, .is_there = d >> 47 & 1, .is_code = d >> 43 & 1, .is_64_bit = d >> 53 & 1,
                 .is_users = (d >> 45 & 3) == 3};
    /* clang-format on */
    s.end = s.base + ((d >> 55 & 1) ? (limit + 1) * KIT_PAGE : limit + 1);
    s.expands_down = !s.is_code && (d >> 42 & 1);
    return s;
}

/* [2, 8]: what can be executed in the code segment is text. What a data segment has is the box's, and none of it can be executed. The box's
   memory may be one mapping with what is behind it. */
static const char *judge_map(const Map *m, const Segment *s, const KitBox *box) {
    uint64_t code_end = (uint64_t)box->code_base + box->code_limit, data_end = (uint64_t)box->data_base + box->data_limit;
    if (!overlaps(m, s->base, s->end)) {
        return NULL;
    }
    if (s->is_code) {
        int is_other = s->base == box->code_base && can(m, 'x') && (m->named || overlaps(m, code_end, s->end));
        return is_other ? "OTHER CODE IN THE CODE SEGMENT" : NULL;
    }
    if (can(m, 'x')) {
        return "CODE IN A DATA SEGMENT";
    }
    if (s->base == box->data_base && (overlaps(m, data_end, s->end) || (overlaps(m, s->base, s->base + box->data_first) && can(m, 'r')))) {
        return "OTHER MEMORY IN THE DATA SEGMENT";
    }
    return reaches(s, KIT_LOW_AT, KIT_LOW_LEN) || reaches(s, KIT_STACK_AT, KIT_STACK_LEN) ? "MEMORY OF THE HOST'S IN A DATA SEGMENT" : NULL;
}

/* [6] */
static const char *judge_segment(const Segment *s, const KitBox *box, size_t count) {
    const char *wrong = s->is_64_bit    ? "A SEGMENT OF 64-BIT CODE"
                      : !s->is_users    ? "A SEGMENT OF ANOTHER PRIVILEGE"
                      : s->expands_down ? "A SEGMENT THAT EXPANDS DOWN"
                                        : NULL;
    size_t k;
    for (k = 0; k < count && wrong == NULL; k++) {
        wrong = judge_map(&maps[k], s, box);
    }
    return wrong;
}

/* [7, 8]: the local table, in which two segments have the limits of the box. */
static const char *judge_segments(const KitBox *box, size_t count) {
    static uint64_t table[LDT_ENTRIES];
    long len = syscall(SYS_modify_ldt, 0, table, sizeof table), k;
    int has_code = 0, has_data = 0;
    const char *wrong = len < 0 ? "NO SEGMENTS" : NULL;
    for (k = 0; k < len / (long)sizeof *table && wrong == NULL; k++) {
        Segment s = segment(table[k]);
        if (s.is_there) {
            wrong = judge_segment(&s, box, count);
            has_code |= s.is_code && s.base == box->code_base && s.end == s.base + box->code_limit;
            has_data |= !s.is_code && s.base == box->data_base && s.end == s.base + box->data_limit;
        }
    }
    return wrong != NULL ? wrong : has_code && has_data ? NULL : "NO SEGMENT WITH THE BOX'S LIMIT";
}

/* [21]: as the system has them, since glibc hides its own two from sigaction. */
static const char *judge_handlers(void) {
    struct {
        uintptr_t handler;
        unsigned long flags;
        void *restorer;
        uint64_t mask;
    } action;
    int sig;
    for (sig = 1; sig < SIGNALS; sig++) {
        if (syscall(SYS_rt_sigaction, sig, NULL, &action, sizeof action.mask) != 0) {
            return "A HANDLER THAT CAN'T BE READ";
        }
        if (action.handler > (uintptr_t)SIG_IGN && (action.flags & SA_ONSTACK) == 0) {
            return "A HANDLER WITHOUT SA_ONSTACK";
        }
    }
    return NULL;
}

/* [22]: out of reach, or disarmed while it is in use. */
static const char *judge_stack(void) {
    stack_t stack;
    if (sigaltstack(NULL, &stack) != 0 || (stack.ss_flags & SS_DISABLE) != 0) {
        return "NO ALTERNATE STACK";
    }
    return (uint64_t)(uintptr_t)stack.ss_sp >> 32 == 0 && ((unsigned)stack.ss_flags & SS_AUTODISARM) == 0 ? "WITHIN REACH" : NULL;
}

/* [23, 24] */
static const char *judge_signals(void) {
    static const int faults[] = {SIGSEGV, SIGBUS, SIGILL, SIGFPE, SIGTRAP};
    sigset_t blocked;
    size_t k;
    if (pthread_sigmask(SIG_SETMASK, NULL, &blocked) != 0) {
        return "THE MASK CAN'T BE READ";
    }
    for (k = 0; k < sizeof faults / sizeof *faults; k++) {
        struct sigaction action;
        if (sigismember(&blocked, faults[k])) {
            return "A FAULT'S SIGNAL IS BLOCKED";
        }
        if (sigaction(faults[k], NULL, &action) != 0 || (!(action.sa_flags & SA_SIGINFO) && action.sa_handler == SIG_DFL)) {
            return "A FAULT WITHOUT A HANDLER";
        }
    }
    return NULL;
}

const char *kit_judge_process(const KitBox *box) {
    size_t count = read_maps();
    const char *wrong = judge_text(box, count);
    wrong = wrong != NULL ? wrong : judge_segments(box, count);
    wrong = wrong != NULL ? wrong : judge_handlers();
    wrong = wrong != NULL ? wrong : judge_stack();
    return wrong != NULL ? wrong : judge_signals();
}

static void show(const char *name, const char *wrong) {
    printf("%s: %s", name, wrong == NULL ? "as they have to be" : "wrong");
    kit_end_line(wrong);
}

void kit_try_process(void) {
    size_t count;
    KitBox box;
    if (!kit_load_stop(&box)) {
        return;
    }
    (void)kit_run(&box, box.code_at, 0, 0);
    count = read_maps();
    show("pages", judge_text(&box, count));
    show("segments", judge_segments(&box, count));
    show("handlers", judge_handlers());
    show("the handlers' stack", judge_stack());
    show("this thread's signals", judge_signals());
    kit_drop(&box);
}
