/* A target: the calls that nc-run serves. A program in a box makes a list of calls with numbers, paths and memory from the input, in a
   temporary folder, or in one of the kernel's own, where no file may be opened. Each call does what nc_run.h says of it. Nothing outside of
   the folder changes, and every file that is open lies in it or is a pipe. In the end each file is closed, but for nc-run's own. */
#define _GNU_SOURCE
#include "first.h"
#include "folder.h"
#include "fuzz.h"
#include "guest/nc_run.h"
#include "rules.h"
#include "seam.h"

#include <dirent.h>
#include <limits.h>
#include <signal.h>
#include <stdio.h>
#include <stdlib.h>
#include <string.h>
#include <sys/stat.h>
#include <unistd.h>

#define CALLS_MOST RULES_FILES
#define PATHS 4u
#define PATH_ROOM 512u
#define BUFFER_LEN 4096u
#define WRITE_MOST 0x20000u /* bytes that may be written in the folder */
#define NUMBERS_MOST 1024u  /* of the files of this process */
#define STANDARD 3
#define CLOSE 5           /* the number of the call nc_close */
#define SLEEP 24          /* and of nc_sleep */
#define POLL 28           /* and of nc_poll */
#define WAIT_MOST 0xFFFFu /* nanoseconds */
/* What an input's byte says: the calls before those for code, those behind them, a path, or something else. */
enum {
    TO_EXIT = NC_RUN_CODE,
    TO_LAY,
    TO_CALL_MORE = TO_LAY + PATHS,
    TO_ANYWHERE = TO_CALL_MORE + NC_RUN_END - NC_RUN_CODE_END,
    TO_MOST = 32
};

/* As the program reads it. */
typedef struct Call {
    uint32_t at, args[4], low, high;
} Call;

typedef struct Trial {
    NcsBox *box;
    NcsAt list, paths, too_long, buffer; /* in the box */
    Call calls[CALLS_MOST];
    uint32_t count;
} Trial;

extern const uint8_t guest_elf[], guest_elf_end[];

static NcsModule *module;
static struct stat standard_were[STANDARD];

/* ---- Files of this process */

/* Notes which numbers are taken. */
static void see_numbers(uint8_t taken[NUMBERS_MOST]) {
    DIR *dir = opendir("/proc/self/fd");
    struct dirent *entry;
    memset(taken, 0, NUMBERS_MOST);
    MUST(dir != NULL);
    while ((entry = readdir(dir)) != NULL) {
        unsigned long number = strtoul(entry->d_name, NULL, 10);
        MUST(number < NUMBERS_MOST);
        taken[number] = entry->d_name[0] != '.' && (int)number != dirfd(dir);
    }
    MUST(closedir(dir) == 0);
}

/* Whether a file is a regular one or a folder, and in the program's folder or that itself; or a pipe without a name. */
static int is_of_program(int file) {
    char name[64], to[PATH_MAX];
    size_t len = strlen(folder_path());
    struct stat about;
    ssize_t got;
    MUST(snprintf(name, sizeof name, "/proc/self/fd/%d", file) < (int)sizeof name);
    got = readlink(name, to, sizeof to - 1);
    MUST(got >= 0 && fstat(file, &about) == 0);
    to[got] = 0;
    if (S_ISFIFO(about.st_mode)) {
        return strncmp(to, "pipe:", 5) == 0;
    }
    return (S_ISREG(about.st_mode) || S_ISDIR(about.st_mode)) && strncmp(to, folder_path(), len) == 0 &&
           (to[len] == '/' || (to[len] == 0 && S_ISDIR(about.st_mode)));
}

/* The files that were opened are those that the program has numbers for, and the folder itself. */
static void judge_numbers(const uint8_t before[NUMBERS_MOST]) {
    uint8_t now[NUMBERS_MOST];
    unsigned opened = 0;
    int k;
    see_numbers(now);
    for (k = 0; k < (int)NUMBERS_MOST; k++) {
        MUST(!before[k] || now[k]);
        opened += now[k] && !before[k] && is_of_program(k);
    }
    MUST(opened == rules_opened());
}

static void see_standard(struct stat were[STANDARD]) {
    int k;
    for (k = 0; k < STANDARD; k++) {
        MUST(fstat(k, &were[k]) == 0);
    }
}

static void judge_standard(void) {
    struct stat are[STANDARD];
    int k;
    see_standard(are);
    for (k = 0; k < STANDARD; k++) {
        MUST(are[k].st_dev == standard_were[k].st_dev && are[k].st_ino == standard_were[k].st_ino);
    }
}

/* ---- Calls from the input: each is eight bytes */

static void put_path(const Trial *t, uint32_t slot, const uint8_t parts[FOLDER_PARTS]) {
    char path[PATH_ROOM] = "";
    unsigned k, count = parts[0] % FOLDER_PARTS;
    if (parts[0] >= 0xF0) {
        MUST(strlen(folder_above()) + 1 < PATH_ROOM);
        strcat(strcpy(path, folder_above()), "/");
    }
    for (k = 0; k < count; k++) {
        MUST(strlen(path) + strlen(folder_part(parts[1 + k])) + 2 <= PATH_ROOM);
        strcat(path, folder_part(parts[1 + k]));
        strcat(path, k + 1 < count ? "/" : "");
    }
    MUST(ncs_set(t->box, (NcsAt){t->paths.at + PATH_ROOM * slot}, path, (uint32_t)strlen(path) + 1));
}

/* A number that a call may take amiss, by a byte that says which, and three more bytes. */
static uint32_t word(const Trial *t, uint8_t which, uint32_t extra) {
    /* clang-format off */
    static const uint32_t edges[] = {0, 1, 2, 3, 63, 64, 0xFFFF, 0x10000, 0x7FFFFFFF, 0x80000000, 0xFFFFFFE0, 0xFFFFFFFF, RULES_ROOM,
                                     RULES_ROOM - 1, RULES_ROOM - 0x10000, BUFFER_LEN};
    static const uint32_t hows[] = {NC_OPEN_READ, NC_OPEN_WRITE, NC_OPEN_BOTH, NC_OPEN_WRITE | NC_OPEN_CREATE,
                                    NC_OPEN_BOTH | NC_OPEN_CREATE, NC_OPEN_BOTH | NC_OPEN_CREATE | NC_OPEN_NEW,
                                    NC_OPEN_WRITE | NC_OPEN_EMPTY, NC_OPEN_WRITE | NC_OPEN_APPEND, NC_OPEN_CREATE, NC_OPEN_EMPTY, 3,
                                    0x8000 | NC_OPEN_READ,
                                    NC_OPEN_FOLDER, NC_OPEN_NO_LINK, NC_OPEN_FOLDER | NC_OPEN_WRITE, NC_OPEN_NO_LINK | NC_OPEN_CREATE};
    /* clang-format on */
    uint32_t low = which & 31;
    switch (which >> 5) {
    case 0: return low;
    case 1: return low % 8 == 7 ? t->too_long.at : t->paths.at + PATH_ROOM * (low % PATHS);
    case 2: return t->buffer.at + low * (BUFFER_LEN / 32);
    case 3: return edges[low % (sizeof edges / sizeof *edges)];
    case 4: return RULES_ROOM - low;
    case 5: return hows[low % (sizeof hows / sizeof *hows)];
    case 6: return extra >> (low % 16);
    default: return extra << (low % 16);
    }
}

/* The address of a call. */
static uint32_t place_of(unsigned what, uint32_t extra) {
    return what < NC_RUN_CODE  ? NCS_CALLBACK(what)
         : what == TO_EXIT     ? NCS_EXIT
         : what >= TO_ANYWHERE ? extra
                               : NCS_CALLBACK(what - TO_CALL_MORE + NC_RUN_CODE_END);
}

/* The program masks addresses, so some others lead to these calls too. */
static void limit_wait(Call *call) {
    uint32_t place = call->at & ~(uint32_t)31;
    if (place == NCS_CALLBACK(SLEEP)) {
        call->args[0] &= WAIT_MOST;
        call->args[1] &= 1u << 31;
    } else if (place == NCS_CALLBACK(POLL)) {
        call->args[2] &= WAIT_MOST;
        call->args[3] = 0;
    }
}

static void read_call(Trial *t, Input *input) {
    uint8_t bytes[8];
    uint32_t extra, k;
    unsigned what;
    Call *call = &t->calls[t->count];
    fuzz_bytes(input, bytes, sizeof bytes);
    what = bytes[0] % TO_MOST;
    if (what >= TO_LAY && what < TO_CALL_MORE) {
        put_path(t, what - TO_LAY, bytes + 1);
        return;
    }
    memset(call, 0, sizeof *call);
    extra = (uint32_t)bytes[7] << 16 | (uint32_t)bytes[6] << 8 | bytes[5];
    for (k = 0; k < 4; k++) {
        call->args[k] = word(t, bytes[1 + k], extra);
    }
    call->at = place_of(what, extra);
    limit_wait(call);
    t->count++;
}

/* ---- A trial */

static NcsEnd replay(Trial *t) {
    MUST(ncs_set(t->box, t->list, t->calls, t->count * (uint32_t)sizeof *t->calls));
    return ncs_call(t->box, ncs_entry(module), NCS_ARGS(t->list.at, t->count));
}

static void take_room(Trial *t) {
    static uint8_t name[PATH_MAX + 10];
    memset(name, 'a', sizeof name);
    t->list = ncs_take(t->box, sizeof t->calls);
    t->paths = ncs_take(t->box, PATHS * PATH_ROOM);
    t->buffer = ncs_take(t->box, BUFFER_LEN);
    t->too_long = ncs_put(t->box, name, sizeof name);
    MUST(t->list.at != 0 && t->paths.at != 0 && t->buffer.at != 0 && t->too_long.at != 0);
}

/* The program closes all of its files, by the numbers that it can have. */
static void close_all(Trial *t) {
    MUST(ncs_reset(t->box));
    for (t->count = 0; t->count < RULES_FILES; t->count++) {
        t->calls[t->count] = (Call){.at = NCS_CALLBACK(CLOSE), .args = {t->count}};
    }
    MUST(replay(t).how == NCS_RETURNED);
}

static void try_calls(NcsBox *box, Input *input) {
    uint8_t before[NUMBERS_MOST];
    int what = fuzz_byte(input) % (RULES_NONE + 1);
    static Trial t;
    NcsEnd end;
    memset(&t, 0, sizeof t);
    t.box = box;
    rules_begin(box, what, seam_memory_end(), WRITE_MOST);
    seam_begin(module, box, what == RULES_NONE ? "/proc/self" : folder_path(), what != RULES_READ, WRITE_MOST);
    see_numbers(before);
    take_room(&t);
    while (input->len != 0 && t.count < CALLS_MOST) {
        read_call(&t, input);
    }
    end = replay(&t);
    MUST(end.how != NCS_BUSY && end.how != NCS_HOST && end.how != NCS_DEAD && end.how != NCS_LATE);
    judge_numbers(before);
    MUST(folder_outside_is_same() && (what == RULES_WRITE ? folder_inside_is_good() : folder_inside_is_same()));
    close_all(&t);
    judge_numbers(before);
    judge_standard();
    seam_end();
}

/* What nc-run does before its program. */
static void begin(void) {
    NcsRefusal why;
    first_begin();
    MUST(signal(SIGPIPE, SIG_IGN) != SIG_ERR && signal(SIGXFSZ, SIG_IGN) != SIG_ERR);
    folder_begin();
    see_standard(standard_were);
    module = ncs_module_elf(guest_elf, (size_t)(guest_elf_end - guest_elf), &why);
    MUST(module != NULL);
}

int LLVMFuzzerTestOneInput(const uint8_t *bytes, size_t len) {
    static const NcsLimits limits = {.memory = RULES_ROOM, .depth = 1, .milliseconds = 60000};
    Input input = {bytes, len};
    NcsBox *box;
    if (module == NULL) {
        begin();
    }
    folder_restore();
    box = ncs_box_new(module, &limits, NULL);
    MUST(box != NULL);
    try_calls(box, &input);
    MUST(ncs_free(box));
    return 0;
}
