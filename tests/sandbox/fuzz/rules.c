/* What nc_run.h says of each call of a program. A call-back that a box gets is replaced by one that calls it, and then judges it. */
#include "rules.h"

#include "folder.h"
#include "fuzz.h"
#include "guest/nc_run.h"
#include "wrapping.h"

#include <errno.h>
#include <string.h>

#define MEMORY_FIRST 0x10000u
#define BLOCK 4096u     /* what a file that is made counts, and a write behind a read or a seek, besides the bytes */
#define AROUND 64u      /* bytes on each side of a range that a read may not touch */
#define ERROR_MOST 4095 /* errors are numbers from 1 on */
#define STANDARD 3u

REAL(NcsAt, ncs_callback, NcsBox *box, NcsCallback function, void *user, unsigned args);

/* The open files, and which one the program has by each number, or NONE. The first ones are nc-run's own. */
typedef struct Opened {
    unsigned users;
    int moved; /* whether it was sought, read or cut since its last write */
    int is_pipe;
    uint8_t other; /* the other end of a pipe, or NONE once that is closed */
    uint64_t held; /* bytes in a pipe, of which the reading end keeps account */
    uint32_t how;
} Opened;
#define NONE 0xFF
#define OPENED_MOST (STANDARD + RULES_FILES) /* the standard ones keep their places */
static Opened opened[OPENED_MOST];
static uint8_t files[RULES_FILES];
static NcsBox *judged_box;
static int files_given;
static uint32_t memory_end;
static uint64_t left;       /* bytes that may be written */
static unsigned count;      /* of what is in the folder */
static int64_t size_before; /* of the file of a call */

typedef struct Given {
    NcsCallback function;
    void *user;
} Given;
static Given given[NCS_CALLBACKS];
static unsigned given_count;

static int has_file(uint32_t number) {
    return number < RULES_FILES && files[number] != NONE;
}

static int has_opened(uint32_t number) {
    return has_file(number) && files[number] >= STANDARD;
}

static Opened *file_of(uint32_t number) {
    return &opened[files[number]];
}

static int has_pipe(uint32_t number) {
    return has_opened(number) && file_of(number)->is_pipe;
}

/* Whether it lies in the folder. */
static int has_beneath(uint32_t number) {
    return has_opened(number) && !file_of(number)->is_pipe;
}

static uint32_t least_free(uint32_t from) {
    uint32_t k = from;
    while (k < RULES_FILES && files[k] != NONE) {
        k++;
    }
    return k;
}

/* Gives an open file a number, or takes it away. */
static void give_number(uint32_t number, uint8_t file) {
    if (files[number] != NONE && --file_of(number)->users == 0 && has_pipe(number) && file_of(number)->other != NONE) {
        opened[file_of(number)->other].other = NONE;
    }
    files[number] = file;
    if (file != NONE) {
        opened[file].users++;
    }
}

static int has_range(uint32_t at, uint32_t len) {
    return len == 0 || (at >= MEMORY_FIRST && (uint64_t)at + len <= RULES_ROOM);
}

/* ---- What each call returns */

/* Whether such a call on these bytes can succeed at all. One of nc-run's own files is for reading, and two are for writing. */
static int may_transfer(const uint32_t *args, int64_t result, int reads) {
    if (!has_opened(args[0]) && !(has_file(args[0]) && reads == (files[args[0]] == 0))) {
        MUST(result == -EBADF);
        return 0;
    }
    MUST(has_range(args[1], args[2]) ? result <= (int64_t)args[2] : result == -EFAULT);
    return result >= 0;
}

/* A pipe gives all that it holds. What is empty can be read once nothing can be written any more. */
static void judge_from_pipe(Opened *file, uint32_t len, int64_t result) {
    uint64_t most = file->held < len ? file->held : len;
    MUST(result == (file->how != NC_OPEN_READ ? -EBADF : most != 0 || len == 0 || file->other == NONE ? (int64_t)most : -EDEADLK));
    file->held -= result > 0 ? (uint64_t)result : 0;
}

/* How much it takes is the system's to say. */
static void judge_to_pipe(const Opened *file, uint32_t len, int64_t result) {
    if (file->how != NC_OPEN_WRITE || len == 0) {
        MUST(result == (file->how != NC_OPEN_WRITE ? -EBADF : 0));
    } else if (file->other == NONE) {
        MUST(result == -EPIPE);
    } else {
        MUST(result > 0 || (result == -EDEADLK && opened[file->other].held != 0));
        opened[file->other].held += result > 0 ? (uint64_t)result : 0;
    }
}

static void rule_of_read(const uint32_t *args, int64_t result) {
    int may = may_transfer(args, result, 1);
    if (has_pipe(args[0]) && has_range(args[1], args[2])) {
        judge_from_pipe(file_of(args[0]), args[2], result);
    } else if (may) {
        file_of(args[0])->moved = 1;
    }
}

/* Where it isn't all of the room that is left, the system has taken less. */
static void rule_of_write(const uint32_t *args, int64_t result) {
    int may = may_transfer(args, result, 0);
    if (has_pipe(args[0]) && has_range(args[1], args[2])) {
        judge_to_pipe(file_of(args[0]), args[2], result);
    } else if (may && has_opened(args[0]) && args[2] != 0) {
        uint64_t besides = file_of(args[0])->moved ? BLOCK : 0;
        MUST(besides + (uint64_t)result <= left && result != 0);
        left -= besides + (uint64_t)result;
        file_of(args[0])->moved = 0;
    }
}

static void rule_of_clock(const uint32_t *args, int64_t result) {
    MUST(args[0] <= NC_CLOCK_PROCESSOR ? result >= 0 : result == -EINVAL);
}

static void rule_of_memory(const uint32_t *args, int64_t result) {
    (void)args;
    MUST(result == (int64_t)memory_end);
}

/* Whatever is new in the folder counts as a block. */
static void see_count(void) {
    unsigned now = folder_count();
    if (now != count) {
        MUST(now == count + 1 && left >= BLOCK);
        left -= BLOCK;
        count = now;
    }
}

/* What succeeds only where the program may change something, and may be less than there was. */
static void see_change(int64_t result) {
    MUST(result <= 0 && (result < 0 || files_given == RULES_WRITE));
    count = folder_count();
}

static uint8_t new_opened(uint32_t how) {
    uint8_t k = STANDARD;
    while (opened[k].users != 0) {
        k++;
        MUST(k < OPENED_MOST);
    }
    opened[k] = (Opened){.how = how, .other = NONE};
    return k;
}

static void rule_of_open(const uint32_t *args, int64_t result) {
    uint32_t changing = args[1] & (NC_OPEN_WRITE | NC_OPEN_BOTH | NC_OPEN_CREATE | NC_OPEN_EMPTY | NC_OPEN_APPEND);
    if (result >= 0) {
        MUST(result < (int64_t)RULES_FILES && (uint32_t)result == least_free(0));
        MUST(files_given == RULES_WRITE || (files_given == RULES_READ && changing == 0));
        MUST(has_range(args[0], 1));
        give_number((uint32_t)result, new_opened(args[1]));
    }
    if ((args[1] & NC_OPEN_CREATE) != 0) {
        see_count();
    }
}

static void rule_of_close(const uint32_t *args, int64_t result) {
    MUST(result == (has_file(args[0]) ? 0 : -EBADF));
    if (has_file(args[0])) {
        give_number(args[0], NONE);
    }
}

static void rule_of_lseek(const uint32_t *args, int64_t result) {
    MUST(result < 0 || (has_beneath(args[0]) && args[3] <= 2));
    if (result >= 0) {
        file_of(args[0])->moved = 1;
    }
}

static void rule_of_size(const uint32_t *args, int64_t result) {
    MUST(has_file(args[0]) ? result != -EBADF : result == -EBADF);
}

static void rule_of_status(const uint32_t *args, int64_t result) {
    MUST(result <= 0 && (result < 0 || has_range(args[3], sizeof(struct nc_status))));
    MUST(result < 0 || (args[0] != 0 ? files_given != RULES_NONE && has_range(args[0], 1) : has_file(args[1])));
}

static void rule_of_list(const uint32_t *args, int64_t result) {
    MUST(result <= (int64_t)args[2] && (result < 0 || (has_beneath(args[0]) && has_range(args[1], args[2]))));
}

static void rule_of_link(const uint32_t *args, int64_t result) {
    MUST(result <= (int64_t)args[2] && (result < 0 || (files_given != RULES_NONE && has_range(args[0], 1))));
}

static void rule_of_enter(const uint32_t *args, int64_t result) {
    MUST(result <= 0 && (result < 0 || (files_given != RULES_NONE && has_range(args[0], 1))));
}

static void rule_of_where(const uint32_t *args, int64_t result) {
    MUST(result != 0 && result <= (int64_t)args[2]);
    MUST(result < 0 || args[0] == (uint32_t)NC_WHERE || has_beneath(args[0]));
}

static void rule_of_make(const uint32_t *args, int64_t result) {
    (void)args;
    MUST(result <= 0 && (result < 0 || files_given == RULES_WRITE));
    see_count();
}

static void rule_of_remove(const uint32_t *args, int64_t result) {
    MUST(result < 0 || args[1] <= 1);
    see_change(result);
}

static void rule_of_rename(const uint32_t *args, int64_t result) {
    MUST(result < 0 || (has_range(args[0], 1) && has_range(args[1], 1)));
    see_change(result);
}

static void rule_of_cut(const uint32_t *args, int64_t result) {
    int64_t len = (int64_t)((uint64_t)args[2] << 32 | args[1]);
    MUST(result <= 0 && (result < 0 || (has_beneath(args[0]) && len >= 0 && files_given == RULES_WRITE)));
    if (result == 0) {
        uint64_t more = len > size_before ? (uint64_t)(len - size_before) : 0;
        MUST((file_of(args[0])->how & (NC_OPEN_WRITE | NC_OPEN_BOTH)) != 0 && more <= left);
        left -= more;
        file_of(args[0])->moved = 1;
    }
}

static void rule_of_change(const uint32_t *args, int64_t result) {
    MUST(result < 0 || (args[0] != 0 ? has_range(args[0], 1) : has_beneath(args[1])));
    see_change(result);
}

static void rule_of_copy(const uint32_t *args, int64_t result) {
    MUST(result < 0 || (has_file(args[0]) && (uint32_t)result == (args[2] != 0 ? args[1] : least_free(args[1]))));
    if (result >= 0 && (uint32_t)result != args[0]) {
        MUST(result < (int64_t)RULES_FILES);
        give_number((uint32_t)result, files[args[0]]);
    }
}

static void rule_of_terminal(const uint32_t *args, int64_t result) {
    MUST(!has_file(args[0]) ? result == -EBADF : result >= 0 ? !has_opened(args[0]) : result == -ENOTTY);
}

static void rule_of_sleep(const uint32_t *args, int64_t result) {
    MUST(result == (args[1] >> 31 != 0 ? -EINVAL : 0));
}

static void rule_of_random(const uint32_t *args, int64_t result) {
    MUST(has_range(args[0], args[1]) ? result <= (int64_t)args[1] && (result > 0 || args[1] == 0) : result == -EFAULT);
}

static void rule_of_flush(const uint32_t *args, int64_t result) {
    MUST(result == (!has_file(args[0]) ? -EBADF : has_beneath(args[0]) ? 0 : -EINVAL));
}

static void make_pipe(uint32_t first, uint32_t second) {
    give_number(first, new_opened(NC_OPEN_READ));
    give_number(second, new_opened(NC_OPEN_WRITE));
    file_of(first)->is_pipe = file_of(second)->is_pipe = 1;
    file_of(first)->other = files[second];
    file_of(second)->other = files[first];
}

static void rule_of_pipe(const uint32_t *args, int64_t result) {
    uint32_t first = least_free(0), second = least_free(first + 1), told[2];
    MUST(result == (!has_range(args[0], sizeof told) ? -EFAULT : second >= RULES_FILES ? -EMFILE : 0));
    if (result == 0) {
        MUST(ncs_get(judged_box, told, (NcsAt){args[0]}, sizeof told) && told[0] == first && told[1] == second);
        make_pipe(first, second);
    }
}

static int has_bits(const struct nc_ready *one, int bits) {
    return (one->ready & bits) == bits;
}

static int is_wanted(const struct nc_ready *one, int bits) {
    return (one->wanted & bits) == bits;
}

/* Whether a file is ready as it has to be. Of the standard ones the system decides. */
static int is_ready_so(const struct nc_ready *one) {
    uint32_t number = (uint32_t)one->file;
    const Opened *file = has_opened(number) ? file_of(number) : NULL;
    if (one->file < 0 || !has_file(number)) {
        return one->ready == (one->file < 0 ? 0 : NC_READY_CLOSED);
    }
    if (file == NULL) {
        return (one->ready & (files[number] == 0 ? NC_READY_WRITE : NC_READY_READ)) == 0;
    }
    if (!file->is_pipe) {
        return (one->ready & ~one->wanted) == 0 && has_bits(one, one->wanted & (NC_READY_READ | NC_READY_WRITE));
    }
    return file->how == NC_OPEN_READ ? has_bits(one, NC_READY_ENDED) == (file->other == NONE) &&
                                           has_bits(one, NC_READY_READ) == (file->held != 0 && is_wanted(one, NC_READY_READ))
                                     : has_bits(one, NC_READY_ERROR) == (file->other == NONE);
}

static void rule_of_poll(const uint32_t *args, int64_t result) {
    struct nc_ready all[RULES_FILES];
    uint32_t size = args[1] * (uint32_t)sizeof *all, k, ready = 0;
    if (args[1] > RULES_FILES || !has_range(args[0], size)) {
        MUST(result == (args[1] > RULES_FILES ? -EINVAL : -EFAULT));
        return;
    }
    MUST(size == 0 || ncs_get(judged_box, all, (NcsAt){args[0]}, size));
    for (k = 0; k < args[1]; k++) {
        MUST(is_ready_so(&all[k]));
        ready += all[k].ready != 0;
    }
    MUST(result == (int64_t)ready);
}

/* By the numbers of the calls. Those for code have none. */
#define RULE(number, name, words) [number] = rule_of_##name,
static void (*const RULES[])(const uint32_t *, int64_t) = {NC_RUN_CALLS(RULE)};

/* ---- What a call does to memory: nothing, but for a range that it fills */

#define NUMBER_OF(number, name, words) NUMBER_##name = number,
enum { NC_RUN_CALLS(NUMBER_OF) };

/* Which arguments have the address and the number of units, or ONE, and the bytes of a unit. The other calls are as `read`. */
#define ONE 0xFF
static const struct {
    uint8_t at, count, unit;
} FILLS[] = {
    [NUMBER_read] = {1, 2, 1},
    [NC_RUN_CODE] = {1, ONE, sizeof(NcsHole)},
    [NUMBER_status] = {3, ONE, sizeof(struct nc_status)},
    [NUMBER_random] = {0, 1, 1},
    [NUMBER_pipe] = {0, ONE, 8},
    [NUMBER_poll] = {0, 1, sizeof(struct nc_ready)},
    [NC_RUN_END] = {0, 0, 0},
};

static uint32_t range_of(size_t call, const uint32_t *args, uint64_t *end) {
    size_t k = FILLS[call].unit != 0 ? call : NUMBER_read;
    uint64_t count = FILLS[k].count != ONE ? args[FILLS[k].count] : 1;
    *end = args[FILLS[k].at] + count * FILLS[k].unit;
    return args[FILLS[k].at];
}

/* The bytes on one side of a range, as far as they are the box's. */
typedef struct Side {
    uint8_t bytes[AROUND];
    uint32_t at, len;
} Side;

static void see_side(Side *side, uint64_t from, uint64_t to) {
    from = from < MEMORY_FIRST ? MEMORY_FIRST : from;
    to = to > RULES_ROOM ? RULES_ROOM : to;
    side->at = (uint32_t)from;
    side->len = from < to ? (uint32_t)(to - from) : 0;
    MUST(side->len == 0 || ncs_get(judged_box, side->bytes, (NcsAt){side->at}, side->len));
}

static int is_as_it_was(const Side *side) {
    uint8_t now[AROUND];
    MUST(side->len == 0 || ncs_get(judged_box, now, (NcsAt){side->at}, side->len));
    return memcmp(now, side->bytes, side->len) == 0;
}

static uint64_t judge(NcsBox *box, void *user, const uint32_t *args) {
    const Given *g = user;
    size_t k = (size_t)(g - given);
    uint64_t end, at = range_of(k, args, &end);
    Side below, above;
    int64_t result;
    size_before = k == NUMBER_cut ? (int64_t)given[NUMBER_size].function(box, given[NUMBER_size].user, args) : 0;
    see_side(&below, at < AROUND ? 0 : at - AROUND, at);
    see_side(&above, end, end + AROUND);
    result = (int64_t)g->function(box, g->user, args);
    MUST(box == judged_box && result >= -ERROR_MOST && is_as_it_was(&below) && is_as_it_was(&above));
    if (k < sizeof RULES / sizeof *RULES && RULES[k] != NULL) {
        RULES[k](args, result);
    }
    return (uint64_t)result;
}

/* A judge is given with four words at least, since it looks at them. */
NcsAt __wrap_ncs_callback(NcsBox *box, NcsCallback function, void *user, unsigned args) {
    Given *g = &given[given_count++];
    MUST(given_count <= NCS_CALLBACKS && box == judged_box && args <= 4);
    g->function = function;
    g->user = user;
    return __real_ncs_callback(box, judge, g, 4);
}

void rules_begin(NcsBox *box, int what, uint32_t end, uint64_t most) {
    unsigned k;
    memset(files, NONE, sizeof files);
    memset(opened, 0, sizeof opened);
    for (k = 0; k < STANDARD; k++) {
        give_number(k, (uint8_t)k);
    }
    given_count = 0;
    judged_box = box;
    files_given = what;
    memory_end = end;
    left = most;
    count = folder_count();
}

unsigned rules_opened(void) {
    unsigned found = 0, k;
    for (k = STANDARD; k < OPENED_MOST; k++) {
        found += opened[k].users != 0;
    }
    return found;
}
