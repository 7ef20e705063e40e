/* A target: a module of a file, or of code, and a box of it, whose functions are called. A call ends in a way that nc_sandbox.h names.
   Nothing of the host's changes, nor another box. A reset gives the box its first memory again. In the end nothing is left behind. */
#define _GNU_SOURCE
#include "fields.h"
#include "first.h"
#include "fuzz.h"
#include "inner.h"
#include "reader.h"
#include "testing.h"

#include <stdlib.h>
#include <string.h>
#include <sys/mman.h>

#define ROOM 0x120000u        /* bytes of a box */
#define CANARY_AT 0x1F000000u /* memory of the host's where 32-bit addresses reach */
#define CANARY_LEN 0x10000u
#define CANARY 0x5A
#define CALLS_MOST 4u /* within calls */

static Reader reader;
static uint8_t first[ROOM]; /* what a box's memory has to be at first */
static uint8_t canary[CANARY_LEN];

typedef struct Trial {
    NcsModule *module;
    NcsBox *box, *other;
    int is_file;
    uint32_t code_at, code_len;
    const uint8_t *code;
    unsigned calls; /* within calls */
} Trial;

/* Once in a process. */
static void begin(void) {
    static int begun;
    void *at = (void *)(uintptr_t)CANARY_AT;
    if (!begun) {
        first_begin();
        MUST(mmap(at, CANARY_LEN, PROT_READ | PROT_WRITE, MAP_PRIVATE | MAP_ANONYMOUS | MAP_FIXED_NOREPLACE, -1, 0) == at);
        memset(at, CANARY, CANARY_LEN);
        memset(canary, CANARY, CANARY_LEN);
        begun = 1;
    }
}

static int is_first(NcsBox *box) {
    return memcmp(ncs_at(box, (NcsAt){DATA_LEAST}, ROOM - DATA_LEAST), first + DATA_LEAST, ROOM - DATA_LEAST) == 0;
}

/* Zeros, and the file's data. */
static void lay_first(int is_file) {
    size_t k;
    memset(first, 0, sizeof first);
    for (k = 0; is_file && k < reader.segment_count; k++) {
        const NcSegment *s = &reader.segments[k];
        if (s->address != reader.code.address) {
            memcpy(first + s->address, reader.file + s->offset, s->file_len);
        }
    }
}

/* ---- The text: trampolines and stops, then stops with the code among them */

static int is_full_of_stops(const uint8_t *bytes, size_t len) {
    return len == 0 || (bytes[0] == NC_STOP && memcmp(bytes, bytes + 1, len - 1) == 0);
}

static void judge_text(const Trial *t) {
    const uint8_t *text = (const uint8_t *)(uintptr_t)t->module->text_at;
    uint32_t end = t->code_at + t->code_len;
    MUST(t->module->limit > end && t->module->limit - end <= PAGE);
    MUST(is_full_of_stops(text + NC_START, t->code_at - NC_START) && memcmp(text + t->code_at, t->code, t->code_len) == 0);
    MUST(is_full_of_stops(text + end, t->module->limit - end));
}

/* ---- Calls */

/* Every range that the box may name is all its own, or refused. */
static void judge_range(NcsBox *box, uint32_t at, uint32_t len) {
    int is_own = at >= DATA_LEAST && (uint64_t)at + len <= ROOM, is_one_own = at >= DATA_LEAST && at < ROOM;
    uint8_t *bytes = ncs_at(box, (NcsAt){at}, len), byte = 0;
    char text[16];
    long got = ncs_text(box, text, sizeof text, (NcsAt){at});
    MUST((bytes != NULL) == is_own);
    MUST(ncs_get(box, &byte, (NcsAt){at}, 1) == is_one_own && ncs_set(box, (NcsAt){at}, &byte, 1) == is_one_own);
    MUST(got < (long)sizeof text && (got >= 0 || at < DATA_LEAST || at >= ROOM - sizeof text));
    if (bytes != NULL && len != 0) {
        bytes[0] ^= 1;
        bytes[len - 1] ^= 2;
    }
}

/* Its arguments are a range, a function that it calls in turn, and what it does besides. */
static uint64_t call_back(NcsBox *box, void *user, const uint32_t *args) {
    Trial *t = user;
    uint32_t what = args[3] % 8;
    MUST(box == t->box);
    judge_range(box, args[0], args[1]);
    if (t->calls++ < CALLS_MOST) {
        NcsEnd end = ncs_call(box, (NcsAt){args[2]}, NCS_ARGS(args[0], args[1]));
        MUST(end.how != NCS_BUSY && end.how != NCS_HOST && end.how != NCS_DEAD);
        MUST(!ncs_reset(box) && !ncs_free(box));
    }
    if (what == 1) {
        ncs_deny(box);
    } else if (what == 2) {
        ncs_kill(box);
    } else if (what == 3) {
        NcsAt at = ncs_take(box, args[1]);
        MUST(at.at == 0 || (at.at % 16 == 0 && at.at >= t->module->image.data_end && (uint64_t)at.at + args[1] <= ROOM));
    }
    return (uint64_t)args[0] << 32 | args[1];
}

static int is_trap(uint32_t trap) {
    static const uint32_t traps[] = {0, 3, 4, 6, 12, 13, 14};
    size_t k = 0;
    while (k < sizeof traps / sizeof *traps && traps[k] != trap) {
        k++;
    }
    return k < sizeof traps / sizeof *traps;
}

/* The name of a function is what the model says. */
static void judge_name(const Trial *t, uint32_t place) {
    uint32_t offset = 0, wanted_offset = 0;
    const char *name = ncs_function_at(t->module, (NcsAt){place}, &offset);
    const char *wanted = t->is_file ? reader_function(&reader, place, &wanted_offset) : NULL;
    MUST((name == NULL) == (wanted == NULL) && (name == NULL || strcmp(name, wanted) == 0));
    MUST(offset == wanted_offset);
}

/* The ends that a call can have here, each with what belongs to it. A place is an address of the text. */
static void judge_end(const Trial *t, const NcsEnd *end) {
    const uint8_t *text = (const uint8_t *)(uintptr_t)t->module->text_at;
    MUST(end->how <= NCS_TOO_DEEP);
    MUST(end->place < t->module->limit || end->how == NCS_BAD_ENTRY || end->how == NCS_DENIED); /* where a call-back was to return to */
    MUST(end->how != NCS_STOPPED || (end->trap == GENERAL_PROTECTION && text[end->place] == NC_STOP));
    MUST(end->how != NCS_FAULTED || is_trap(end->trap));
    MUST(end->data == 0 || (end->trap == PAGE_FAULT && end->data < DATA_LEAST));
    MUST(end->how != NCS_EXITED || end->place == NCS_EXIT);
    MUST(end->how == NCS_STOPPED || end->how == NCS_FAULTED || end->trap == 0);
}

static void call_one(Trial *t, uint32_t at) {
    int is_entry = at % NC_BUNDLE == 0 && at >= NC_START && at < t->module->limit;
    NcsEnd end = ncs_call(t->box, (NcsAt){at}, NCS_ARGS(1, at, 3)), next;
    judge_end(t, &end);
    judge_name(t, end.place);
    if (end.how == NCS_RETURNED) {
        return;
    }
    next = ncs_call(t->box, (NcsAt){is_entry ? at : 1}, NCS_NO_ARGS);
    MUST(is_entry ? next.how == NCS_DEAD : end.how == NCS_BAD_ENTRY && next.how == NCS_BAD_ENTRY);
    MUST(ncs_reset(t->box) && is_first(t->box));
    MUST(ncs_call(t->box, (NcsAt){1}, NCS_NO_ARGS).how == NCS_BAD_ENTRY);
}

static void call_some(Trial *t) {
    uint32_t chosen = t->code[t->code_len - 1] * NC_BUNDLE % t->code_len;
    MUST(is_first(t->box) && is_first(t->other));
    call_one(t, ncs_entry(t->module).at);
    call_one(t, ncs_symbol(t->module, "start").at);
    call_one(t, t->code_at + chosen);
    MUST(memcmp((const void *)(uintptr_t)CANARY_AT, canary, CANARY_LEN) == 0 && is_first(t->other));
    judge_text(t);
    MUST(ncs_reset(t->box) && is_first(t->box) && ncs_take(t->box, 0).at == ((t->module->image.data_end + 15) & ~15u));
}

/* The box has little time, since a loop uses all of it. The other one is never called. */
static void try_boxes(Trial *t) {
    static const NcsLimits limits = {.memory = ROOM, .depth = 2, .milliseconds = 1};
    NcsRefusal why;
    judge_text(t);
    t->box = ncs_box_new(t->module, &limits, &why);
    if (t->box == NULL) {
        MUST(why.kind == NCS_BAD_LIMITS && t->module->image.data_end > ROOM);
        return;
    }
    t->other = ncs_box_new(t->module, &limits, &why);
    MUST(t->other != NULL && ncs_callback(t->box, call_back, t, 4).at == NCS_CALLBACK(0));
    call_some(t);
    MUST(ncs_free(t->box) && ncs_free(t->other));
}

/* ---- Files */

static void judge_refusal(const NcsRefusal *why, const uint8_t *file, size_t len, int is_file) {
    uint32_t offset = 0, wanted_offset = 0;
    const char *name, *wanted;
    MUST(why->kind == NCS_BAD_FILE || why->kind == NCS_BAD_CODE || why->kind == NCS_NO_MEMORY);
    MUST(why->sentence != NULL && (why->fault != 0) == (why->kind == NCS_BAD_CODE));
    MUST(!is_file || (why->kind == NCS_BAD_FILE) == !(reader.is_program && reader.segment_count <= SEGMENTS));
    name = ncs_function_in(file, len, (NcsAt){why->at}, &offset);
    wanted = is_file && reader.is_program ? reader_function(&reader, why->at, &wanted_offset) : NULL;
    MUST(name == wanted && offset == wanted_offset);
}

/* The module has a copy of the file, so this one may change. */
static void try_file(uint8_t *file, size_t len, int is_file) {
    uint8_t *lent = is_file ? fuzz_copy(file, len) : fuzz_copy(file + FIELDS_HEAD, len - FIELDS_HEAD);
    size_t lent_len = is_file ? len : len - FIELDS_HEAD;
    Trial t = {.is_file = is_file, .code_at = NC_START, .code_len = (uint32_t)lent_len, .code = file + (is_file ? 0 : FIELDS_HEAD)};
    NcsRefusal why;
    t.module = is_file ? ncs_module_elf(lent, lent_len, &why) : ncs_module_code(lent, lent_len, &why);
    memset(lent, 0, lent_len);
    free(lent);
    if (t.module == NULL) {
        judge_refusal(&why, file, len, is_file);
        return;
    }
    if (is_file) {
        MUST(reader.is_program && ncs_entry(t.module).at == reader.entry);
        t.code_at = reader.code.address;
        t.code_len = reader.code.file_len;
        t.code = file + reader.code.offset;
    }
    if (t.module->image.data_end <= ROOM) {
        lay_first(is_file);
    }
    try_boxes(&t);
    ncs_module_free(t.module);
}

int LLVMFuzzerTestOneInput(const uint8_t *bytes, size_t len) {
    int is_file = len >= 4 && memcmp(bytes, "\177ELF", 4) == 0;
    uint8_t *file = fuzz_copy(bytes, len);
    unsigned maps, segments;
    if (len >= FIELDS_HEAD && len <= READER_FILE_MOST) {
        begin();
        maps = testing_low_maps();
        segments = testing_segments();
        if (is_file) {
            reader_read(&reader, file, len);
        }
        MUST(ncs_signals(file[len - 1] % 2 == 0 ? NCS_SIGNALS_BLOCKED : NCS_SIGNALS_HELD, NULL));
        try_file(file, len, is_file);
        MUST(ncs_signals(NCS_SIGNALS_BLOCKED, NULL));
        MUST(testing_low_maps() == maps && testing_segments() == segments);
    }
    free(file);
    return 0;
}
