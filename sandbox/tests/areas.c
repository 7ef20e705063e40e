/* Live code that begins as a file, and boxes whose code changes code within an area: pages, holes, borders, refusals and resets:
   areas FILE [REQUESTS], of a hostile generator. */
#include "watching.h"

#include <errno.h>
#include <pthread.h>
#include <sched.h>
#include <stdio.h>
#include <stdlib.h>
#include <string.h>

#define ROOM_BUNDLES 0x4000u /* 512 KiB */
#define AREA_LEN 0x2000u
#define MEMORY_LEN 0x200000u

static uint8_t *file;
static size_t file_len;
static NcsModule *module;
static NcsSpan room;
static uint32_t requests = 2000;

static NcsModule *new_module(uint32_t bundles) {
    NcsRefusal why;
    NcsModule *m = ncs_module_live_elf(file, file_len, bundles, 4, &why);
    if (m == NULL) {
        printf("%s: live code: %s\n", why.kind == NCS_BAD_SYSTEM ? "skipped" : "refused", why.sentence);
        exit(why.kind == NCS_BAD_SYSTEM ? SKIPPED : 2);
    }
    return m;
}

static NcsBox *new_box(void) {
    const NcsLimits limits = {.memory = MEMORY_LEN, .depth = 4, .milliseconds = LONG};
    NcsBox *box = ncs_box_new(module, &limits, NULL);
    CHECK(box != NULL);
    return box;
}

static NcsAt at(uint32_t place) {
    return (NcsAt){place};
}

static uint32_t name(const char *symbol) {
    return ncs_symbol(module, symbol).at;
}

static NcsEnd call(NcsBox *box, const char *function, uint32_t a, uint32_t b, uint32_t c) {
    return ncs_call(box, ncs_symbol(module, function), NCS_ARGS(a, b, c));
}

static int gives(NcsBox *box, const char *function, uint32_t a, uint32_t result) {
    NcsEnd end = call(box, function, a, 0, 0);
    return end.how == NCS_RETURNED && end.result == result;
}

/* ---- A module that begins as a file */

static void try_first_chunk(void) {
    NcsModule *plain = ncs_module_elf(file, file_len, NULL);
    NcChunk found = nc_region_chunk_at(&module->live->region, 0);
    CHECK(plain != NULL && memcmp(codes_text(module, 0), codes_text(plain, 0), room.from.at) == 0);
    CHECK(room.from.at % PAGE == 0 && room.from.at - (module->image.code_at + module->image.code_len) < PAGE);
    CHECK(room.len >= ROOM_BUNDLES * BUNDLE && room.from.at + room.len == module->limit - BUNDLE && ncs_room(plain).len == 0);
    CHECK(found.fault == NC_OK && found.base == module->image.code_at && found.length == module->image.code_len && !found.retired);
    CHECK(nc_region_chunk_at(&module->live->region, room.from.at).fault == NC_NO_CHUNK && module->live->filled == room.from.at);
    ncs_module_free(plain);
}

/* Where no page is a thread stops, as at any other stop. */
static void stops_at(NcsBox *box, uint32_t place) {
    NcsEnd end = codes_run(box, place);
    CHECK(end.how == NCS_STOPPED && end.place == place && end.trap == GENERAL_PROTECTION && end.data == 0 && ncs_reset(box));
    end = call(box, "run", place, 0, 0);
    CHECK(end.how == NCS_STOPPED && end.place == place && ncs_reset(box));
}

static void try_pages(void) {
    NcsBox *box = new_box();
    uint32_t far = room.from.at + 0x70000, last = room.from.at + room.len - BUNDLE;
    CHECK(gives(box, "seven", 0, 7));
    stops_at(box, room.from.at);
    stops_at(box, last);
    CHECK(codes_create_number(module, room.from.at, 5) && gives(box, "run", room.from.at, 5));
    CHECK(module->live->filled > room.from.at && module->live->filled <= room.from.at + (256u << 10));
    stops_at(box, room.from.at + BUNDLE);
    stops_at(box, far);
    CHECK(codes_create_number(module, far, 6) && gives(box, "run", far, 6));
    CHECK(module->live->filled > far && *codes_text(module, far - 1) == NC_STOP && *codes_text(module, far + BUNDLE) == NC_STOP);
    CHECK(codes_create_number(module, last, 8) && gives(box, "run", last, 8) && module->live->filled == module->limit);
    CHECK(codes_delete(module, far) && codes_delete(module, last) && codes_delete(module, room.from.at) && ncs_reclaim(module) == 3);
    stops_at(box, far);
    CHECK(ncs_free(box));
}

/* What ncs_module_elf says of a file, this says too. */
static void try_files(void) {
    uint8_t *damaged = malloc(file_len);
    unsigned k, refused = 0;
    for (k = 0; damaged != NULL && k < 300; k++) {
        NcsRefusal one, other;
        NcsModule *plain, *live;
        memcpy(damaged, file, file_len);
        damaged[k < 100 ? k : (size_t)k * 7919 % file_len] ^= (uint8_t)(1u << k % 8);
        plain = ncs_module_elf(damaged, file_len, &one);
        live = ncs_module_live_elf(damaged, file_len, 8, 1, &other);
        CHECK((plain == NULL) == (live == NULL) && one.kind == other.kind && one.fault == other.fault && one.at == other.at);
        refused += plain == NULL;
        ncs_module_free(plain);
        ncs_module_free(live);
    }
    free(damaged);
    CHECK(refused > 30);
}

static void try_limits(void) {
    static const uint32_t wrong[][2] = {{0, 1}, {NC_MAX_BUNDLES, 1}, {NC_MAX_BUNDLES - 1, 1}, {8, 0}, {8, NCS_LIVE_CALLS + 1}};
    NcsRefusal why;
    unsigned k;
    for (k = 0; k < sizeof wrong / sizeof *wrong; k++) {
        CHECK(ncs_module_live_elf(file, file_len, wrong[k][0], wrong[k][1], &why) == NULL && why.kind == NCS_BAD_LIMITS);
    }
    CHECK(ncs_module_live(8, 0, &why) == NULL && why.kind == NCS_BAD_LIMITS);
    CHECK(ncs_module_live(8, NCS_LIVE_CALLS + 1, &why) == NULL && why.kind == NCS_BAD_LIMITS);
    CHECK(ncs_module_live_elf("none", 4, 8, 1, &why) == NULL && why.kind == NCS_BAD_FILE);
}

/* ---- Holes */

static int is_hole(NcsHole hole, uint32_t place, uint32_t len, uint32_t held) {
    return hole.at.at == place && hole.len == len && hole.held == held;
}

typedef struct Stay {
    pthread_t thread;
    NcsBox *box;
    NcsEnd end;
} Stay;

static void *stay(void *one) {
    Stay *s = one;
    s->end = call(s->box, "run_often", name("seven"), 7, 0);
    return NULL;
}

static void begin_stay(Stay *s) {
    uint32_t count = 0;
    s->box = new_box();
    if (pthread_create(&s->thread, NULL, stay, s) != 0) {
        abort();
    }
    while (count == 0 && ncs_get(s->box, &count, at(name("words") + 4), 4)) {
        (void)sched_yield();
    }
}

static void end_stay(Stay *s) {
    uint32_t end = 1;
    CHECK(ncs_set(s->box, at(name("words")), &end, 4) && pthread_join(s->thread, NULL) == 0);
    CHECK(s->end.how == NCS_RETURNED && s->end.result == 0 && ncs_free(s->box));
}

static void try_holes(void) {
    uint32_t from = room.from.at, end = from + room.len;
    Stay s;
    unsigned k;
    CHECK(is_hole(ncs_hole(module, at(0), at(end)), from, room.len, 0));
    CHECK(codes_create_number(module, from + 64, 5) && is_hole(ncs_hole(module, at(from), at(end)), from, 64, 0));
    CHECK(is_hole(ncs_hole(module, at(from + 1), at(0xFFFFFFFF)), from + 32, 32, 0));
    CHECK(is_hole(ncs_hole(module, at(from), at(from + 63)), from, 32, 0));
    CHECK(is_hole(ncs_hole(module, at(from + 64), at(end)), from + 96, room.len - 96, 0));
    CHECK(is_hole(ncs_hole(module, at(from + 64), at(from + 96)), from + 96, 0, 0) && ncs_hole(module, at(end), at(end)).len == 0);
    begin_stay(&s);
    CHECK(codes_delete(module, from + 64) && is_hole(ncs_hole(module, at(from + 64), at(end)), from + 96, room.len - 96, 32));
    CHECK(is_hole(ncs_hole(module, at(from), at(end)), from, 64, 0));
    CHECK(is_hole(ncs_hole(module, at(from + 64), at(from + 96)), from + 96, 0, 32));
    end_stay(&s);
    CHECK(is_hole(ncs_hole(module, at(from + 64), at(end)), from + 64, room.len - 64, 0));
    for (k = 0; k < 300; k++) {
        CHECK(codes_create_number(module, from + k * BUNDLE, k));
    }
    CHECK(is_hole(ncs_hole(module, at(from), at(end)), from + 256 * BUNDLE, 0, 0));
    CHECK(is_hole(ncs_hole(module, at(from + 256 * BUNDLE), at(end)), from + 300 * BUNDLE, room.len - 300 * BUNDLE, 0));
    for (k = 0; k < 300; k++) {
        CHECK(codes_delete(module, from + k * BUNDLE));
    }
    CHECK(is_hole(ncs_hole(module, at(from), at(end)), from, room.len, 0));
}

/* ---- Requests */

static uint8_t *before;

static void remember(void) {
    memcpy(before, codes_text(module, 0), module->live->filled);
}

static int is_unchanged(void) {
    return memcmp(before, codes_text(module, 0), module->live->filled) == 0;
}

/* A bundle of code for the guest to lend. */
static void lend(NcsBox *box, const uint8_t code[BUNDLE]) {
    CHECK(ncs_set(box, at(name("bytes")), code, BUNDLE));
}

static void lend_number(NcsBox *box, uint32_t number) {
    uint8_t code[BUNDLE];
    codes_number(code, number);
    lend(box, code);
}

static int answers(NcsBox *box, const char *function, uint32_t a, uint32_t b, uint32_t c, int result, uint32_t fault_at) {
    NcsEnd end = call(box, function, a, b, c);
    return end.how == NCS_RETURNED && (int)end.result == result && (function[0] == 'f' || end.high == fault_at);
}

static int fault(uint32_t number) {
    return -(int)(NCS_FAULT_CODE + number);
}

static void refused_requests(NcsBox *box, uint32_t from) {
    const uint32_t end = from + AREA_LEN, lent = name("bytes");
    /* clang-format off */
    const struct {
        const char *what, *function;
        uint32_t a, b, c;
        int result;
        uint32_t fault_at;
    } requests[] = {
        {"below the area", "create", from - 32, lent, 32, -EINVAL, 0},
        {"behind the area", "create", end, lent, 32, -EINVAL, 0},
        {"across its end", "create", end - 32, lent, 64, -EINVAL, 0},
        {"longer than the area", "create", from, lent, AREA_LEN + 32, -EINVAL, 0},
        {"the file's code", "create", module->image.code_at, lent, 32, -EINVAL, 0},
        {"the end of all addresses", "create", 0xFFFFFFE0, lent, 32, -EINVAL, 0},
        {"no bytes at 0", "create", from + 64, 0, 32, -EFAULT, 0},
        {"bytes across the memory's end", "create", from + 64, MEMORY_LEN - 16, 32, -EFAULT, 0},
        {"more bytes than there are", "create", from + 64, lent, 0xFFFFFFE0, -EFAULT, 0},
        {"bytes below the data", "create", from + 64, 0xFFE0, 32, -EFAULT, 0},
        {"no code at 0", "create", from + 64, 0, 0, -(int)(NCS_FAULT_CODE + NC_BAD_LENGTH), 0},
        {"a patch of nothing at 0", "patch", from, 0, 0, -(int)(NCS_FAULT_CODE + NC_PATCH_BAD_SPAN), 0},
        {"no code", "create", from + 64, lent, 0, -(int)(NCS_FAULT_CODE + NC_BAD_LENGTH), 0},
        {"half a bundle", "create", from + 64, lent, 16, -(int)(NCS_FAULT_CODE + NC_BAD_LENGTH), 0},
        {"within a bundle", "create", from + 65, lent, 32, -(int)(NCS_FAULT_CODE + NC_BAD_BASE), 0},
        {"a return", "create", from + 64, lent, 32, -(int)(NCS_FAULT_CODE + NC_NOT_PERMITTED), from + 64 + 1},
        {"over a chunk", "create", from, lent + 64, 32, -(int)(NCS_FAULT_CODE + NC_OCCUPIED), 0},
        {"a patch below the area", "patch", from - 32, lent + 64, 5, -EINVAL, 0},
        {"a patch of the file's code", "patch", name("seven"), lent + 64, 5, -EINVAL, 0},
        {"a patch across the end", "patch", end - 1, lent + 64, 2, -EINVAL, 0},
        {"a patch with bytes at 0", "patch", from, 0, 5, -EFAULT, 0},
        {"a patch of nothing", "patch", from + 64, lent + 64, 5, -(int)(NCS_FAULT_CODE + NC_PATCH_NOT_LIVE), 0},
        {"a patch of a part", "patch", from, lent + 64, 4, -(int)(NCS_FAULT_CODE + NC_PATCH_NOT_PERMITTED), 0},
        {"a patch without bytes", "patch", from, lent, 0, -(int)(NCS_FAULT_CODE + NC_PATCH_BAD_SPAN), 0},
        {"a patch of more than a bundle", "patch", from, lent, 33, -(int)(NCS_FAULT_CODE + NC_PATCH_BAD_SPAN), 0},
        {"the file's chunk", "remove", module->image.code_at, 0, 0, -EINVAL, 0},
        {"a chunk behind the area", "remove", end, 0, 0, -EINVAL, 0},
        {"no chunk", "remove", from + 64, 0, 0, -(int)(NCS_FAULT_CODE + NC_NO_CHUNK), 0},
        {"a hole that is told to nowhere", "find", from, 0, 0, -EFAULT, 0},
        {"a hole that is told across the end", "find", from, MEMORY_LEN - 8, 0, -EFAULT, 0},
    }, *r;
    /* clang-format on */
    for (r = requests; r < requests + sizeof requests / sizeof *requests; r++) {
        int right = answers(box, r->function, r->a, r->b, r->c, r->result, r->fault_at);
        testing_check(right && is_unchanged(), r->what, __FILE__, __LINE__);
    }
}

static int has_told(NcsBox *box, uint32_t from, NcsHole wanted) {
    NcsHole told;
    return answers(box, "find", from, name("hole"), 0, 0, 0) && ncs_get(box, &told, at(name("hole")), sizeof told) &&
           is_hole(told, wanted.at.at, wanted.len, wanted.held);
}

static void try_requests(void) {
    static const uint8_t returns[BUNDLE] = {0x90, 0xC3};
    uint32_t from = room.from.at + 0x1000, lent = name("bytes");
    NcsBox *box = new_box();
    uint8_t code[BUNDLE];
    CHECK(ncs_code_calls(box, (NcsSpan){at(from), AREA_LEN}).at == NCS_CALLBACK(0));
    CHECK(has_told(box, 0, (NcsHole){at(from), AREA_LEN, 0}) && has_told(box, from + 32, (NcsHole){at(from + 32), AREA_LEN - 32, 0}));
    CHECK(has_told(box, from + AREA_LEN, (NcsHole){at(from + AREA_LEN), 0, 0}));
    CHECK(has_told(box, 0xFFFFFFE0, (NcsHole){at(from + AREA_LEN), 0, 0}));
    lend_number(box, 5);
    CHECK(answers(box, "create", from, lent, 32, 0, 0) && gives(box, "run", from, 5));
    CHECK(answers(box, "create", from + AREA_LEN - 32, lent, 32, 0, 0) && gives(box, "run", from + AREA_LEN - 32, 5));
    codes_number(code, 6);
    CHECK(ncs_set(box, at(lent + 64), code, BUNDLE) && answers(box, "patch", from, lent + 64, MOV_LEN, 0, 0) && gives(box, "run", from, 6));
    lend(box, returns);
    remember();
    refused_requests(box, from);
    CHECK(answers(box, "remove", from, 0, 0, 0, 0) && answers(box, "remove", from, 0, 0, fault(NC_NO_CHUNK), 0));
    CHECK(has_told(box, 0, (NcsHole){at(from), AREA_LEN - 32, 0}));
    watching_fail_after = 0;
    CHECK(answers(box, "create", from, lent + 64, 32, -ENOMEM, 0));
    watching_fail_after = -1;
    CHECK(ncs_free(box));
}

/* ---- A hostile generator */

static uint64_t chance = 1;

static uint32_t draw(uint32_t below) {
    chance = chance * 6364136223846793005u + 1442695040888963407u;
    return (uint32_t)(chance >> 33) % below;
}

/* Nearly lawful code: numbers and returns to the caller, and in half of them a bit that is wrong. */
static uint32_t lend_any(NcsBox *box) {
    uint8_t code[8 * BUNDLE];
    uint32_t len = BUNDLE * (1 + draw(8)), k;
    for (k = 0; k < len; k += BUNDLE) {
        codes_number(code + k, draw(1000));
    }
    if (draw(2) != 0) {
        code[draw(len)] ^= (uint8_t)(1u << draw(8));
    }
    CHECK(ncs_set(box, at(name("bytes")), code, len));
    return len;
}

static int request_any(NcsBox *box, uint32_t from) {
    static const char *const functions[] = {"create", "create", "patch", "remove"};
    const char *function = functions[draw(4)];
    uint32_t place = draw(8) == 0 ? draw(0x2000000) : from + draw(AREA_LEN / BUNDLE) * BUNDLE + (draw(4) == 0 ? draw(32) : 0);
    uint32_t len = lend_any(box), lent = draw(16) == 0 ? draw(MEMORY_LEN) : name("bytes");
    len = function[0] == 'p' ? draw(12) : draw(16) == 0 ? draw(0x10000) : len;
    return call(box, function, place, lent, len).result == 0;
}

static void try_hostile(void) {
    uint32_t from = room.from.at + 0x1000, end = from + AREA_LEN, k, granted = 0;
    NcsModule *large = module;
    NcsBox *box;
    module = new_module(2 * AREA_LEN / BUNDLE); /* so that its text is soon compared */
    box = new_box();
    CHECK(ncs_code_calls(box, (NcsSpan){at(from), AREA_LEN}).at == NCS_CALLBACK(0));
    CHECK(codes_create_number(module, from, 1) && codes_delete(module, from) && module->live->filled == module->limit);
    for (k = 0; k < requests; k++) {
        int made;
        remember();
        made = request_any(box, from);
        granted += made;
        CHECK(made || is_unchanged());
        CHECK(memcmp(before, codes_text(module, 0), from) == 0);
        CHECK(memcmp(before + end, codes_text(module, end), module->live->filled - end) == 0);
        if (k % 64 == 0) {
            CHECK(k % 512 != 0 ? ncs_reclaim(module) < 1000 : ncs_reset(box));
        }
    }
    CHECK(granted > requests / 20 && granted < requests / 2);
    codes_check(module);
    CHECK(ncs_free(box) && ncs_hole(module, at(from), at(end)).len == AREA_LEN);
    codes_check(module);
    ncs_module_free(module);
    module = large;
}

/* ---- Boxes with areas */

static void try_areas(void) {
    NcsSpan one = {at(room.from.at), AREA_LEN}, other = {at(room.from.at + AREA_LEN), AREA_LEN}, none = {at(0), 0};
    NcsBox *box = new_box(), *second = new_box(), *poor = new_box();
    uint32_t lent = name("bytes"), end = room.from.at + room.len;
    const NcsSpan wrong[] = {
        {at(one.from.at + 1), 32}, {one.from, 33}, {at(room.from.at - 32), 32}, {at(end), 32}, {one.from, room.len + 32}};
    unsigned k;
    for (k = 0; k < sizeof wrong / sizeof *wrong; k++) {
        CHECK(ncs_code_calls(box, wrong[k]).at == 0);
    }
    CHECK(ncs_code_calls(box, one).at == NCS_CALLBACK(0) && ncs_code_calls(box, other).at == 0);
    CHECK(ncs_code_calls(second, other).at == NCS_CALLBACK(0) && ncs_code_calls(poor, none).at == NCS_CALLBACK(0));
    CHECK(has_told(poor, 0, (NcsHole){at(0), 0, 0}) && answers(poor, "create", one.from.at, lent, 32, -EINVAL, 0));
    CHECK(answers(poor, "remove", one.from.at, 0, 0, -EINVAL, 0) && answers(poor, "patch", one.from.at, lent, 1, -EINVAL, 0));
    lend_number(box, 5);
    lend_number(second, 6);
    CHECK(answers(box, "create", one.from.at, lent, 32, 0, 0) && answers(box, "create", one.from.at + 64, lent, 32, 0, 0));
    CHECK(answers(second, "create", other.from.at, lent, 32, 0, 0) && answers(second, "remove", one.from.at, 0, 0, -EINVAL, 0));
    CHECK(ncs_reset(box) && is_hole(ncs_hole(module, one.from, other.from), one.from.at, AREA_LEN, 0));
    CHECK(gives(second, "run", other.from.at, 6));
    lend_number(box, 7);
    CHECK(answers(box, "create", one.from.at, lent, 32, 0, 0) && gives(second, "run", one.from.at, 7));
    watching_fail_after = 0;
    CHECK(!ncs_free(box) && call(box, "seven", 0, 0, 0).how == NCS_DEAD);
    watching_fail_after = 0;
    CHECK(!ncs_reset(box));
    watching_fail_after = -1;
    CHECK(ncs_free(box) && ncs_hole(module, one.from, other.from).len == AREA_LEN && gives(second, "run", other.from.at, 6));
    CHECK(ncs_free(second) && ncs_free(poor) && ncs_hole(module, at(0), at(end)).len == room.len);
}

/* A module whose code never changes has no room, and says so. */
static void try_still_code(void) {
    NcsModule *live = module;
    NcsBox *box;
    module = ncs_module_elf(file, file_len, NULL);
    box = new_box();
    CHECK(ncs_code_calls(box, (NcsSpan){at(0x20000), 32}).at == 0 && ncs_code_calls(box, ncs_room(module)).at == NCS_CALLBACK(0));
    CHECK(has_told(box, 0, (NcsHole){at(0), 0, 0}) && answers(box, "create", 0x20000, name("bytes"), 32, -EINVAL, 0));
    CHECK(ncs_hole(module, at(0), at(~0u)).len == 0 && ncs_reset(box) && ncs_free(box));
    ncs_module_free(module);
    module = live;
}

static int read_file(const char *path) {
    FILE *from = fopen(path, "rb");
    file = malloc(1 << 20);
    file_len = from != NULL && file != NULL ? fread(file, 1, 1 << 20, from) : 0;
    return from != NULL && fclose(from) == 0 && file_len != 0;
}

static void step(const char *words, void (*what)(void)) {
    what();
    puts(words);
}

int main(int argc, char **argv) {
    (void)setvbuf(stdout, NULL, _IOLBF, 0);
    if (argc < 2 || !read_file(argv[1])) {
        return 2;
    }
    requests = argc > 2 ? (uint32_t)strtoul(argv[2], NULL, 10) : requests;
    module = new_module(ROOM_BUNDLES);
    room = ncs_room(module);
    before = malloc(module->limit);
    step("the first chunk", try_first_chunk);
    step("pages", try_pages);
    step("files", try_files);
    step("limits", try_limits);
    step("holes", try_holes);
    step("requests", try_requests);
    step("a hostile generator", try_hostile);
    step("areas", try_areas);
    step("still code", try_still_code);
    ncs_module_free(module);
    free(before);
    free(file);
    printf("%u wrong\n", testing_wrong);
    return testing_wrong != 0;
}
