/* The library of sandbox/ as a host for the kit; with KIT_LIVE its live code, and with KIT_ELSEWHERE without a box at base 0. */
#define _GNU_SOURCE
#include "kit.h"

#include "../inner.h"

#include <elf.h>
#include <stdlib.h>
#include <string.h>
#include <sys/mman.h>

#ifndef KIT_LIVE
#define KIT_LIVE 0
#endif
#ifndef KIT_ELSEWHERE
#define KIT_ELSEWHERE 0
#endif
#define STUB_AT NC_START                          /* the function that is called; the code stands behind it */
#define DATA_AT (KIT_LIVE ? 0x110000u : 0x30000u) /* the stack is below */
#define MEMORY (DATA_AT + 0x2F000u)               /* no other box begins directly behind it */
#define FILE_ROOM (KIT_CODE_MAX + 4096)
#define LIVE_BUNDLES 127u

static uint64_t plain(NcsBox *box, void *user, const uint32_t *args) {
    (void)box;
    (void)user;
    return kit_called(args[0]);
}

/* The box is called while it calls. */
static uint64_t nested(NcsBox *box, void *user, const uint32_t *args) {
    NcsAt function = {args[0]};
    (void)user;
    (void)kit_called(0);
    return ncs_call(box, function, NCS_ARGS(1, 2, 3)).result;
}

/* EAX, EDX and the place are its arguments. */
static void lay_stub(uint8_t to[NC_BUNDLE]) {
    static const uint8_t stub[] = {0x8B, 0x44, 0x24, 4, 0x8B, 0x54, 0x24, 8, 0x8B, 0x4C, 0x24, 12, 0x83, 0xE1, 0xE0, 0xFF, 0xE1};
    memset(to, 0x90, NC_BUNDLE);
    memcpy(to, stub, sizeof stub);
}

static size_t lay_file(uint8_t *to, const uint8_t *code, uint32_t len) {
    /* clang-format off */
    static const Elf32_Ehdr h = {.e_ident = ELFMAG "\1\1\1", .e_type = ET_EXEC, .e_machine = EM_386, .e_version = 1, .e_entry = STUB_AT,
                                 .e_phoff = sizeof h, .e_ehsize = sizeof h, .e_phentsize = sizeof(Elf32_Phdr), .e_phnum = 2};
    /* clang-format on */
    uint32_t all = NC_BUNDLE + len;
    Elf32_Phdr p[2] = {{.p_type = PT_LOAD, .p_vaddr = STUB_AT, .p_filesz = all, .p_memsz = all, .p_flags = PF_R | PF_X},
                       {.p_type = PT_LOAD, .p_vaddr = DATA_AT, .p_filesz = 16, .p_memsz = KIT_PAGE, .p_flags = PF_R | PF_W}};
    uint8_t *text = to + sizeof h + sizeof p;
    p[0].p_offset = p[1].p_offset = sizeof h + sizeof p;
    memcpy(to, &h, sizeof h);
    memcpy(to + sizeof h, p, sizeof p);
    lay_stub(text);
    memcpy(text + NC_BUNDLE, code, len);
    return sizeof h + sizeof p + all;
}

static NcsModule *make_live(const uint8_t *code, uint32_t len) {
    uint8_t all[NC_BUNDLE + KIT_CODE_MAX];
    NcsAt at = {STUB_AT};
    NcsModule *module = ncs_module_live(LIVE_BUNDLES, 1, NULL);
    lay_stub(all);
    memcpy(all + NC_BUNDLE, code, len);
    if (module != NULL && !ncs_create(module, at, all, NC_BUNDLE + len, NULL)) {
        ncs_module_free(module);
        return NULL;
    }
    return module;
}

static NcsBox *make_box(NcsModule *module) {
    static const NcsLimits limits = {.memory = MEMORY, .depth = 16, .milliseconds = 1};
    NcsBox *box = module != NULL ? ncs_box_new(module, &limits, NULL) : NULL;
    if (box != NULL && (ncs_callback(box, plain, NULL, 1).at == 0 || ncs_callback(box, nested, NULL, 1).at == 0)) {
        abort();
    }
    return box;
}

/* The box keeps its module. */
static int load(KitBox *to, const uint8_t *code, uint32_t len) {
    uint8_t file[FILE_ROOM];
    NcsModule *module = KIT_LIVE ? make_live(code, len) : ncs_module_elf(file, lay_file(file, code, len), NULL);
    NcsBox *box = make_box(module);
    ncs_module_free(module);
    if (box == NULL) {
        return 0;
    }
    to->code_base = box->module->text_at;
    to->data_base = box->data_at;
    to->code_at = STUB_AT + NC_BUNDLE;
    to->code_len = len;
    to->code_limit = box->module->limit;
    to->data_first = DATA_LEAST;
    to->data_at = DATA_AT;
    to->data_limit = MEMORY;
    to->own = box;
    return 1;
}

static KitEnd run(KitBox *box, uint32_t place, uint32_t eax, uint32_t edx) {
    static const uint32_t ends[] = {
        [NCS_RETURNED] = KIT_CAME_OUT, [NCS_STOPPED] = KIT_STOPPED,  [NCS_FAULTED] = KIT_FAULTED,   [NCS_LATE] = KIT_LATE,
        [NCS_KILLED] = KIT_OTHERWISE,  [NCS_EXITED] = KIT_CAME_OUT,  [NCS_BAD_ENTRY] = KIT_REFUSED, [NCS_BAD_CALL] = KIT_REFUSED,
        [NCS_DENIED] = KIT_OTHERWISE,  [NCS_TOO_DEEP] = KIT_REFUSED, [NCS_DEAD] = KIT_OTHERWISE,    [NCS_BUSY] = KIT_OTHERWISE,
        [NCS_HOST] = KIT_OTHERWISE};
    NcsAt stub = {STUB_AT};
    NcsEnd got = ncs_call(box->own, stub, NCS_ARGS(eax, edx, place));
    KitEnd end = {ends[got.how], got.trap, got.place, got.data};
    return end;
}

static int renew(KitBox *box) {
    return ncs_reset(box->own);
}

/* No thread is inside, so a deleted chunk is free at once. */
static void drop(KitBox *box) {
    NcsBox *own = box->own;
    NcsAt at = {STUB_AT};
    if ((KIT_LIVE && (!ncs_delete(own->module, at, NULL) || ncs_reclaim(own->module) != 1)) || !ncs_free(own)) {
        abort();
    }
}

static int is_trampoline(uint32_t place) {
    return place == NC_BUNDLE * OUT_RETURN || place == NCS_EXIT || (place >= NCS_CALLBACK(0) && place < NCS_CALLBACK(NCS_CALLBACKS));
}

/* A page that the host has there lets no box begin at base 0. */
static int keep_base_zero(void) {
    void *at = (void *)(uintptr_t)DATA_LEAST;
    return mmap(at, PAGE, PROT_READ, MAP_PRIVATE | MAP_ANONYMOUS | MAP_FIXED_NOREPLACE, -1, 0) == at;
}

static const char *begin(void) {
    static const uint8_t code[NC_BUNDLE] = {NC_STOP};
    NcsRefusal why;
    NcsModule *module = ncs_module_code(code, sizeof code, &why);
    ncs_module_free(module);
    if (KIT_ELSEWHERE && !keep_base_zero()) {
        return "there is no page for the host";
    }
    return why.kind == NCS_BAD_SYSTEM ? why.sentence : NULL;
}

static const uint32_t CALLS[] = {NCS_CALLBACK(0), NCS_CALLBACK(1)};

/* clang-format off */
const KitHost kit_host = {.name = "boxes", .way_out = NC_BUNDLE * OUT_RETURN, .calls = CALLS, .call_count = 2, .live = KIT_LIVE,
                          .begin = begin, .load = load, .run = run, .renew = renew, .drop = drop, .is_trampoline = is_trampoline};
/* clang-format on */
