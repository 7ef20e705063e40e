/* Chunks' bytes, and short forms of the calls. */
#include "codes.h"

#include <stdio.h>
#include <stdlib.h>
#include <string.h>

static const uint8_t BACK[] = {0x59, 0x83, 0xE1, 0xE0, 0xFF, 0xE1}; /* pop ecx; and ecx, -32; jmp ecx */

static void lay(uint8_t code[BUNDLE], const uint8_t *bytes, size_t len) {
    memset(code, 0x90, BUNDLE);
    memcpy(code, bytes, len);
    memcpy(code + len, BACK, sizeof BACK);
}

static void lay32(uint8_t *at, uint32_t number) {
    memcpy(at, &number, sizeof number);
}

void codes_mov(uint8_t code[MOV_LEN], uint32_t number) {
    code[0] = 0xB8;
    lay32(code + 1, number);
}

void codes_number(uint8_t code[BUNDLE], uint32_t number) {
    uint8_t mov[MOV_LEN];
    codes_mov(mov, number);
    lay(code, mov, sizeof mov);
}

/* mov dword [at], 1; mov eax, [at + 4]; test eax, eax; je to the load */
void codes_wait(uint8_t code[BUNDLE], uint32_t at) {
    static const uint8_t bytes[] = {0xC7, 0x05, 0, 0, 0, 0, 1, 0, 0, 0, 0xA1, 0, 0, 0, 0, 0x85, 0xC0, 0x74, 0xF7};
    lay(code, bytes, sizeof bytes);
    lay32(code + 2, at);
    lay32(code + 11, at + 4);
}

/* mov esp, [esp + 4]; jmp to itself */
void codes_loop(uint8_t code[BUNDLE]) {
    static const uint8_t bytes[] = {0x8B, 0x64, 0x24, 4, 0xEB, 0xFE};
    lay(code, bytes, sizeof bytes);
}

/* The call ends its bundle, so that its return address is a bundle start. */
void codes_call(uint8_t code[2 * BUNDLE], uint32_t base) {
    memset(code, 0x90, BUNDLE);
    code[BUNDLE - 5] = 0xE8;
    lay32(code + BUNDLE - 4, NCS_CALLBACK(0) - (base + BUNDLE));
    lay(code + BUNDLE, BACK, 0);
}

/* mov eax, [at] */
void codes_load(uint8_t code[BUNDLE], uint32_t at) {
    uint8_t bytes[] = {0xA1, 0, 0, 0, 0};
    lay32(bytes + 1, at);
    lay(code, bytes, sizeof bytes);
}

/* mov [at], eax */
void codes_store(uint8_t code[BUNDLE], uint32_t at) {
    codes_load(code, at);
    code[0] = 0xA3;
}

/* mov eax, to; and eax, -32; jmp eax */
void codes_jump(uint8_t code[BUNDLE], uint32_t to) {
    uint8_t bytes[] = {0xB8, 0, 0, 0, 0, 0x83, 0xE0, 0xE0, 0xFF, 0xE0};
    lay32(bytes + 1, to);
    lay(code, bytes, sizeof bytes);
}

static void give_up(const NcsRefusal *why) {
    printf("%s: live code: %s\n", why->kind == NCS_BAD_SYSTEM ? "skipped" : "refused", why->sentence);
    exit(why->kind == NCS_BAD_SYSTEM ? SKIPPED : 2);
}

NcsModule *codes_module(uint32_t bundles) {
    NcsRefusal why;
    NcsModule *module = ncs_module_live(bundles, NCS_LIVE_CALLS, &why);
    if (module == NULL) {
        give_up(&why);
    }
    ncs_live_lock(module->live);
    CHECK(ncs_live_fill(module, module->limit));
    ncs_live_unlock(module->live);
    return module;
}

NcsBox *codes_box(NcsModule *module, uint32_t milliseconds) {
    const NcsLimits limits = {.memory = ROOM, .depth = NCS_DEPTH_MAX, .milliseconds = milliseconds};
    NcsRefusal why;
    NcsBox *box = ncs_box_new(module, &limits, &why);
    if (box == NULL) {
        give_up(&why);
    }
    return box;
}

void codes_end(NcsModule *module, NcsBox *box) {
    CHECK(ncs_free(box));
    ncs_module_free(module);
}

int codes_create(NcsModule *module, uint32_t at, const uint8_t *code, size_t len) {
    NcsRefusal why;
    int made = ncs_create(module, (NcsAt){at}, code, len, &why);
    CHECK(made == (why.kind == NCS_OK));
    return made;
}

int codes_create_number(NcsModule *module, uint32_t at, uint32_t number) {
    uint8_t code[BUNDLE];
    codes_number(code, number);
    return codes_create(module, at, code, sizeof code);
}

int codes_delete(NcsModule *module, uint32_t at) {
    return ncs_delete(module, (NcsAt){at}, NULL);
}

NcsEnd codes_run(NcsBox *box, uint32_t at) {
    return ncs_call(box, (NcsAt){at}, NCS_NO_ARGS);
}

int codes_returns(NcsBox *box, uint32_t at, uint32_t number) {
    NcsEnd end = codes_run(box, at);
    return end.how == NCS_RETURNED && end.result == number;
}

const uint8_t *codes_text(const NcsModule *module, uint32_t at) {
    return (const uint8_t *)((uintptr_t)module->text_at + at);
}

void codes_check(const NcsModule *module) {
    uint32_t k, wrong = 0;
    NcChunk found;
    for (k = NC_START; k < module->live->filled; k++) {
        wrong += nc_region_place(&module->live->region, k).byte != *codes_text(module, k);
    }
    CHECK(wrong == 0);
    for (k = 0; (found = nc_region_chunk(&module->live->region, k)).fault == NC_OK; k++) {
        CHECK(found.retired || nc_host_vet(found.base, module->limit, codes_text(module, found.base), found.length).fault == NC_OK);
    }
}
