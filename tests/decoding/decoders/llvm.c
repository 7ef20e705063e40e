/* LLVM's decoder. */
#include "other.h"

#include <llvm-c/Disassembler.h>
#include <llvm-c/Target.h>
#include <llvm/Config/llvm-config.h>
#include <stdlib.h>
#include <string.h>

static LLVMDisasmContextRef decoder;

const char *other_begin(const char *path) {
    (void)path;
    LLVMInitializeX86TargetInfo();
    LLVMInitializeX86TargetMC();
    LLVMInitializeX86Disassembler();
    decoder = LLVMCreateDisasm("i386-unknown-linux-gnu", NULL, 0, NULL, NULL);
    if (decoder == NULL || LLVMSetDisasmOptions(decoder, LLVMDisassembler_Option_AsmPrinterVariant) == 0) {
        exit(2);
    }
    return "LLVM " LLVM_VERSION_STRING;
}

static int is_prefix(const char *text) {
    return strcmp(text, "lock") == 0 || strcmp(text, "rep") == 0 || strcmp(text, "repne") == 0 || strcmp(text, "data16") == 0;
}

/* LLVM tells some prefixes as instructions of their own: the one behind it is asked for too. */
void other_look(const uint8_t *bytes, uint32_t at, Seen *seen) {
    char text[sizeof seen->text];
    uint32_t before = 0, length;
    do {
        length =
            (uint32_t)LLVMDisasmInstruction(decoder, (uint8_t *)(uintptr_t)bytes + before, 15 - before, at + before, text, sizeof text);
        strcpy(seen->text, length == 0 ? "" : text + strspn(text, "\t "));
        seen->length = length == 0 ? 0 : before + length;
        before += length;
    } while (before == 1 && is_prefix(seen->text));
    seen->relative = 1;
}
