/* Two mappings of one memfd, as a host has them (docs/EMBEDDING.md, "The text"). A thread jumps to the instruction, and another jump
   takes it back. Beforehand, each register that a version may change is set to 0. After a stop the handler of the signal takes the thread
   back. */
#define _GNU_SOURCE
#include "slot.h"

#include "nc_host.h"

#include <linux/membarrier.h>
#include <signal.h>
#include <stdio.h>
#include <stdlib.h>
#include <string.h>
#include <sys/mman.h>
#include <sys/syscall.h>
#include <ucontext.h>
#include <unistd.h>

#define PAGE 4096u
#define BUNDLE_AT 96u /* the second bundle of a cache line */
#define TRAP_GENERAL 13
#define HANDLER_STACK 65536u

uint64_t slot_begun __attribute__((aligned(64)));

static uint8_t *writable, *executable;
static unsigned slot_at __attribute__((aligned(64)));

/* slot_enter relies on the places of the fields up to `registers`. */
typedef struct Stay {
    const uint64_t *begun;
    uint64_t entry, before, after, stack;
    uint64_t registers[REGISTERS];
    uint64_t place; /* the address of the instruction that raised a signal */
    int sig, trap;
} Stay;

static __thread Stay *stay;

/* No version of the instruction changes %r8 to %r15 or %rsp. A slow look waits for a chain of multiplications. Meanwhile the instruction,
   which needs none of their results, is fetched, long before it can be completed. */
extern void slot_enter(Stay *stay, int is_slow);
extern char slot_landing[];
__asm__(".text\n"
        "slot_enter:\n"
        "  push %rbx; push %rbp; push %r12; push %r13; push %r14; push %r15\n"
        "  mov %rdi, %r15\n"
        "  mov %rsp, 32(%r15)\n"
        "  mov (%r15), %r14\n"
        "  mov 8(%r15), %r13\n"
        "  lea slot_landing(%rip), %r11\n"
        "  mov $3, %r9d\n"
        "  test %esi, %esi\n"
        "  jz 1f\n"
        "  .rept 40; imul %r9, %r9; .endr\n"
        "1: and $0, %r9\n"
        "  xor %eax, %eax; xor %ecx, %ecx; xor %edx, %edx; xor %ebx, %ebx; xor %ebp, %ebp; xor %esi, %esi; xor %edi, %edi\n"
        "  mov (%r14, %r9), %r12\n"
        "  jmp *%r13\n"
        "slot_landing:\n"
        "  lfence\n"
        "  mov (%r14), %r13\n"
        "  mov 32(%r15), %rsp\n"
        "  mov %r12, 16(%r15)\n"
        "  mov %r13, 24(%r15)\n"
        "  mov %rax, 40(%r15); mov %rcx, 48(%r15); mov %rdx, 56(%r15); mov %rbx, 64(%r15)\n"
        "  mov %rbp, 72(%r15); mov %rsi, 80(%r15); mov %rdi, 88(%r15)\n"
        "  pop %r15; pop %r14; pop %r13; pop %r12; pop %rbp; pop %rbx\n"
        "  ret\n");
static const uint8_t jump_back[] = {0x41, 0xFF, 0xE3}; /* jmp *%r11 */

_Static_assert(__builtin_offsetof(Stay, stack) == 32 && __builtin_offsetof(Stay, registers) == 40, "as slot_enter has it");

static void on_trap(int sig, siginfo_t *info, void *context) {
    static const char text[] = "views: a fault of the program itself\n";
    greg_t *reg = ((ucontext_t *)context)->uc_mcontext.gregs;
    uint64_t place = (uint64_t)reg[REG_RIP];
    (void)info;
    if (stay == NULL || place - (uint64_t)(uintptr_t)executable >= PAGE) {
        (void)!write(2, text, sizeof text - 1);
        _exit(4);
    }
    stay->place = place;
    stay->sig = sig;
    stay->trap = (int)reg[REG_TRAPNO];
    reg[REG_R14] = (greg_t)(uintptr_t)stay->begun;
    reg[REG_R15] = (greg_t)(uintptr_t)stay;
    reg[REG_RIP] = (greg_t)(uintptr_t)slot_landing;
}

static const char *handle(void) {
    static const int signals[] = {SIGSEGV, SIGILL, SIGTRAP, SIGFPE, SIGBUS};
    struct sigaction action;
    size_t i;
    memset(&action, 0, sizeof action);
    action.sa_sigaction = on_trap;
    action.sa_flags = SA_SIGINFO | SA_ONSTACK;
    for (i = 0; i < sizeof signals / sizeof *signals; i++) {
        if (sigaction(signals[i], &action, NULL) != 0) {
            return "sigaction";
        }
    }
    return NULL;
}

const char *slot_open(void) {
    int file = memfd_create("slot", MFD_CLOEXEC);
    if (file < 0 || ftruncate(file, PAGE) != 0) {
        return "memfd_create";
    }
    writable = mmap(NULL, PAGE, PROT_READ | PROT_WRITE, MAP_SHARED, file, 0);
    executable = mmap(NULL, PAGE, PROT_READ | PROT_EXEC, MAP_SHARED, file, 0);
    if (writable == MAP_FAILED || executable == MAP_FAILED || close(file) != 0) {
        return "mmap";
    }
    if (syscall(SYS_membarrier, MEMBARRIER_CMD_REGISTER_PRIVATE_EXPEDITED_SYNC_CORE, 0, 0) != 0) {
        return "membarrier";
    }
    return handle();
}

const char *slot_begin_thread(void) {
    stack_t stack;
    memset(&stack, 0, sizeof stack);
    stack.ss_size = HANDLER_STACK;
    stack.ss_sp = mmap(NULL, stack.ss_size, PROT_READ | PROT_WRITE, MAP_PRIVATE | MAP_ANONYMOUS, -1, 0);
    return stack.ss_sp == MAP_FAILED || sigaltstack(&stack, NULL) != 0 ? "sigaltstack" : NULL;
}

void slot_end_thread(void) {
    stack_t stack;
    static const stack_t none = {.ss_flags = SS_DISABLE};
    if (sigaltstack(&none, &stack) != 0 || munmap(stack.ss_sp, stack.ss_size) != 0) {
        abort();
    }
}

void slot_put(unsigned place, uint8_t byte, int plain) {
    if (plain) {
        __atomic_store_n(&writable[slot_at + place], byte, __ATOMIC_RELEASE);
    } else {
        __atomic_store_n(&writable[slot_at + place], byte, __ATOMIC_SEQ_CST);
    }
}

/* Every processor that runs a thread of this process serializes. A call that fails is no serialization. */
void slot_serialize(void) {
    if (syscall(SYS_membarrier, MEMBARRIER_CMD_PRIVATE_EXPEDITED_SYNC_CORE, 0, 0) != 0) {
        perror("membarrier");
        abort();
    }
}

void slot_lay(unsigned offset) {
    unsigned place;
    memset(writable, NC_STOP, PAGE);
    memset(writable + BUNDLE_AT, 0x90, offset);
    slot_at = BUNDLE_AT + offset;
    for (place = 0; place < LENGTH; place++) {
        slot_put(place, version_byte(0, place), 0);
    }
    memcpy(writable + slot_at + LENGTH, jump_back, sizeof jump_back);
    __atomic_store_n(&slot_begun, 0, __ATOMIC_SEQ_CST);
    slot_serialize();
}

/* The version that has this byte at this place, or STOP_BYTE for a stop, or -2 where there is no such version. */
static int version_of(uint8_t byte, unsigned place) {
    if (byte == NC_STOP) {
        return STOP_BYTE;
    }
    if (byte < place || (byte - place) % 4 != 0 || (byte - place) / 4 >= VERSIONS) {
        return -2;
    }
    return (int)((byte - place) / 4);
}

/* A stop changes no register. The instruction changes one, and clears its upper half. */
static Effect effect_of(const Stay *s) {
    static const Effect strange = {.kind = STRANGE};
    Effect effect = {.kind = s->sig == 0 ? RAN : STOPPED};
    unsigned i, changed = 0, which = 0;
    for (i = 0; i < REGISTERS; i++) {
        if (s->registers[i] != 0) {
            changed++;
            which = i;
        }
    }
    if (s->sig != 0) {
        int is_stop = s->sig == SIGSEGV && s->trap == TRAP_GENERAL && s->place == (uint64_t)(uintptr_t)(executable + slot_at);
        return is_stop && changed == 0 ? effect : strange;
    }
    if (changed != 1 || s->registers[which] >> 32 != 0) {
        return strange;
    }
    effect.bytes[0] = (int)which;
    for (i = 1; i < LENGTH; i++) {
        effect.bytes[i] = version_of((uint8_t)(s->registers[which] >> 8 * (i - 1)), i);
        if (effect.bytes[i] < STOP_BYTE) {
            return strange;
        }
    }
    return effect;
}

Execution slot_execute(int at_start, int is_slow) {
    Stay s;
    memset(&s, 0, sizeof s);
    s.begun = &slot_begun;
    s.entry = (uint64_t)(uintptr_t)(executable + (at_start ? BUNDLE_AT : slot_at));
    stay = &s;
    slot_enter(&s, is_slow);
    stay = NULL;
    return (Execution){s.before, s.after, effect_of(&s)};
}
