/* A 64-bit process that runs single 32-bit instructions: two segments by modify_ldt, a way in by iretq, and a way out by the handler of the
   trap or fault with which each run ends. */
#define _GNU_SOURCE
#include "inside.h"

#include <asm/ldt.h>
#include <signal.h>
#include <stdlib.h>
#include <string.h>
#include <sys/mman.h>
#include <sys/syscall.h>
#include <ucontext.h>
#include <unistd.h>

#define PAGE 0x1000u
#define CODE_AT 0x20000000u /* the page that is executed; at PAGE_END - PAGE in the segment */
#define DATA_AT 0x40000000u
#define CODE_SELECTOR 0x07
#define DATA_SELECTOR 0x0F
#define HOST_CODE 0x33
#define HOST_STACK 0x2B
#define FLOATS 416 /* bytes of x87 and SSE state in the image of fxsave */
#define STATUS 28  /* of control and status in front of them; behind these a mask that is the processor's own */
#define X87_AT 32  /* eight registers, of which each fills 10 of 16 bytes */
#define SSE_AT 160

static uint8_t *writable; /* the same page, where bytes are put */
static const Before *going;
static After *coming;

struct Frame {
    uint64_t place, code, flags, stack, stack_selector;
};
static uint8_t floats[512] __attribute__((aligned(16)));

/* iretq takes the frame; what is pushed here is taken back where the handler lands. */
extern void inside_enter(const struct Frame *frame, const uint32_t *registers, const uint8_t *floats);
extern char inside_landing[];
static uint64_t host_stack __attribute__((used));
__asm__(".text\n"
        "inside_enter:\n"
        "  push %rbx; push %rbp; push %r12; push %r13; push %r14; push %r15\n"
        "  mov %rsp, host_stack(%rip)\n"
        "  fxrstor (%rdx)\n"
        "  pushq 32(%rdi); pushq 24(%rdi); pushq 16(%rdi); pushq 8(%rdi); pushq (%rdi)\n"
        "  mov $0x0F, %eax; mov %eax, %ds; mov %eax, %es\n"
        "  mov %rsi, %r8\n"
        "  mov (%r8), %eax; mov 4(%r8), %ecx; mov 8(%r8), %edx; mov 12(%r8), %ebx\n"
        "  mov 20(%r8), %ebp; mov 24(%r8), %esi; mov 28(%r8), %edi\n"
        "  iretq\n"
        "inside_landing:\n"
        "  cld\n"
        "  mov $0x2B, %eax; mov %eax, %ds; mov %eax, %es\n"
        "  mov host_stack(%rip), %rsp\n"
        "  pop %r15; pop %r14; pop %r13; pop %r12; pop %rbp; pop %rbx\n"
        "  ret\n");

static unsigned selector(char name) {
    unsigned value = 0;
    switch (name) {
    case 'd': __asm__ volatile("mov %%ds, %0" : "=r"(value)); break;
    case 'e': __asm__ volatile("mov %%es, %0" : "=r"(value)); break;
    case 'f': __asm__ volatile("mov %%fs, %0" : "=r"(value)); break;
    default: __asm__ volatile("mov %%gs, %0" : "=r"(value));
    }
    return value & 0xFFFF;
}

static int same_floats(const uint8_t *now) {
    int i, same = memcmp(now, floats, STATUS) == 0 && memcmp(now + SSE_AT, floats + SSE_AT, FLOATS - SSE_AT) == 0;
    for (i = X87_AT; i < SSE_AT; i += 16) {
        same = same && memcmp(now + i, floats + i, 10) == 0;
    }
    return same;
}

static void on_trap(int sig, siginfo_t *info, void *context) {
    static const int order[8] = {REG_RAX, REG_RCX, REG_RDX, REG_RBX, REG_RSP, REG_RBP, REG_RSI, REG_RDI};
    static const char text[] = "a fault of the host itself\n";
    ucontext_t *at = context;
    greg_t *reg = at->uc_mcontext.gregs;
    uint64_t segments = (uint64_t)reg[REG_CSGSFS];
    int i;
    (void)sig;
    (void)info;
    if ((segments & 0xFFFF) == HOST_CODE) {
        (void)!write(2, text, sizeof text - 1);
        _exit(4);
    }
    for (i = 0; i < 8; i++) {
        coming->reg[i] = (uint32_t)reg[order[i]];
    }
    coming->place = (uint32_t)reg[REG_RIP];
    coming->flags = (uint32_t)reg[REG_EFL];
    coming->trap = (uint32_t)reg[REG_TRAPNO];
    coming->error = (uint32_t)reg[REG_ERR];
    coming->address = (uint32_t)reg[REG_CR2];
    coming->segments_stay = (segments & 0xFFFF) == CODE_SELECTOR && segments >> 48 == DATA_SELECTOR && selector('d') == DATA_SELECTOR &&
                            selector('e') == DATA_SELECTOR && selector('f') == 0 && selector('g') == 0;
    coming->floats_stay = same_floats((const uint8_t *)at->uc_mcontext.fpregs);
    reg[REG_RIP] = (greg_t)(uintptr_t)inside_landing;
    reg[REG_CSGSFS] = (greg_t)((segments & 0x0000FFFFFFFF0000ull) | HOST_CODE | (uint64_t)HOST_STACK << 48);
    reg[REG_EFL] = 0x202;
    reg[REG_RSP] = (greg_t)host_stack;
}

static int segment(unsigned entry, uint32_t base, uint32_t limit, int pages, int code) {
    struct user_desc d;
    memset(&d, 0, sizeof d);
    d.entry_number = entry;
    d.base_addr = base;
    d.limit = limit;
    d.limit_in_pages = pages != 0;
    d.seg_32bit = 1;
    d.contents = code ? MODIFY_LDT_CONTENTS_CODE : MODIFY_LDT_CONTENTS_DATA;
    d.useable = 1;
    return (int)syscall(SYS_modify_ldt, 0x11, &d, sizeof d);
}

static int map_all(void) {
    int file = memfd_create("code", MFD_CLOEXEC);
    if (file < 0 || ftruncate(file, PAGE) != 0) {
        return -1;
    }
    writable = mmap(NULL, PAGE, PROT_READ | PROT_WRITE, MAP_SHARED, file, 0);
    if (writable == MAP_FAILED ||
        mmap((void *)(uintptr_t)CODE_AT, PAGE, PROT_READ | PROT_EXEC, MAP_SHARED | MAP_FIXED_NOREPLACE, file, 0) == MAP_FAILED ||
        mmap((void *)(uintptr_t)(CODE_AT + PAGE), PAGE, PROT_READ, MAP_PRIVATE | MAP_ANONYMOUS | MAP_FIXED_NOREPLACE, -1, 0) ==
            MAP_FAILED ||
        mmap((void *)(uintptr_t)DATA_AT, DATA_LEN, PROT_READ | PROT_WRITE, MAP_PRIVATE | MAP_ANONYMOUS | MAP_FIXED_NOREPLACE, -1, 0) ==
            MAP_FAILED) {
        return -1;
    }
    close(file);
    return 0;
}

/* Every signal with which a run may end, on a stack above 4 GiB. */
static int handle(void) {
    static const int signals[] = {SIGSEGV, SIGILL, SIGTRAP, SIGFPE, SIGBUS};
    struct sigaction action;
    stack_t stack;
    size_t i;
    memset(&action, 0, sizeof action);
    memset(&stack, 0, sizeof stack);
    stack.ss_size = 1 << 16;
    stack.ss_sp = mmap(NULL, stack.ss_size, PROT_READ | PROT_WRITE, MAP_PRIVATE | MAP_ANONYMOUS, -1, 0);
    if (stack.ss_sp == MAP_FAILED || sigaltstack(&stack, NULL) != 0) {
        return -1;
    }
    action.sa_sigaction = on_trap;
    action.sa_flags = SA_SIGINFO | SA_ONSTACK;
    for (i = 0; i < sizeof signals / sizeof *signals; i++) {
        if (sigaction(signals[i], &action, NULL) != 0) {
            return -1;
        }
    }
    return 0;
}

/* x87 and SSE state that no instruction happens to leave: every register another, with the control words of the C library. */
static void lay_floats(void) {
    size_t i;
    for (i = X87_AT; i < FLOATS; i++) {
        floats[i] = (i < SSE_AT && i % 16 >= 10) ? 0 : (uint8_t)(i * 37 + 11);
    }
    floats[0] = 0x7F;
    floats[1] = 0x03;
    floats[4] = 0xFF;  /* no x87 register is empty */
    floats[24] = 0xBF; /* each sticky flag of SSE is set, each exception masked */
    floats[25] = 0x1F;
}

const char *inside_begin(void) {
    if (segment(0, CODE_AT - (PAGE_END - PAGE), 0xFFFFF, 1, 1) != 0 || segment(1, DATA_AT, DATA_LEN - 1, 0, 0) != 0) {
        return "modify_ldt";
    }
    if (map_all() != 0) {
        return "mmap";
    }
    if (handle() != 0) {
        return "sigaction";
    }
    lay_floats();
    return NULL;
}

uint32_t inside_put(const uint8_t *bytes, size_t count) {
    memcpy(writable + PAGE - count, bytes, count);
    return PAGE_END - (uint32_t)count;
}

void inside_fill(uint8_t value) {
    memset((void *)(uintptr_t)DATA_AT, value, DATA_LEN);
}

uint32_t inside_data(uint32_t at) {
    uint32_t value = 0;
    if (at <= DATA_LEN - sizeof value) {
        memcpy(&value, (const void *)(uintptr_t)(DATA_AT + at), sizeof value);
    }
    return value;
}

int inside_cut(const After *after) {
    return after->trap == TRAP_PAGE && (after->error & 0x10) != 0 && after->address == CODE_AT + PAGE;
}

void inside_run(const Before *before, After *after) {
    struct Frame frame = {before->place, CODE_SELECTOR, before->flags, before->reg[4], DATA_SELECTOR};
    going = before;
    coming = after;
    inside_enter(&frame, going->reg, floats);
}
