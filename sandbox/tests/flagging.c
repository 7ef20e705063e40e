/* Gives the thread flags just before each way in, as its host may have them. */
#include "flagging.h"

#include "../inner.h"
#include "wrapping.h"

uint64_t flagging_flags;
unsigned flagging_kept;

REAL(void, ncs_switch_in, Thread *thread) {
    uint64_t flags;
    __asm__ volatile("pushfq\n orq %0, (%%rsp)\n popfq" : : "r"(flagging_flags) : "memory", "cc");
    __real_ncs_switch_in(thread);
    __asm__ volatile("pushfq\n pop %0\n pushq $0x202\n popfq" : "=r"(flags) : : "memory", "cc");
    flagging_kept += (flags & FLAGGING_ALL) != 0;
}
