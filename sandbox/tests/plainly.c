/* The handlers of the library as the kernel calls them, under ThreadSanitizer. Its own sigaction keeps back a signal such as a tick until
   the thread makes a call that it knows, and hands on a copy of the frame. A thread that is inside would never come out. */
#define _GNU_SOURCE
#include <signal.h>
#include <stdint.h>
#include <string.h>
#include <sys/syscall.h>
#include <unistd.h>

#ifndef SA_RESTORER
#define SA_RESTORER 0x04000000
#endif

typedef struct KernelAction {
    void (*handler)(int, siginfo_t *, void *);
    unsigned long flags;
    void (*restorer)(void);
    uint64_t mask;
} KernelAction;

void plainly_return(void);
__asm__(".text\nplainly_return:\n  mov $15, %eax\n  syscall\n"); /* rt_sigreturn */

int __wrap_sigaction(int sig, const struct sigaction *to, struct sigaction *was);

int __wrap_sigaction(int sig, const struct sigaction *to, struct sigaction *was) {
    KernelAction new, old;
    memset(&new, 0, sizeof new);
    if (to != NULL) {
        new.handler = to->sa_sigaction;
        new.flags = (unsigned)to->sa_flags | SA_RESTORER;
        new.restorer = plainly_return;
        memcpy(&new.mask, &to->sa_mask, sizeof new.mask);
    }
    if (syscall(SYS_rt_sigaction, sig, to != NULL ? &new : NULL, &old, sizeof new.mask) != 0) {
        return -1;
    }
    if (was != NULL) {
        memset(was, 0, sizeof *was);
        was->sa_sigaction = old.handler;
        was->sa_flags = (int)(old.flags & ~(unsigned long)SA_RESTORER);
        memcpy(&was->sa_mask, &old.mask, sizeof old.mask);
    }
    return 0;
}
