/* Calls of the system and of the C library that can be refused. The linker leads each call of them here (--wrap). */
#ifndef REFUSING_H
#define REFUSING_H

#include <stddef.h>

/* What is refused: memory; what a process needs before its first module; what a thread needs; what the second wall needs. modify_ldt,
   rt_sigaction, membarrier, seccomp and those of landlock are system calls that the library makes by `syscall`; of membarrier, the
   registration. What gives something back is refused only if that is asked for. */
/* clang-format off */
#define REFUSABLE(X) X(malloc) X(calloc) X(realloc) X(aligned_alloc) X(mmap) X(mprotect) X(memfd_create) X(fallocate) X(ftruncate) X(pwrite) X(mremap) \
    X(pthread_mutex_init) X(getrandom) X(madvise) X(modify_ldt) X(rt_sigaction) X(membarrier) X(sigaction) X(sigaltstack) \
    X(pthread_sigmask) X(pthread_key_create) X(pthread_setspecific) X(pthread_atfork) X(pthread_create) \
    X(prctl) X(timer_create) X(timer_settime) X(seccomp) X(landlock_create_ruleset) X(landlock_add_rule) X(landlock_restrict_self)
/* clang-format on */
#define AS_NUMBER(name) REFUSES_##name,
enum { REFUSABLE(AS_NUMBER) REFUSABLES };

/* Refuses this thread's nth call from now on, counted from 1, and each later one if `later` says so. */
void refusing_begin(unsigned nth, int later);
/* Which call was refused first since then, or -1. No more are refused. */
int refusing_end(void);
const char *refusing_name(int which);

/* From now on this process's calls that give back memory or a segment are refused, or not. */
extern int refusing_releases;

/* What the process has. */
typedef struct Holding {
    long blocks, mapped, segments, timers, files;
} Holding;
Holding refusing_holding(void);

#endif
