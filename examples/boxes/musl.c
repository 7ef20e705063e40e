/* The surroundings of a library with musl in a box, which are `begin`, called by the host once, and a heap. No system call leaves the box.
   For nc-cc, with musl's inner headers. It runs inside, so nobody has to trust it. */

#include "heap.h"
#include "setup.h"

/* Ends the call: a trampoline (build). */
_Noreturn void ncs_exit(int status);

/* `begin` has set it. */
static void find_heap(void) {}

/* Gives the library its heap, a range that the host has taken for it. */
__attribute__((section(".text.start"))) void begin(char *at, char *end) {
    heap = at;
    heap_end = end;
    set_up(0);
}

/* What musl takes for a system call, with the numbers of i386. */
long host_syscall(long number, long a, long b, long c, long d, long e, long f) {
    (void)b, (void)c, (void)d, (void)e, (void)f;
    if (number == 1 || number == 252) { /* exit, exit_group */
        ncs_exit((int)a);
    }
    return -ENOSYS;
}
