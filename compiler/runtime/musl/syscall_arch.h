/* System calls of musl, by way of the host: it gets the number and six arguments. It comes before musl's own header of this name. */

/* clang-format off */
#define __SYSCALL_LL_E(x) ((union { long long all; long half[2]; }){.all = x}).half[0], ((union { long long all; long half[2]; }){.all = x}).half[1]
/* clang-format on */
#define __SYSCALL_LL_O(x) __SYSCALL_LL_E((x))
#define SYSCALL_NO_TLS 1
#define SYSCALL_USE_SOCKETCALL

long host_syscall(long number, long a, long b, long c, long d, long e, long f);

static inline long __syscall0(long n) { return host_syscall(n, 0, 0, 0, 0, 0, 0); }
static inline long __syscall1(long n, long a) { return host_syscall(n, a, 0, 0, 0, 0, 0); }
static inline long __syscall2(long n, long a, long b) { return host_syscall(n, a, b, 0, 0, 0, 0); }
static inline long __syscall3(long n, long a, long b, long c) { return host_syscall(n, a, b, c, 0, 0, 0); }
static inline long __syscall4(long n, long a, long b, long c, long d) { return host_syscall(n, a, b, c, d, 0, 0); }
static inline long __syscall5(long n, long a, long b, long c, long d, long e) { return host_syscall(n, a, b, c, d, e, 0); }
static inline long __syscall6(long n, long a, long b, long c, long d, long e, long f) { return host_syscall(n, a, b, c, d, e, f); }
