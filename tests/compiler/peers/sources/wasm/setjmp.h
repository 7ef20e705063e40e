/* Debian's wasi-libc has no setjmp. No unit leaves by longjmp, unless something goes wrong: then it ends. */
#ifndef SETJMP_H
#define SETJMP_H

typedef int jmp_buf[1];
typedef int sigjmp_buf[1];
_Noreturn void abort(void);

#define setjmp(buffer) ((void)(buffer), 0)
#define _setjmp setjmp
#define _longjmp longjmp

_Noreturn static inline void longjmp(jmp_buf buffer, int value) {
    (void)buffer, (void)value;
    abort();
}

#endif
