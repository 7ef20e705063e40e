#!/bin/sh -eu
# gzip: files by their names and by standard input, and the system's gzip reads them. Where its configure can't try printf and doesn't know the
# C library, it takes one of its own, with x87 instructions. Its assembly for i386 has a repe cmpsw.
build() {
    configured ${RUN:+--host=i686-linux-musl} gl_cv_func_printf_infinite_long_double=yes gl_cv_func_printf_enomem=yes \
        gzip_cv_assembler=no
    make -j"$JOBS"
}

check() {
    run ./gzip -n -9 < gzip.c > it.gz
    sum it.gz
    run ./gzip -dc it.gz | cmp - gzip.c
    cp NEWS it
    run ./gzip -n -k -f it
    gzip -dc it.gz | cmp - NEWS
    run ./gzip -l it.gz
    rm it
    run ./gzip -d it.gz
    ls it*
    noise 100000 | run ./gzip -n -1 | sum
}
