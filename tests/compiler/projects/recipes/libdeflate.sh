#!/bin/sh -eu
# libdeflate: its gzip at several levels. Without -U__i386__ it asks the processor by xgetbv, which is refused.
build() {
    make -j"$JOBS" CC="$CC" CFLAGS=-U__i386__ DISABLE_SHARED=1 gzip
}

check() {
    for level in 1 6 9 12; do
        cp lib/deflate_compress.c it
        run ./gzip -f -$level it
        gzip -dc it.gz | cmp - lib/deflate_compress.c
        gzip -dc it.gz | run ./gzip -c -$level | tail -c +11 | sum
        run ./gzip -d it.gz
        ls it*
    done
    noise 70000 | run ./gzip -c | run ./gzip -d -c | sum
}
