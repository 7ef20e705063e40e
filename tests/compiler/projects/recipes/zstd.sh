#!/bin/sh -eu
# zstd: files by their names and by standard input, at several levels, and a dictionary.
build() {
    make -j"$JOBS" -C programs zstd-nomt HAVE_ZLIB=0 HAVE_LZMA=0 HAVE_LZ4=0 CC="$CC"
}

check() {
    # Levels 5 to 12 compress otherwise where there is SSE2.
    for level in 1 3 16 19; do
        run programs/zstd -q -f -$level CHANGELOG -o it.zst
        run programs/zstd -q -t it.zst
        sum it.zst
    done
    cp CHANGELOG it
    run programs/zstd -q -f --rm it
    ls it*
    run programs/zstd -q -d it.zst
    cmp it CHANGELOG
    run programs/zstd -q -9 -c CHANGELOG | run programs/zstd -q -dc | cmp - CHANGELOG
    noise 100000 | run programs/zstd -q --long=20 | run programs/zstd -q -dc | sum
    run programs/zstd -q --train lib/common/*.c lib/common/*.h -o it.dict
    sum it.dict
}
