#!/bin/sh -eu
# diffutils: its own sources, compared in several ways. diff3 and sdiff start diff, which no program in a box can.
build() {
    configured --disable-nls
    make -j"$JOBS"
}

check() {
    for way in -u -c -e -y --normal -w -i; do
        run src/diff "$way" src/diff.c src/cmp.c | sum
        run src/diff "$way" -r m4 build-aux | sum
    done
    run src/cmp NEWS NEWS && ! run src/cmp NEWS README
}
