#!/bin/sh -eu
# libsodium: its own tests.
build() {
    autoreconf -fi
    configured --disable-asm --disable-ssp --disable-pie
    make -j"$JOBS"
    make -j"$JOBS" -C test/default check TESTS=
}

check() {
    cd test/default
    for wanted in *.exp; do
        name=${wanted%.exp}
        test ! -x "$name" || run "./$name" > /dev/null
        echo "$name passes"
    done
}
