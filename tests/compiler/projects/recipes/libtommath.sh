#!/bin/sh -eu
# LibTomMath: its own tests.
build() {
    make -f makefile.unix -j"$JOBS" CC="$CC" test
}

check() {
    run ./test
}
