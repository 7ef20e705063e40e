#!/bin/sh -eu
# LibTomCrypt over LibTomMath: its own tests. LibTomMath takes getrandom only where it sees a glibc, and /dev/urandom otherwise.
build() {
    mkdir -p math
    tar xJf "$SOURCES/libtommath_1.2.0.orig.tar.xz" -C math --strip-components=1
    make -C math -f makefile.unix -j"$JOBS" CC="$CC" CFLAGS="-O2 '-D__GLIBC_PREREQ(a,b)=1'"
    make -f makefile.unix -j"$JOBS" CC="$CC" CFLAGS="-O2 -DUSE_LTM -DLTM_DESC -Imath" EXTRALIBS=math/libtommath.a test
}

check() {
    # shellcheck disable=SC2065 # it is a program of this name
    run ./test > it.out
    sed 's/ *[0-9.]*ms//' it.out
}
