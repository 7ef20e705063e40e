#!/bin/sh -eu
# libjpeg-turbo: its own tests, in the folder of the sources, where a box can name all files.
build() {
    cmake_built -DENABLE_SHARED=0 -DWITH_SIMD=0 -DCMAKE_CROSSCOMPILING_EMULATOR="$(echo "$RUN" | tr ' ' ';')"
}

check() {
    cd build
    ctest -j "$JOBS"
}
