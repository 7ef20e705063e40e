#!/bin/sh -eu
# What the commands of projects_table.py have at hand. WAY is box or native, and CC and CXX are the compilers; RUN is what stands before a
# program's path to run it, so that it may use the current folder: in a box it can name no file outside.

# Configures by the project's own script.
configured() {
    ./configure "$HOST" --disable-shared "$@"
}

# Configures by CMake in the folder build, and builds there.
cmake_built() {
    if test "$WAY" = box; then
        set -- "$@" "-DCMAKE_TOOLCHAIN_FILE=$PREFIX/lib/cmake/nc_host/nc_toolchain.cmake"
    fi
    cmake -S . -B build -DCMAKE_BUILD_TYPE=Release -DBUILD_SHARED_LIBS=OFF "$@"
    cmake --build build -j "$JOBS"
}

# Runs a program.
run() {
    # shellcheck disable=SC2086 # several words, or none
    $RUN "$@"
}

# Prints a checksum of files, or of the input, without names.
sum() {
    cat "$@" | sha256sum | cut -d ' ' -f 1
}

# Prints this many bytes, always the same.
noise() {
    python3 -c 'import random, sys; sys.stdout.buffer.write(random.Random(1).randbytes(int(sys.argv[1])))' "$1"
}
