#!/bin/sh -eu
# double-conversion: its own tests.
build() {
    cmake_built -DBUILD_TESTING=ON
}

check() {
    cd build/test/cctest
    run ./cctest --list | tr -d '<' | while read -r name; do
        run ./cctest "$name"
        echo "$name passes"
    done
}
