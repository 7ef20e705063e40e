#!/bin/sh -eu
# libogg: its own tests.
build() {
    configured
    make -j"$JOBS"
}

check() {
    run src/test_bitwise 2>&1
    run src/test_framing 2>&1
}
