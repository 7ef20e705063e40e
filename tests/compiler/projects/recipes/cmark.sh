#!/bin/sh -eu
# cmark: its own three lists of examples.
build() {
    cmake_built -DCMARK_SHARED=OFF -DCMARK_TESTS=OFF
}

check() {
    python3 test/spec_tests.py --spec test/spec.txt --program "$RUN build/src/cmark"
    python3 test/spec_tests.py --spec test/regression.txt --program "$RUN build/src/cmark"
    python3 test/spec_tests.py --spec test/smart_punct.txt --program "$RUN build/src/cmark --smart"
}
