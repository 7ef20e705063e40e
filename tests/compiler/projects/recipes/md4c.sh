#!/bin/sh -eu
# md4c: its own lists of examples.
build() {
    cmake_built
}

check() {
    python3 test/spec_tests.py -s test/spec.txt -p "$RUN build/md2html/md2html"
    python3 test/spec_tests.py -s test/coverage.txt -p "$RUN build/md2html/md2html"
    for name in permissive-email-autolinks permissive-url-autolinks permissive-www-autolinks tables strikethrough tasklists latex-math; do
        python3 test/spec_tests.py -s test/$name.txt -p "$RUN build/md2html/md2html --f$name"
    done
}
