#!/bin/sh -eu
# yaml-cpp: its parser, on documents that are right and wrong.
build() {
    cmake_built -DYAML_CPP_BUILD_TESTS=OFF
}

check() {
    for file in .clang-format .travis.yml appveyor.yml; do
        test ! -f $file || run build/util/parse < $file
    done
    printf 'a: [1, 2.5, {b: "x"}]\nc: &k |\n  text\n  more\nd: *k\n' | run build/util/parse
    printf 'a: [1, 2\nb: }' | run build/util/parse 2>&1
}
