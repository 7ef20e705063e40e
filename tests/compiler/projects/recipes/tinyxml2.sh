#!/bin/sh -eu
# TinyXML-2: its own tests.
build() {
    cmake_built -DBUILD_TESTING=ON
}

check() {
    run build/xmltest
}
