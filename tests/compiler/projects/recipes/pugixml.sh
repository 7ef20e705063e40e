#!/bin/sh -eu
# pugixml: its own tests.
build() {
    cmake_built -DPUGIXML_BUILD_TESTS=ON -DBUILD_TESTING=ON
    cmake --build build -j "$JOBS" --target pugixml-check
}

check() {
    run build/pugixml-check
}
