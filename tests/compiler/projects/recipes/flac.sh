#!/bin/sh -eu
# FLAC: its own tests of libFLAC and libFLAC++, and noise that is encoded and decoded.
build() {
    configured --disable-ogg --disable-asm-optimizations
    make -j"$JOBS"
    make -j"$JOBS" -C src check
}

# Runs a program as a user whom a file's rights bind, which root isn't otherwise.
with_rights() {
    rights=
    test "$(id -u)" != 0 || rights="setpriv --bounding-set -dac_override,-dac_read_search"
    # shellcheck disable=SC2086 # several words, or none
    $rights $RUN "$@"
}

check() {
    chown -R "$(id -u)" . # what root unpacks may have other owners
    cd test
    rm -f ./*.flac
    with_rights ../src/test_libFLAC/test_libFLAC 2>&1
    with_rights ../src/test_libFLAC++/test_libFLAC++ 2>&1
    cd ..
    noise 400000 > noise.raw
    set -- -s -f --force-raw-format --endian=little --sign=signed
    run src/flac/flac "$@" -8 --channels=2 --bps=16 --sample-rate=44100 -o it.flac noise.raw
    run src/flac/flac "$@" -d -o back.raw it.flac
    cmp noise.raw back.raw
    run src/metaflac/metaflac --show-md5sum it.flac
}
