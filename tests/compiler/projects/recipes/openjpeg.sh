#!/bin/sh -eu
# OpenJPEG: pictures of noise, compressed in several ways, and decompressed.
build() {
    cmake_built -DCMAKE_DISABLE_FIND_PACKAGE_PNG=ON -DCMAKE_DISABLE_FIND_PACKAGE_TIFF=ON -DCMAKE_DISABLE_FIND_PACKAGE_LCMS2=ON \
        -DCMAKE_DISABLE_FIND_PACKAGE_LCMS=ON
}

check() {
    (printf 'P5\n64 64\n255\n' && noise 4096) > it.pgm
    (printf 'P6\n50 40\n255\n' && noise 6000) > it.ppm
    for kind in pgm ppm; do
        for way in '-n 5' '-n 3' '-t 32,32' '-p RLCP' -I '-r 10,5'; do
            # shellcheck disable=SC2086 # several words
            run build/bin/opj_compress -i it.$kind -o it.j2k $way > /dev/null
            run build/bin/opj_decompress -i it.j2k -o back.$kind > /dev/null
            sum it.j2k
            sum back.$kind
        done
    done
    run build/bin/opj_dump -i it.j2k | grep -c =
}
