#!/bin/sh -eu
# bc and dc: bc's own programs, and a few lines for dc.
build() {
    configured
    make -C lib
    if test "$WAY" = native; then
        make -C bc
    else
        boxed_header
        make -C bc -o libmath.h bc
    fi
    make -C dc
}

# bc's makefile runs a first bc, which compiles bc's library. Here that is run in a box.
boxed_header() {
    cd bc
    make libmath.h || run ./fbc -c ./libmath.b < /dev/null > libmath.h
    sh ./fix-libmath_h
    rm -f global.o
    cd ..
}

check() {
    for name in exp ln sine atan jn mul div raise sqrt; do
        (cat Test/$name.b && echo quit) | run bc/bc -l | sum
    done
    echo '2 5000 ^ p 7 k 2 v p 16 o 255 p' | run dc/dc
}
