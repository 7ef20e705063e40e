#!/bin/sh -eu
# utf8proc: those of its own tests that need no lists of the Unicode Consortium.
build() {
    make -j"$JOBS" CC="$CC" test/valid test/iterate test/custom test/misc test/printproperty test/graphemetest
}

check() {
    for name in valid iterate custom misc; do
        run test/$name
    done
    run test/printproperty 41 e4 301 20ac 1f600 ac00
    printf '\303\267 0061 \303\227 0308 \303\267 0061 \303\267\t# one\n' > it.txt
    run test/graphemetest it.txt
}
