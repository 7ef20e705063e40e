#!/bin/sh -eu
# sed: its own scripts with the output that they have to print, and options on its own pages.
build() {
    configured --disable-nls
    make -j"$JOBS" sed/sed
}

check() {
    cp NEWS README testsuite
    cd testsuite
    for wanted in *.good; do
        name=${wanted%.good}
        test ! -f "$name.sed" || test ! -f "$name.inp" || { run ../sed/sed -f "$name.sed" < "$name.inp" | cmp - "$wanted" && echo "$name passes"; }
    done
    for words in s/the/THE/g y/abc/xyz/ '-n $=' '-n l' 5,/GNU/d '-E s/(.)(.)/\2\1/g' 'N;P;D' '-s -n 1p' '-z s/\n/,/g'; do
        # shellcheck disable=SC2086 # several words
        run ../sed/sed $words NEWS README | sum
    done
    run ../sed/sed -i.bak -e 's/bug/feature/g' NEWS
    run ../sed/sed -n '/a/w it.out' README
    sum NEWS NEWS.bak it.out
}
