#!/bin/sh -eu
# grep: its own tables of expressions, and options on its own pages and sources.
build() {
    configured --disable-nls --disable-perl-regexp
    make -j"$JOBS" -C lib
    make -j"$JOBS" -C src
}

check() {
    cat tests/ere.tests tests/spencer1.tests | grep -v '^#' | grep -v @TO_CORRECT | while IFS=@ read -r _ expression text; do
        found=0
        printf '%s\n' "$text" | run src/grep -E -e "$expression" > it.out 2> /dev/null || found=$?
        echo "$expression $found $(sum it.out)"
    done
    for words in '-c the' '-n -i -w gnu' '-o [A-Z][a-z]*' '-v -F a' '-A1 -B2 bug'; do
        # shellcheck disable=SC2086 # several words
        run src/grep $words NEWS README | sum
    done
    run src/grep -r -l regex m4 | sort
}
