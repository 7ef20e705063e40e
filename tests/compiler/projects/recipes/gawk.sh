#!/bin/sh -eu
# gawk: those of its own tests that are a program with the output that it has to print, but for those that start commands, and the last two,
# of which one opens /dev/null, and the other wants words.
LEFT_OUT="childin clos1way close_status exitval2 getline getline3 getline5 getlnhd id longwrds nsidentifier pipeio1 pty1 rstest4 rstest5 \
    sigpipe1 spacere status-close timeout delargv redfilnm"

build() {
    configured --disable-nls --disable-mpfr --disable-extensions
    make -j"$JOBS" -C support
    make -j"$JOBS" gawk
}

# Whether a test prints what it has to.
passes() {
    given=/dev/null
    test ! -f "$1.in" || given=$1.in
    # shellcheck disable=SC2086 # several words, or none
    timeout 60 $RUN ../gawk -f "$1.awk" < "$given" > it.out 2> /dev/null || true
    cmp -s it.out "$1.ok"
}

check() {
    cd test
    for program in *.awk; do
        name=${program%.awk}
        test ! -f "$name.ok" || expr " $LEFT_OUT " : ".* $name " > /dev/null || ! passes "$name" || echo "$name passes"
    done
}
