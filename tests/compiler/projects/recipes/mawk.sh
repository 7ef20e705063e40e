#!/bin/sh -eu
# mawk: programs of its own tests, two of them with the output that they have to print.
build() {
    configured
    make
}

check() {
    cd test
    for name in reg0 reg1 reg2 reg3 reg4 reg5 reg6 reg7 wfrq0 noloop; do
        run ../mawk -f $name.awk mawktest.dat | sort | sum
    done
    run ../mawk -f wc.awk mawktest.dat | cmp - wc-awk.out
    run ../mawk -f null-rs.awk null-rs.dat | cmp - null-rs.out
    run ../mawk 'BEGIN { printf "%d %5.2f %s %c %e\n", 3.9, 2.345, "x", 65, 1e-9; print exp(1), log(2), atan2(1, 2), substr("abc", 2) }'
}
