#!/bin/sh -eu
# pForth: it compiles its own dictionary, and runs its own tests but t_file, which empties a file by freopen without a name. musl's leaves
# the file as it is.
build() {
    make -C platforms/unix pfdicapp CC="$CC"
}

check() {
    cd fth
    run ../platforms/unix/pforth -i system.fth > it.out
    for name in t_corex t_strings t_locals t_alloc t_floats; do
        run ../platforms/unix/pforth -q $name.fth > it.out
        grep -v 'bytes,' it.out
    done
}
