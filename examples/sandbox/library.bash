# For the script `build` of this folder: how to compile a host over the library of boxes, in the repository and where
# Reedbodkin is installed. It reads `here`, the folder of the script, and sets `compile`, `libraries` and `nc_cc`.
# shellcheck disable=SC2034 # the script uses these
top=${here:?}/../..
if [ -d "$top/crates" ]; then
    kit=${RATTLE_KIT:-$(dirname "$(rt doc)")}
    include=(-I"$top/include" -I"$top/sandbox") nc_cc=$top/compiler/nc-cc
    make -s -C "$top/sandbox" library || exit 2
    boxes=("$top/out/sandbox/libnc_sandbox.a")
    archives=("$top/crates/nc_host/out/libnc_host.a" "$kit/c/liblibc_c.a")
else
    prefix=$(cd "$top/../../.." && pwd)
    include=(-I"$prefix/include") nc_cc=$prefix/bin/nc-cc
    boxes=("$prefix/lib/libnc_sandbox.a")
    archives=("$prefix/lib/libnc_host.a")
fi
for library in "${boxes[@]}" "${archives[@]}"; do
    if [ ! -e "$library" ]; then
        echo "build: no $library: (cd crates/nc_host && rt lib) makes libnc_host.a, RATTLE_KIT leads to liblibc_c.a" >&2
        exit 2
    fi
done
compile=("${CC:-gcc}" -std=gnu11 -O2 -Wall -Wextra -Werror -pthread "${include[@]}")
libraries=("${boxes[@]}" "${archives[@]}")
