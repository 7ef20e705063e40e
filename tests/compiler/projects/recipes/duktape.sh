#!/bin/sh -eu
# Duktape: an example of its own, and a program that prints numbers, patterns and dates.
build() {
    make -f Makefile.cmdline CC="$CC"
}

check() {
    run ./duk mandel.js
    cat > it.js << 'END'
print(JSON.stringify([1.5, "x", {a: [null, true]}]), /(a+)b/.exec("caaab"), [3, 1, 2].sort(), Math.sin(1));
print(new Date(1e12).toISOString(), parseFloat("1e-7"), (0.1).toFixed(20), encodeURIComponent("\u00e4"));
try { null.x } catch (fault) { print(fault) }
END
    run ./duk it.js
}
