#!/bin/sh -eu
# TIFF: its own tests of the library and of the tools.
build() {
    autoreconf -fi
    configured --disable-zlib --disable-jpeg --disable-lzma --disable-zstd --disable-webp --disable-jbig --disable-lerc --disable-libdeflate
    make -j"$JOBS"
    make -j"$JOBS" -C test check TESTS=
}

check() {
    cd test
    # What is a script runs programs by MEMCHECK itself.
    cat > by-kind << END
#!/bin/sh
case \$1 in *.sh) exec "\$@" ;; esac
exec $RUN "\$@"
END
    chmod +x by-kind
    make -k check MEMCHECK="$RUN" LOG_COMPILER=./by-kind | grep -E '^(PASS|FAIL|SKIP|XFAIL|ERROR):' | sort
}
