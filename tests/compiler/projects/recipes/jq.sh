#!/bin/sh -eu
# jq: its own tests but those for Oniguruma, which isn't in its archive.
build() {
    autoreconf -fi
    configured --without-oniguruma --disable-docs --disable-maintainer-mode
    make -j"$JOBS" src/builtin.inc
    make -j"$JOBS" jq
}

check() {
    run ./jq -L tests/modules --run-tests tests/jq.test
    run ./jq --run-tests tests/base64.test
    echo '{"a":[1,2.5,{"b":"x"}]}' | run ./jq -c '.a | map(tostring) | join("-")'
}
