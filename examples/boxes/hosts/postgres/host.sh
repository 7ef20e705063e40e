#!/bin/sh
# Boxes in PostgreSQL, beside its errors, its timeouts and its requests to cancel. A server is made for it, and is gone afterwards. In a
# second run of the server the function is in shared_preload_libraries. Once ../unpacker.c is built, in the folder above, as a user that
# isn't root:
#
#     gcc -shared -fPIC -isystem "$(pg_config --includedir-server)" postgres/unpack.c libunpacker.so -Wl,-rpath,'$ORIGIN' -o unpack.so
#     sh postgres/host.sh unpack.elf
set -eu
top=$PWD
file=$top/$1
PATH=$(pg_config --bindir):$PATH
data=$(mktemp -d)
server=
trap '[ -z "$server" ] || end; rm -r "$data"' EXIT
trap 'exit 1' INT TERM

# Starts the server with these words, and waits for it.
begin() {
    postgres -D "$data/db" -k "$data" -c listen_addresses= -c fsync=off -c unpacker.file="$file" "$@" >> "$data/log" 2>&1 &
    server=$!
    until pg_isready -q -h "$data"; do
        kill -0 "$server" || { cat "$data/log"; exit 1; }
        sleep 0.1
    done
}

end() {
    if kill -INT "$server"; then wait "$server" || true; fi
    server=
}

ask() {
    psql -X -A -t -q -h "$data" -d postgres -v library="'$top/unpack'" "$@" 2>&1
}

# Cancels the statement of the other session, as soon as there is one.
cancel() {
    until [ "$(ask -c "SELECT count(pg_cancel_backend(pid)) FROM pg_stat_activity WHERE query LIKE 'SELECT count(unpack%'")" = 1 ]; do
        sleep 0.1
    done
}

initdb -D "$data/db" -A trust -N >> "$data/log" 2>&1
begin
ask < postgres/host.sql
ask -c "SELECT count(unpack(repeat('0', 100000) || '1a')) FROM (SELECT generate_series(1, 1000000000)) AS rows" &
cancel
wait $! || true
end
begin -c shared_preload_libraries="$top/unpack"
ask < postgres/host.sql
end
