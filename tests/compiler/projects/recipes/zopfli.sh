#!/bin/sh -eu
# Zopfli: a file and a picture, which the system's gzip and zopflipng itself read again.
build() {
    make -j"$JOBS" zopfli zopflipng
}

picture() {
    python3 -c '
import struct, sys, zlib
def part(name, data):
    return struct.pack(">I", len(data)) + name + data + struct.pack(">I", zlib.crc32(name + data))
rows = b"".join(b"\0" + bytes(3 * x * y % 251 for x in range(96)) for y in range(32))
head = struct.pack(">IIBBBBB", 32, 32, 8, 2, 0, 0, 0)
sys.stdout.buffer.write(b"\x89PNG\r\n\x1a\n" + part(b"IHDR", head) + part(b"IDAT", zlib.compress(rows)) + part(b"IEND", b""))'
}

check() {
    cp README it
    run ./zopfli it
    gzip -dc it.gz | cmp - it
    sum it.gz
    run ./zopfli --zlib -c it | sum
    picture > it.png
    run ./zopflipng -y it.png better.png
    sum better.png
}
