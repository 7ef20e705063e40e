"""The libraries that tests/compiler/peers compiles, their sources, and what it measures of them."""

import os
import sys
from typing import NamedTuple

from repository import TOP

sys.path.append(os.path.join(TOP, "examples", "ports"))
from table import PORTS, Port


class Operation(NamedTuple):
    """What is measured. `floats`: it computes much with floating-point numbers, which a box does without the processor's. `by_words`: what
    comes out depends on the size of a word, so 64-bit code makes something else."""

    name: str
    floats: bool = False
    by_words: bool = False


class Peer(NamedTuple):
    """A library with those that it needs, the input, and the operations in the order of its unit."""

    title: str
    ports: tuple
    input: str
    operations: tuple

    def version(self):
        return self.ports[0].version().partition(".dfsg")[0]


ZLIB = Port("zlib_1.2.13.dfsg.orig.tar.bz2", "71feb7947e3c00ef125f83b79a4e529bde31171e5babe48b391f06758d1ab0a1", "*.c", "gz*.c")
LIBPNG = Port(
    "libpng1.6_1.6.39.orig.tar.gz", "a00e9d2f2f664186e4202db9299397f851aea71b36a35e74910b8820e380d441", "png*.c", "pngtest.c",
    flags="-DPNG_INTEL_SSE_OPT=0")
EXPAT = Port(
    "expat_2.5.0.orig.tar.gz", "ab00ee05c7067fd10a35c5d2a4922ebba746ddd50ff83b79c828da17bbdf1757", "expat/lib/xml*.c",
    "xmltok_impl.c xmltok_ns.c", "expat/lib", "-DXML_NS -DXML_DTD -DXML_CONTEXT_BYTES=1024 -DBYTEORDER=1234 -DXML_POOR_ENTROPY")
# `./configure && make sqlite3.c` makes its only source.
SQLITE = Port(
    "sqlite3_3.40.1.orig.tar.xz", "aaa776260ab4dc976db34aa7891819484c8676b5b2783123ebc6301e2ca5d655", "sqlite3.c",
    flags="-DSQLITE_THREADSAFE=0 -DSQLITE_OMIT_LOAD_EXTENSION -DSQLITE_TEMP_STORE=3 -DSQLITE_OS_OTHER=1 -DSQLITE_OMIT_WAL -DSQLITE_DQS=0")
BZIP2 = PORTS["bzip2"]._replace(flags="-DBZ_NO_STDIO")
CJSON = PORTS["cjson"]._replace(files="cJSON.c")
LUA = PORTS["lua"]._replace(without="lua.c luac.c linit.c loslib.c liolib.c loadlib.c ldblib.c")
LZ4 = PORTS["lz4"]._replace(without="lz4file.c")
# The compilers know the size of a word.
XZ = PORTS["xz"]._replace(flags=PORTS["xz"].flags.replace("-DSIZEOF_SIZE_T=4", "-DSIZEOF_SIZE_T=__SIZEOF_SIZE_T__ -DNDEBUG"))

PEERS = {
    "zlib": Peer("zlib", (ZLIB,), "mixed", (Operation("deflate -6, 1 MB"), Operation("inflate"), Operation("crc32 and adler32"))),
    "lz4": Peer("LZ4", (LZ4,), "mixed", (
        Operation("HC 9, 256 KB", by_words=True), Operation("compress 1 MB", by_words=True), Operation("decompress"))),
    "bzip2": Peer("bzip2", (BZIP2,), "mixed", (Operation("-9, 256 KB"), Operation("decompress"))),
    "xz": Peer("xz", (XZ,), "mixed", (Operation("-1, 256 KB"), Operation("decompress"))),
    "brotli": Peer("Brotli", (PORTS["brotli"],), "mixed", (Operation("-5, 1 MB", floats=True), Operation("decompress"))),
    "libpng": Peer("libpng", (LIBPNG, ZLIB), "picture", (Operation("3013 x 1561 RGBA"),)),
    "expat": Peer("expat", (EXPAT,), "xml", (Operation("with XML_DTD, 1.1 MB", floats=True),)),
    "cjson": Peer("cJSON", (CJSON,), "json", (Operation("read 0.9 MB of text"), Operation("write"))),
    "pcre2": Peer("PCRE2", (PORTS["pcre2"],), "text", (Operation("5 patterns, 0.4 MB"), Operation("compile"))),
    "sqlite": Peer("SQLite", (SQLITE,), "text", (Operation("8,000 inserts"), Operation("5 queries"))),
    "lua": Peer("Lua", (LUA,), "text", (Operation("integers and strings"), Operation("floating point", floats=True))),
    "mujs": Peer("MuJS", (PORTS["mujs"],), "text", (Operation("script", floats=True),)),
    "opus": Peer("Opus", (PORTS["opus"],), "sound", (Operation("fixed, encode 2 s", by_words=True), Operation("decode", by_words=True))),
}
SLICE = ("cjson",)  # that of the gate, which takes seconds
MUTANTS = {"cjson": "-DCJSON_NESTING_LIMIT=1"}  # the flag with which a library of the slice refuses the input
