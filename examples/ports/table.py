"""The libraries that tests/compiler/ports compiles: where their sources come from, how they are compiled, and a program that uses each.

`generators` compiles programs that generate code. `build` compiles others with the programs of trials/, and runs these by a host for Linux
(load.c, host.s).
"""

import fnmatch
import glob
import os
from typing import NamedTuple


class Port(NamedTuple):
    """An archive of Debian 12 with its SHA-256, and what is compiled of it: files by patterns, without some of them, with folders of
    headers and flags. Patterns and folders begin at the archive's only folder."""

    archive: str
    sum: str
    files: str
    without: str = ""
    headers: str = "."
    flags: str = ""
    suffix: str = ".c"

    def version(self):
        return self.archive.partition("_")[2].partition(".orig")[0].partition("+")[0]

    def sources(self, top):
        """The paths of what is compiled, in the archive's only folder."""
        paths = [path for pattern in self.files.split() for path in sorted(glob.glob(os.path.join(top, pattern)))]
        return [path for path in paths if not any(fnmatch.fnmatch(os.path.basename(path), name) for name in self.without.split())]


PORTS = {
    "cjson": Port(
        "cjson_1.7.15.orig.tar.gz", "5308fd4bd90cef7aa060558514de6a1a4a0819974a26e6ed13973c5f624c24b2", "cJSON.c cJSON_Utils.c"),
    "jansson": Port(
        "jansson_2.14.orig.tar.gz", "c739578bf6b764aa0752db9a2fdadcfe921c78f1228c7ec0bb47fa804c55d17b", "src/*.c", headers="src android",
        flags="-DHAVE_CONFIG_H"),
    "libyaml": Port(
        "libyaml_0.2.5.orig.tar.gz", "fa240dbf262be053f3898006d502d514936c818e422afdcf33921c63bed9bf2e", "src/*.c", headers="include",
        flags="-DYAML_VERSION_MAJOR=0 -DYAML_VERSION_MINOR=2 -DYAML_VERSION_PATCH=5 -DYAML_VERSION_STRING=\"0.2.5\""),
    "tinyxml2": Port(
        "tinyxml2_9.0.0+dfsg.orig.tar.xz", "96510f47a5db537f70dff3e83dd71fd2180cbba4aa76c589a549467e7f34bc9b", "tinyxml2.cpp",
        suffix=".cc"),
    "pugixml": Port(
        "pugixml_1.13.orig.tar.gz", "5c5ad5d7caeb791420408042a7d88c2c6180781bf218feca259fd9d840a888e1", "src/pugixml.cpp", headers="src",
        flags="-DPUGIXML_NO_STL -DPUGIXML_NO_EXCEPTIONS", suffix=".cc"),
    "lz4": Port(
        "lz4_1.9.4.orig.tar.gz", "0b0e3aa07c8c063ddf40b082bdf7e37a1562bda40a0ff5272957f3e987e0e54b", "lib/*.c", headers="lib"),
    "bzip2": Port(
        "bzip2_1.0.8.orig.tar.gz", "ab5a03176ee106d3f0fa90e381da478ddae405918153cca248e682cd0c4a2269",
        "blocksort.c huffman.c crctable.c randtable.c compress.c decompress.c bzlib.c"),
    "xz": Port(
        "xz-utils_5.4.1.orig.tar.xz", "5d9827aa1875b21c288f78864bb26d2650b436ea8d2cad364e4921eb6266a5a5",
        "src/liblzma/*/*.c", "crc32_small.c crc64_small.c *_tablegen.c hardware_*.c *_mt.c",
        " ".join("src/" + name for name in "common liblzma/api liblzma/common liblzma/check liblzma/lz liblzma/rangecoder liblzma/lzma "
                 "liblzma/delta liblzma/simple".split()),
        " ".join("-DHAVE_" + name for name in "STDINT_H STDBOOL_H STRING_H INTTYPES_H LIMITS_H ENCODERS DECODERS ENCODER_LZMA1 "
                 "DECODER_LZMA1 ENCODER_LZMA2 DECODER_LZMA2 ENCODER_X86 DECODER_X86 ENCODER_DELTA DECODER_DELTA CHECK_CRC32 CHECK_CRC64 "
                 "CHECK_SHA256 MF_HC3 MF_HC4 MF_BT2 MF_BT3 MF_BT4".split()) + " -DSIZEOF_SIZE_T=4 -DTUKLIB_SYMBOL_PREFIX=lzma_"),
    "brotli": Port(
        "brotli_1.0.9.orig.tar.gz", "f9e8d81d0405ba66d181529af42a3354f838c939095ff99930da6aa9cdf6fe46", "c/common/*.c c/enc/*.c c/dec/*.c",
        headers="c/include"),
    "giflib": Port(
        "giflib_5.2.1.orig.tar.gz", "31da5562f44c5f15d63340a09a4fd62b48c45620cd302f77a6d9acf0077879bd",
        "dgif_lib.c egif_lib.c gifalloc.c gif_err.c gif_font.c gif_hash.c openbsd-reallocarray.c quantize.c"),
    # Without __native_client__ it has xgetbv, which is refused.
    "webp": Port(
        "libwebp_1.2.4.orig.tar.gz", "7bf5a8a28cc69bcfa8cb214f2c3095703c6b73ac5fba4d5480c205331d9494df",
        "src/dec/*.c src/enc/*.c src/dsp/*.c src/utils/*.c sharpyuv/*.c", headers=". src", flags="-DHAVE_CONFIG_H -D__native_client__"),
    "opus": Port(
        "opus_1.3.1.orig.tar.gz", "65b58e1e25b2a114157014736a3d9dfeaad8d41be1c8179866f144a2fb44ff9d",
        "src/*.c celt/*.c silk/*.c silk/fixed/*.c", "opus_compare.c opus_demo.c repacketizer_demo.c opus_custom_demo.c",
        "include celt silk silk/fixed", "-DOPUS_BUILD -DFIXED_POINT -DVAR_ARRAYS -DHAVE_LRINT -DHAVE_LRINTF"),
    "mbedtls": Port(
        "mbedtls_2.28.3.orig.tar.gz", "3b4953aa55a681e084d31892d9904cc5328d6b4958ea57b90ae4b4f94ae69a8d",
        " ".join("library/" + name for name in "aes.c asn1*.c base64.c bignum.c chacha*.c cipher*.c constant_time.c ec*.c gcm.c "
                 "hmac_drbg.c md.c oid.c pkcs5.c platform*.c poly1305.c rsa*.c sha*.c".split()),
        headers="include", flags="-DMBEDTLS_CONFIG_FILE=\"parts.h\""),
    "pcre2": Port(
        "pcre2_10.42.orig.tar.gz", "c33b418e3b936ee3153de2c61cc638e7e4fe3156022a5c77d0711bcbb9d64f1f",
        "src/pcre2_*.c src/pcre2_chartables.c.dist",
        "pcre2_dftables.c pcre2_fuzzsupport.c pcre2_jit_match.c pcre2_jit_misc.c pcre2_jit_test.c pcre2_printint.c pcre2_ucptables.c",
        "src", "-DHAVE_CONFIG_H -DPCRE2_CODE_UNIT_WIDTH=8"),
    "mujs": Port(
        "mujs_1.3.2.orig.tar.xz", "4886593fc688b0cdccd31e5ecbe5afe7ad1bee23aa69e667b871afd5dfc640c3", "js*.c regexp.c utf.c"),
    "lua": Port(
        "lua5.4_5.4.4.orig.tar.gz", "164c7849653b80ae67bec4b7473b884bf5cc8d2dca05653475ec2ed27b9ebf61", "src/l*.c", "lua.c luac.c", "src"),
}
SLICE = ("cjson", "giflib")  # those of the gate, which take seconds

# Programs that generate code. tests/compiler/generators compiles them with edits (editing.py).
GENERATORS = {
    "pcre2-jit": PORTS["pcre2"],
    "tcc": Port(
        "tcc_0.9.27+git20200814.62c30a4a.orig.tar.bz2", "d63c113bcdd657f51c8ee197a0b0a24203603313e19a52b5f678d40ab7f5df35", "tcc.c"),
}
