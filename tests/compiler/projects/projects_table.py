"""The projects that tests/compiler/projects builds: where their sources come from, what is linked, and what is in the way of some.

recipes/NAME.sh says how a shell builds one, and what it prints then as its test.
"""

from __future__ import annotations

from typing import NamedTuple


class Project(NamedTuple):
    """An archive of Debian 12 with its SHA-256, what is linked in its only folder, its languages, and whether its test is the project's own
    and tells by its status whether all is right. Otherwise what it prints is compared with what it prints natively. `known` tells what is
    in the way of a project that doesn't come through."""

    archive: str
    sum: str
    linked: str
    languages: str = "C"
    is_own: bool = False
    known: str = ""

    def version(self) -> str:
        return self.archive.partition("_")[2].partition(".orig")[0].partition("+")[0]


PROJECTS = {
    "bc": Project(
        "bc_1.07.1.orig.tar.gz", "62adfca89b0a1c0164c2cdca59ca210c1d44c3ffc46daf9931cf4942664cb02a",
        "bc/bc dc/dc"),
    "cmark": Project(
        "cmark_0.30.2.orig.tar.gz", "6c7d2bcaea1433d977d8fed0b55b71c9d045a7cdf616e3cd2dce9007da753db3",
        "build/src/cmark", is_own=True),
    "diffutils": Project(
        "diffutils_3.8.orig.tar.xz", "a6bdd7d1b31266d11c4f4de6c1b748d4607ab0231af5188fc2533d0ae2438fec",
        "src/diff src/cmp"),
    "double-conversion": Project(
        "double-conversion_3.2.1.orig.tar.gz", "e40d236343cad807e83d192265f139481c51fc83a1c49e406ac6ce0a0ba7cd35",
        "build/test/cctest/cctest", "C++", is_own=True),
    "duktape": Project(
        "duktape_2.7.0.orig.tar.xz", "90f8d2fa8b5567c6899830ddef2c03f3c27960b11aca222fa17aa7ac613c2890",
        "duk"),
    "flac": Project(
        "flac_1.4.2+ds.orig.tar.xz", "47274ac8fcb1f0e6caa91d29f943925d7a40c0a3f6357c3275773bdb1ee46638",
        "src/flac/flac src/metaflac/metaflac src/test_libFLAC/test_libFLAC src/test_libFLAC++/test_libFLAC++", "C, C++"),
    "gawk": Project(
        "gawk_5.2.1.orig.tar.xz", "2337a0283b180ec1b9c727973a34781c6478b3ae9bcbdcca0a4dc49861d75a65",
        "gawk"),
    "grep": Project(
        "grep_3.8.orig.tar.xz", "498d7cc1b4fb081904d87343febb73475cf771e424fb7e6141aff66013abc382",
        "src/grep"),
    "gzip": Project(
        "gzip_1.12.orig.tar.xz", "ce5e03e519f637e1f814011ace35c4f87b33c0bbabeec35baf5fbd3479e91956",
        "gzip"),
    "jq": Project(
        "jq_1.6.orig.tar.gz", "3ba940b97571c866923f0409678033d33b5a98758dfc174fad8397ed908bc4d9",
        "jq", is_own=True),
    "libdeflate": Project(
        "libdeflate_1.14.orig.tar.gz", "89e7df898c37c3427b0f39aadcf733731321a278771d20fc553f92da8d4808ac",
        "gzip"),
    "libjpeg-turbo": Project(
        "libjpeg-turbo_2.1.5.orig.tar.gz", "254f3642b04e309fee775123133c6464181addc150499561020312ec61c1bf7c",
        "build/cjpeg-static build/djpeg-static build/jpegtran-static build/tjunittest-static build/tjbench-static", is_own=True),
    "libogg": Project(
        "libogg_1.3.5.orig.tar.xz", "c4d91be36fc8e54deae7575241e03f4211eb102afb3fc0775fbbc1b740016705",
        "src/test_bitwise src/test_framing", is_own=True),
    "libsodium": Project(
        "libsodium_1.0.18.orig.tar.gz", "d59323c6b712a1519a5daf710b68f5e7fde57040845ffec53850911f10a5d4f4",
        "test/default/sign test/default/box test/default/pwhash_argon2id", is_own=True,
        known="its configure finds SSE2, since the code that tests for it is optimized away"),
    "libtomcrypt": Project(
        "libtomcrypt_1.18.2.orig.tar.xz", "96ad4c3b8336050993c5bc2cf6c057484f2b0f9f763448151567fbab5e767b84",
        "test", is_own=True),
    "libtommath": Project(
        "libtommath_1.2.0.orig.tar.xz", "b7c75eecf680219484055fcedd686064409254ae44bc31a96c5032843c0e18b1",
        "test", is_own=True),
    "libxml2": Project(
        "libxml2_2.9.14+dfsg.orig.tar.xz", "4fe913dec8b1ab89d13b489b419a8203176ea39e931eaa0d25b17eafb9c279e9",
        "xmllint"),
    "lua": Project(
        "lua5.4_5.4.4.orig.tar.gz", "164c7849653b80ae67bec4b7473b884bf5cc8d2dca05653475ec2ed27b9ebf61",
        "src/lua src/luac"),
    "mawk": Project(
        "mawk_1.3.4.20200120.orig.tar.gz", "7fd4cd1e1fae9290fe089171181bbc6291dfd9bca939ca804f0ddb851c8b8237",
        "mawk"),
    "md4c": Project(
        "md4c_0.4.8.orig.tar.gz", "4a457df853425b6bb6e3457aa1d1a13bccec587a04c38c622b1013a0da41439f",
        "build/md2html/md2html", is_own=True),
    "openjpeg": Project(
        "openjpeg2_2.5.0.orig.tar.xz", "007e19d772c8b6b22e35379630b06ff3549e49ba719d96453607a36ad7b4de73",
        "build/bin/opj_compress build/bin/opj_decompress build/bin/opj_dump"),
    "pforth": Project(
        "pforth_2.0.1.orig.tar.gz", "f4c417d7d1f2c187716263484bdc534d3224b6d159e049d00828a89fa5d6894d",
        "platforms/unix/pforth"),
    "pugixml": Project(
        "pugixml_1.13.orig.tar.gz", "5c5ad5d7caeb791420408042a7d88c2c6180781bf218feca259fd9d840a888e1",
        "build/pugixml-check", "C++", is_own=True),
    "sed": Project(
        "sed_4.9.orig.tar.xz", "6e226b732e1cd739464ad6862bd1a1aba42d7982922da7a53519631d24975181",
        "sed/sed"),
    "tiff": Project(
        "tiff_4.5.0.orig.tar.bz2", "638f43d7dea33948d5dee7f39572fc0194d9cc3c74195de9dd26a4388a1f880a",
        "tools/tiffcp tools/tiffinfo tools/tiff2pdf test/ascii_tag test/rewrite", "C, C++"),
    "tinyscheme": Project(
        "tinyscheme_1.42.svn.2020.06.04.orig.tar.xz", "95d1a25e4e8427bbd47a737b112a07f472224ea9ba59d682659450b61c476356",
        "scheme"),
    "tinyxml2": Project(
        "tinyxml2_9.0.0+dfsg.orig.tar.xz", "96510f47a5db537f70dff3e83dd71fd2180cbba4aa76c589a549467e7f34bc9b",
        "build/xmltest", "C++", is_own=True),
    "utf8proc": Project(
        "utf8proc_2.8.0.orig.tar.gz", "a0a60a79fe6f6d54e7d411facbfcc867a6e198608f2cd992490e46f04b1bcecc",
        "test/valid test/iterate test/custom test/misc test/printproperty test/graphemetest"),
    "xz": Project(
        "xz-utils_5.4.1.orig.tar.xz", "5d9827aa1875b21c288f78864bb26d2650b436ea8d2cad364e4921eb6266a5a5",
        "src/xz/xz src/xzdec/xzdec"),
    "yaml-cpp": Project(
        "yaml-cpp_0.7.0+dfsg.orig.tar.xz", "dc63708605404e0b963e0ca3a9619d1c8270eda2839603e6fa0384e5e51e5312",
        "build/util/parse build/util/read", "C++"),
    "zopfli": Project(
        "zopfli_1.0.3.orig.tar.gz", "e955a7739f71af37ef3349c4fa141c648e8775bceb2195be07e86f8e638814bd",
        "zopfli zopflipng", "C, C++"),
    "zstd": Project(
        "libzstd_1.5.4+dfsg2.orig.tar.xz", "8cf4bbb65e77ec348d052c8d6230eba66d435bddf64c8b5be2fcb16880c19953",
        "programs/zstd"),
}
SLICE = ("lua", "md4c")  # those of the gate
