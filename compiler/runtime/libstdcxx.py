"""Builds libstdc++ for the sandbox by its own configure and make, with the nc-cc of an installation that has a C library already, and the
unwinder of libgcc."""

from __future__ import annotations

import glob
import lzma
import os
import subprocess
import tarfile

from making import HERE, Fault, extract, found, run

UNWINDER = os.path.join(HERE, "unwinder")
TARGET = "i686-linux-musl"
# Of gcc's sources, what the library's build reads.
FOLDERS = ("config", "include", "libgcc", "libiberty", "libstdc++-v3")
FILES = ("gcc/BASE-VER", "gcc/DATESTAMP", "libstdc++-v3/doc/xsl/customization.xsl.in")
LEFT_OUT = ("libstdc++-v3/doc/", "libstdc++-v3/testsuite/")  # but for what is in these themselves
# The compiler of the library, which sees no header of the system's library.
CXX = ["-nostdinc++", "-fexceptions", "-frtti", "-fuse-cxa-atexit"]
CONFIGURE = ["--host=" + TARGET, "--disable-shared", "--disable-multilib", "--disable-nls", "--disable-tls", "--disable-libstdcxx-pch",
             "--disable-libstdcxx-filesystem-ts", "--enable-clocale=generic", "ac_cv_x86_rdrand=no", "ac_cv_x86_rdseed=no", "CC=nc-cc",
             "CFLAGS=-O2", "CXXFLAGS=-O2"]
# Of libgcc, what unwinds; headers of gcc's own build that it names, and of which tsystem.h has all that it wants; and its flags.
UNWINDING = ("unwind-dw2.c", "unwind-c.c")
HEADERS = {**dict.fromkeys(("auto-target.h", "coretypes.h", "libgcc_tm.h", "md-unwind-support.h", "tconfig.h", "tm.h"), ""),
           "gthr-default.h": '#include "gthr-single.h"\n', "unwind.h": '#include "unwind-generic.h"\n'}
UNWINDER_FLAGS = ["-c", "-O2", "-w", "-std=gnu11", "-fexceptions"]
# The library's licence, with its exception for programs.
LICENCES = ("COPYING3", "COPYING.RUNTIME")
# All of Reedbodkin's own that the library is made of, besides nc-cc.
PARTS_OF_IT = [os.path.abspath(__file__), *sorted(glob.glob(os.path.join(UNWINDER, "*")))]


def is_wanted(name: str) -> bool:
    """Whether a file of gcc's archive is one that the build reads, by its path below the archive's folder."""
    inner = name.partition("/")[2]
    within = next((inner[len(folder):] for folder in LEFT_OUT if inner.startswith(folder)), "")
    return inner in FILES or inner.partition("/")[0] in FOLDERS and "/" not in within or "/" not in inner


def unpacked(path: str, folder: str) -> str:
    """The folder with gcc's sources: `path`, or what an archive of Debian's has in the archive of gcc's within it."""
    if os.path.isdir(path):
        return path if os.path.isdir(os.path.join(path, "libstdc++-v3")) else found(path, "gcc-12.*")
    with tarfile.open(path) as outer:
        inner = next((entry for entry in outer if entry.name.endswith(".tar.xz") and "/gcc-" in entry.name), None)
        if inner is None:
            raise Fault("%s has no gcc-*.tar.xz in it" % path)
        with tarfile.open(fileobj=outer.extractfile(inner), mode="r|xz") as archive:
            extract(archive, folder, (entry for entry in archive if entry.isfile() and is_wanted(entry.name)))
    return found(folder, "gcc-12.*")


def step(words: list[str], folder: str, bin_folder: str) -> None:
    """Does one step of the build, which keeps what it says in the file `log`."""
    env = {**os.environ, "PATH": bin_folder + os.pathsep + os.environ["PATH"], "NC_CC": "gcc"}
    with open(os.path.join(folder, "log"), "a+", encoding="utf-8", errors="replace") as log:
        status = subprocess.run(words, cwd=folder, env=env, stdin=subprocess.DEVNULL, stdout=log, stderr=log).returncode
        if status:
            log.seek(0)
            raise Fault("libstdc++: %s ended with status %d: %s" % (words[0], status, log.read()[-2000:]))


def build(gcc: str, made: str, bin_folder: str, jobs: int) -> None:
    """Configures, compiles and installs the library below `made`, in the folders that gcc's own build has."""
    folder, there = os.path.join(made, "libstdc++-v3"), os.path.join(made, "there")
    for place in (folder, os.path.join(made, "libgcc")):
        os.makedirs(place)
    os.symlink(os.path.join(gcc, "libgcc", "gthr-posix.h"), os.path.join(made, "libgcc", "gthr-default.h"))
    where = ["--prefix=" + there, "--with-gxx-include-dir=" + os.path.join(there, "include")]
    print("libstdc++: configure, some minutes", flush=True)
    step([os.path.join(gcc, "libstdc++-v3", "configure"), *CONFIGURE, *where, "CXX=" + " ".join(["nc-c++", *CXX])], folder, bin_folder)
    print("libstdc++: make -j%d, some minutes" % jobs, flush=True)
    step(["make", "-j%d" % jobs], folder, bin_folder)
    step(["make", "install"], folder, bin_folder)


def unwinder(gcc: str, made: str, bin_folder: str) -> list[str]:
    """The objects of the unwinder."""
    folder = os.path.join(made, "unwinder")
    os.makedirs(folder)
    for name, text in HEADERS.items():
        with open(os.path.join(folder, name), "w", encoding="ascii") as file:
            file.write(text)
    libgcc = os.path.join(gcc, "libgcc")
    including = ["-I" + place for place in (folder, UNWINDER, libgcc, os.path.join(gcc, "include"))]
    sources = [*(os.path.join(libgcc, name) for name in UNWINDING), *sorted(glob.glob(os.path.join(UNWINDER, "*.c")))]
    run([os.path.join(bin_folder, "nc-cc"), *UNWINDER_FLAGS, *including, *sources], cwd=folder)
    return sorted(glob.glob(os.path.join(folder, "*.o")))


def library(sources: str, made: str, bin_folder: str) -> dict[str, bytes]:
    """The files of libstdc++ by their names, made of gcc's sources, a folder or an archive. The build is below the folder `made`."""
    try:
        gcc = unpacked(os.path.abspath(sources), os.path.join(made, "sources"))
    except (OSError, tarfile.TarError, lzma.LZMAError) as fault:
        raise Fault("%s: %s" % (sources, fault)) from None
    build(gcc, made, bin_folder, os.cpu_count() or 1)
    archive, there = (os.path.join(made, "there", name) for name in ("lib/libstdc++.a", "include"))
    run(["ar", "rcsD", archive, *unwinder(gcc, made, bin_folder)])
    paths = {"libstdc++.a": archive}
    paths.update({"c++/" + name: os.path.join(gcc, name) for name in LICENCES})
    paths.update({"c++/include/" + os.path.relpath(path, there): path for path in glob.glob(os.path.join(there, "**"), recursive=True)
                  if os.path.isfile(path)})
    files = {}
    for name, path in paths.items():
        with open(path, "rb") as file:
            files[name] = file.read()
    return files
