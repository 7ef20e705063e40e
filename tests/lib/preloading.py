"""Libraries for LD_PRELOAD, from files of C beside this one."""

import os
import subprocess

from repository import TOP


def library(folder: str, name: str) -> str:
    """The shared library from the file of C of this name, in a folder."""
    path = os.path.join(folder, name + ".so")
    source = os.path.join(TOP, "tests", "lib", name + ".c")
    subprocess.run(["cc", "-O1", "-Wall", "-Werror", "-shared", "-fPIC", "-o", path, source], check=True)
    return path
