#!/usr/bin/env python3
"""Makes the C library of the repository: `make library` runs it.

    build/library.py [DIRECTORY]       puts libti.a and libti.so.2 there; crates/ti_c/out/lib, if
                                       none is named

It proves and compiles the crate ti_c, unless nothing that it is made from has changed, and joins
its archive, the toolchain's three functions over malloc and include/ti.c to one object in which
`ti_..` alone is visible. It uses the C compiler that CC names, or cc, and ld, objcopy and ar.
"""

import os
import shutil
import subprocess
import sys
import tempfile

import toolchain
from border import compiler
from build import build_if_changed, place_of, tell
from crates import read_crates
from repository import TOP

SONAME = "libti.so.2"
FLAGS = [
    "-std=c99", "-O2", "-fPIC", "-fvisibility=default", "-Wall", "-Wextra", "-Wpedantic",
    "-fstack-protector-strong", "-fstack-clash-protection",
]
SHARED = [
    "-shared", f"-Wl,-soname,{SONAME}", f"-Wl,--version-script={TOP}/include/ti.map", "-Wl,-z,defs", "-Wl,-z,text",
    "-Wl,-z,relro", "-Wl,-z,now", "-Wl,-z,noexecstack",
]


def make(archive, directory, flags=(), names=("libti.a", SONAME)):
    """Makes the libraries named from the archive of the crate; `flags` are for include/ti.c."""
    os.makedirs(directory, exist_ok=True)
    with tempfile.TemporaryDirectory() as room:
        run = lambda *words: subprocess.run(words, cwd=room, check=True)
        run(compiler(), *FLAGS, *flags, "-I", f"{TOP}/include", "-c", f"{TOP}/include/ti.c", "-o", "c.o")
        whole = [os.path.abspath(archive), toolchain.C_LIBRARY]
        run("ld", "-r", "-o", "ti.o", "c.o", "--whole-archive", *whole, "--no-whole-archive")
        run("objcopy", "--wildcard", "--keep-global-symbol=ti_*", "ti.o")
        run("ar", "rcsD", "libti.a", "ti.o")
        if SONAME in names:
            run(compiler(), *SHARED, "-o", SONAME, "ti.o")
        for name in names:
            shutil.copy(f"{room}/{name}", f"{directory}/{name}.new")
            os.replace(f"{directory}/{name}.new", f"{directory}/{name}")


def main():
    status = build_if_changed("ti_c")
    if status:
        return status
    archive = place_of(read_crates()["ti_c"])
    directory = os.path.abspath(sys.argv[1]) if len(sys.argv) > 1 else f"{os.path.dirname(archive)}/lib"
    try:
        make(archive, directory)
    except (OSError, subprocess.CalledProcessError) as error:
        tell(f"the C library was not made: {error}")
        return 1
    return 0


if __name__ == "__main__":
    try:
        sys.exit(main())
    except KeyboardInterrupt:
        sys.exit(130)
