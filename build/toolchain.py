"""The commands of the Rattle toolchain below `rt`. Their flags are not documented and may change
with the toolchain: each is named here and nowhere else."""

import os
import shutil
import subprocess

# Each command of rt is a file of the toolchain's directory `bin`.
KIT = os.path.dirname(os.path.dirname(os.path.realpath(shutil.which("rt") or "rt")))
# what names the toolchain's release
IDENTITY = f"{KIT}/WHAT"
# what a program and a static library are linked with
C_LIBRARY = f"{KIT}/c/liblibc_c.a"
SYSTEM_LIBRARY = f"{KIT}/c/libos_c.a"

LOGIC = ["--antt-project", f"{KIT}/rattle/logic/antt-project.json"]
LOGIC += ["--logic-built", f"{KIT}/logic_built"]
TOOLS = ["--toolchain", f"{KIT}/toolchain"]
RLIBS = f"{KIT}/rlibs"


def run(directory, *words):
    """Runs a command of the toolchain. Gives whether it ended well, and what it said."""
    ran = subprocess.run(
        [f"{KIT}/bin/{words[0]}", *words[1:]], cwd=directory, errors="replace", check=False,
        stdin=subprocess.DEVNULL, stdout=subprocess.PIPE, stderr=subprocess.STDOUT,
    )
    if ran.returncode >= 0:
        return ran.returncode == 0, ran.stdout
    why = f"{words[0]} was ended by signal {-ran.returncode}; TI_JOBS=1 takes the least memory\n"
    return False, ran.stdout + why


def prove(directory, name, root, own, kept, libraries, jobs, *more):
    """Proves the crate in a directory, by further words makes something of it.

    It uses the crates `own`, whose libraries are in the directory `libraries`, and the crates
    `kept` of the toolchain. Gives what `run` gives.
    """
    words = ["--crate-name", name, f"src/{root}.rt", "--links", f"{name}=", "--jobs", str(jobs)]
    words += LOGIC
    for needs, place in ((["std", *kept], RLIBS), (own, libraries)):
        for need in needs:
            words += ["--extern", f"{need}={place}/{need}.rlib"]
    for place in (libraries, RLIBS):
        words += ["-L", f"dependency={place}"]
    return run(directory, "rattle", "build", *words, *more)


def library_words(file):
    """Further words for `prove`: they make a library of what the crate states, without proofs."""
    return ["--statements", "-o", file]


def archive_words(file):
    """Further words for `prove`: they make a static library."""
    return ["--crate-type", "staticlib", *TOOLS, "-o", file]


def object_words(file):
    """Further words for `prove`: they make the object of a program, for `link`."""
    return [*TOOLS, "-o", file]


def link(program, made, objects=()):
    """Links the object of a program, and objects that are in C after it. Gives what `run` gives."""
    words = ["--target", "x86_64-unknown-linux-gnu", *TOOLS, "-o", program, made, *objects]
    return run(os.path.dirname(program), "rattle-link", *words, SYSTEM_LIBRARY, C_LIBRARY)
