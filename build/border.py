"""What is in C of a program in Rattle: it is compiled here, and linked after the proved object."""

import os
import subprocess

from repository import TOP

# what of a program is in C, by the name of its crate
FILES = {"ti_everyday": [f"{TOP}/window/window.c", f"{TOP}/window/modes.c"]}
FLAGS = [
    "-std=gnu99", "-O2", "-fPIC", "-fvisibility=hidden", "-Wall", "-Wextra", "-Wpedantic", "-Wshadow",
    "-Wformat=2", "-Werror=format-security", "-fstack-protector-strong", "-fstack-clash-protection",
    "-D_FORTIFY_SOURCE=2",
]


def compiler():
    """The C compiler."""
    return os.environ.get("CC") or "cc"


def files_in_c(name):
    """What of a program is in C."""
    return FILES.get(name, [])


def compile_objects(name, directory):
    """Compiles what of a program is in C. Gives the objects, or None if that fails, and what was
    said."""
    objects, said = [], ""
    for file in files_in_c(name):
        made = os.path.join(directory, f"{os.path.basename(file)}.o")
        # the name of the file, and not its path, so that each checkout builds the same bytes
        words = [compiler(), *FLAGS, "-c", os.path.basename(file), "-o", made]
        try:
            ran = subprocess.run(
                words, cwd=os.path.dirname(file), errors="replace", check=False,
                stdin=subprocess.DEVNULL, stdout=subprocess.PIPE, stderr=subprocess.STDOUT,
            )
        except OSError as error:
            return None, f"{error}: make sets the C compiler by CC\n"
        if ran.returncode:
            return None, ran.stdout
        objects.append(made)
        said += ran.stdout
    return objects, said
