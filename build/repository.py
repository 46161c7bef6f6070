"""The files of the repository, for every script: where they are, and how they are read."""

import os

TOP = os.path.dirname(os.path.dirname(os.path.abspath(__file__)))
# the directories in which systems have terminfo entries
ENTRY_DIRECTORIES = ("/etc/terminfo", "/lib/terminfo", "/usr/share/terminfo")


def program_of(crate):
    """The program that the gate, or a build, has made of a crate."""
    return os.path.join(TOP, "crates", crate, "out", crate)


# what a view of libti shows of files, for the tests: `make probe`
PROBE = os.path.join(TOP, "crates", "ti_c", "out", "probe")


def text_of(*parts):
    """The text of a file of the repository."""
    with open(os.path.join(TOP, *parts), encoding="utf-8") as file:
        return file.read()


def files_below(directory):
    """The paths of all files below a directory, relative to it, in order."""
    found = []
    for at, _, names in os.walk(directory):
        found += [os.path.relpath(os.path.join(at, name), directory) for name in names]
    return sorted(found)


def entry_file(name):
    """The file of a terminal in the first of the system's directories that has it, or None."""
    paths = (os.path.join(directory, name[0], name) for directory in ENTRY_DIRECTORIES)
    return next((path for path in paths if os.path.exists(path)), None)
