"""The crates of the repository as crates.txt lists them: the one reader of that file.

    build/crates.py        prints each crate, its layer and what it depends on
    build/crates.py --check  fails unless each crate depends only on crates above it

A line is `NAME: DEPENDENCY ..`; between the name and the colon a line may have the word
`staticlib` (a static library) and words `KEY=VALUE`. A comment line `# LAYER: WHAT IT HOLDS`
begins a layer. A crate depends only on crates above its own line, so that a layer never
leans on one below it: whoever reads the file refuses anything else.
"""

import os
import re
import sys

from repository import TOP

LAYER = re.compile(r"# ([a-z-]+): (.+)")


class Crate:
    """One crate: its name, its layer, the prefix of its name, what it depends on, and whether it is
    a static library."""

    def __init__(self, name, layer, needs, is_static):
        self.name, self.layer, self.needs, self.is_static = name, layer, needs, is_static
        self.group = name.partition("_")[0] + "_"


def read_lines(lines):
    """The crates by name, in the order of these lines of crates.txt."""
    crates, layer = {}, ""
    for line in lines:
        begins = LAYER.match(line)
        if begins:
            layer = begins[1]
        text = line.partition("#")[0]
        head, colon, needs = text.partition(":")
        if colon:
            name, *words = head.split()
            crates[name] = Crate(name, layer, needs.split(), "staticlib" in words)
    refuse_leaning(crates)
    return crates


def refuse_leaning(crates):
    """Stops if a crate depends on one that is not above it."""
    above = set()
    for crate in crates.values():
        for need in crate.needs:
            if need in crates and need not in above:
                raise SystemExit(f"crates.txt: {crate.name} depends on {need}, which is not above it")
        above.add(crate.name)


def read_crates(top=TOP):
    """The crates by name, in the order of the file."""
    with open(os.path.join(top, "crates.txt"), encoding="utf-8") as file:
        return read_lines(file)


def direct_needs(crates, name):
    """The crates of the repository that one depends on by its own line."""
    return [need for need in crates[name].needs if need in crates]


def all_below(crates, name):
    """The crates of the repository that one depends on, each after its own dependencies."""
    found = {}

    def visit(crate):
        for need in direct_needs(crates, crate):
            if need not in found:
                visit(need)
                found[need] = None

    visit(name)
    return list(found)


def files_of(name, top=TOP):
    """The sources, definitions and proofs that a crate is made from, in a fixed order."""
    found = []
    for part in ("src", "specs", "proofs"):
        for directory, _, files in os.walk(os.path.join(top, "crates", name, part)):
            found += [os.path.join(directory, file) for file in files]
    return sorted(found)


def root_of(name, top=TOP):
    """The root file of a crate: of a library, or of a program."""
    paths = [os.path.join(top, "crates", name, "src", file) for file in ("lib.rt", "main.rt")]
    return next(path for path in paths if os.path.isfile(path))


def head_of(name, top=TOP):
    """The lines of the `//!` comment at the top of a crate's root file."""
    found = []
    with open(root_of(name, top), encoding="utf-8") as file:
        for line in file:
            if not line.startswith("//!"):
                break
            found.append(line[3:].removeprefix(" ").rstrip())
    return found


if __name__ == "__main__":
    for crate in read_crates().values():
        kind = " (static library)" if crate.is_static else ""
        if "--check" not in sys.argv[1:]:
            print(f"{crate.layer:12} {crate.name}{kind}: {' '.join(crate.needs)}")
