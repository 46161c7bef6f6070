#!/usr/bin/env python3
"""The crates of crates.txt as a Mermaid picture, a box for each layer; and as a table: the names, and
what each holds by the head of its root file, up to the first `:`, `,`, `.` or bracket. Programs,
and crates of tests and for development, are not in the table.

    build/crates_picture.py            prints the picture and the table
    build/crates_picture.py --write    puts them into docs/ARCHITECTURE.md
    build/crates_picture.py --check    fails unless that page has these

An arrow leads from a layer to one that a crate of it depends on. An arrow that follows from others is
left out, and so are the libraries of the toolchain.
"""

import os
import re
import sys

from crates import all_below, head_of, read_crates
from repository import TOP

PAGE = os.path.join(TOP, "docs", "ARCHITECTURE.md")
PICTURE = re.compile(r"```mermaid\n.*?```\n", re.S)
TABLE = re.compile(r"^\| Crate \| Holds \|\n(?:\|.*\n)*", re.M)
# the layers whose crates are not in the table
UNLISTED = ("programs", "tests", "development")


def layers_of(crates):
    """The layers in the order of crates.txt, each with the names of its crates."""
    layers = {}
    for crate in crates.values():
        layers.setdefault(crate.layer, []).append(crate.name)
    return layers


def arrows(crates, layers):
    """Pairs of layers: the first needs the second, and none of the others that it needs does."""
    needs = {
        layer: {crates[below].layer for name in names for below in all_below(crates, name)} - {layer}
        for layer, names in layers.items()
    }
    for layer, below in needs.items():
        for other in [name for name in layers if name in below]:
            if not any(other in needs[between] for between in below - {other}):
                yield layer, other


def label(crates, names):
    """The text of a box: its crates, and `PREFIX_*` for those of a prefix of which it has most."""
    groups, parts = {}, []
    for name in names:
        groups.setdefault(crates[name].group, []).append(name)
    for group, own in groups.items():
        of_group = [crate for crate in crates.values() if crate.group == group]
        parts += [f"{group}*"] if group != "ti_" and 2 * len(own) > len(of_group) > 1 else own
    return ", ".join(parts)


def picture():
    crates = read_crates()
    layers = layers_of(crates)
    boxes = {layer: layer.replace("-", "_") for layer in layers}
    lines = ["```mermaid", "flowchart TD"]
    lines += [f'    {boxes[layer]}["{layer}: {label(crates, names)}"]' for layer, names in layers.items()]
    lines += [f"    {boxes[layer]} --> {boxes[other]}" for layer, other in arrows(crates, layers)]
    return "\n".join([*lines, "```"]) + "\n"


def held(name):
    """What a crate holds, in a few words."""
    return re.split(r"[:;,.](?:\s|$)| \(", " ".join(head_of(name)))[0]


def table():
    rows = [f"| `{name}` | {held(name)} |" for name, crate in read_crates().items() if crate.layer not in UNLISTED]
    return "\n".join(["| Crate | Holds |", "|---|---|", *rows]) + "\n"


def main():
    wanted = {PICTURE: picture(), TABLE: table()}
    if sys.argv[1:] == []:
        print("\n".join(wanted.values()), end="")
        return 0
    with open(PAGE, encoding="utf-8") as file:
        page = file.read()
    if sys.argv[1:] == ["--write"]:
        for part, text in wanted.items():
            page = part.sub(lambda _: text, page, count=1)
        with open(PAGE, "w", encoding="utf-8") as file:
            file.write(page)
        return 0
    if sys.argv[1:] == ["--check"]:
        if all(part.findall(page) == [text] for part, text in wanted.items()):
            return 0
        print("docs/ARCHITECTURE.md is out of date: run build/crates_picture.py --write")
        return 1
    print(__doc__)
    return 2


if __name__ == "__main__":
    sys.exit(main())
