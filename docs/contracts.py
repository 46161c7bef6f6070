#!/usr/bin/env python3
"""Writes CONTRACTS.md from the sources: what each crate promises.

    docs/contracts.py [DIRECTORY]    into a directory, or out/docs/
    docs/contracts.py --check        writes nothing, and fails if a public item has no comment

For each crate of crates.txt, but for those of tests and development: the `//!` head of its root
file, and then each public item in the order of the modules, with its `///` comment, its signature
and the clauses of its contract. The table of named mistakes, by docs/mistakes.py, comes last.
"""

import os
import re
import sys

import mistakes
from common import Tally
from definitions import DIRECTORY, exported, lines_of
from crates import head_of, read_crates, root_of
from repository import files_below

PAGE = "CONTRACTS.md"
HEAD = """# Contracts

What each crate promises: the head of its root file, and its public items with their contracts.
`make docs` lists them from the sources.

- The caller of a function shows each `requires`; the function shows each `ensures`. A law is a
  function without code: its `ensures` holds of the definitions.
- A name before a clause is its label. Words in a clause are definitions: DEFINITIONS.md has the
  file, the meaning and the section of the manual of each.
- "Out of memory", an `AllocError` or a variant `Memory`, is the last of all refusals. It leaves a
  table, an image, variables and a database as they were; of other values only what a clause or a
  comment says is known then. That it is returned only if a growth of memory was refused is so by
  the code, and in no clause.
- The kinds `Kind::Flag`, `Kind::Number` and `Kind::Text` are booleans, numbers and strings.
"""
ITEM = re.compile(
    r'^( {4})?(?:pub )?(?:const )?(?:unsafe )?(?:extern "C" )?(fn|struct|enum|trait|const|static|type) (\w+)'
)
BLOCK = re.compile(r"^(?:unsafe )?(?:impl\b|(?:pub(?:\(crate\))? )?trait (\w+))(.*)")
# where the contract of a function ends: at its body, or at the end of what has none
END = re.compile(r"^ {0,4}\{|[;{]$|\{\}$")


class Item:
    """One public item: its name, its comment, and the lines of its signature and contract."""

    def __init__(self, name, comment, lines):
        self.name, self.comment, self.lines = name, comment, lines


def doc_lines(lines, at, sign):
    """The lines of the comment above a line, without its sign; attributes between are left out."""
    found, at = [], at - 1
    while at >= 0 and re.match(r"\s*(#\[|#!\[|//)", lines[at]):
        text = lines[at].strip()
        if text.startswith(sign):
            found.append(text[len(sign):].removeprefix(" "))
        at -= 1
    return found[::-1]


def own_lines(lines, at, kind):
    """The lines of a definition from its first on: of a function its signature and clauses, of a
    type its public fields or its variants, with their comments."""
    if kind in ("fn", "const", "static", "type"):
        found = []
        for line in lines[at:]:
            if found and re.match(r"^ {0,4}\{", line):
                break
            found.append(line)
            if END.search(line):
                found[-1] = re.sub(r" = .*$| ?\{\}?$", "", line) if kind != "fn" else re.sub(r" ?\{\}?$", "", line)
                break
        return found
    if kind == "trait" or re.search(r"[;}]$", lines[at]):
        return [re.sub(r" ?\{$", "", lines[at])]
    end = next(i for i in range(at, len(lines)) if re.match(r"^\}|^\);", lines[i]))
    body = [line for line in lines[at + 1 : end] if not re.match(r"\s*(#\[|//(?!/)|ghost )", line)]
    if kind == "enum":
        return [lines[at], *body, lines[end]]
    shown = public_fields(body)
    return [lines[at], *shown, lines[end]] if shown else [f"{lines[at].rstrip(' {(')} {{ .. }}"]


def public_fields(body):
    """The public fields of a struct, each with its comment."""
    found, comment = [], []
    for line in body:
        if re.match(r"\s*///", line):
            comment.append(line)
        else:
            found += [*comment, line] if line.startswith("    pub ") else []
            comment = []
    return found


def items_of(path, public):
    """The public items of a file, in its order; methods have the name of their type in front."""
    text = "\n".join(lines_of(path))
    lines = re.split(r"^#\[cfg\(test\)\]\n(?:#.*\n)*mod \w+ \{", text, flags=re.M)[0].split("\n")
    owner, is_open = "", False
    for at, line in enumerate(lines):
        block = BLOCK.match(line)
        if block:
            of = re.search(r"(?:for )?(\w+)(?:<[^>]*>)?\s*$", re.sub(r"( where.*)?\{?$", "", block[2]).strip())
            owner = block[1] or (of[1] if of else "")
            # those of a trait are public where it is; its implementations keep its contracts
            is_open = bool(block[1])
        item = ITEM.match(line)
        if not item or (not line.lstrip().startswith("pub ") and not (item[1] and is_open)):
            continue
        name = f"{owner}::{item[3]}" if item[1] else item[3]
        if (owner if item[1] else item[3]) in public:
            shown = own_lines(lines, at, item[2])
            cut = len(item[1] or "")
            yield Item(name, doc_lines(lines, at, "///"), [row[cut:] if not row[:cut].strip() else row for row in shown])


def modules_of(source, root):
    """The files of a crate's code in the order in which its root file names them."""
    names = re.findall(r"^(?:pub )?mod (\w+);", root, re.M)
    every = [path for path in files_below(source) if path.endswith(".rt")]
    first = lambda path: re.split(r"[/.]", path)[0]
    order = {name: at for at, name in enumerate(["lib", *names])}
    return sorted((path for path in every if first(path) in order), key=lambda path: order[first(path)])


def section(crate):
    """What the page says of a crate, and the items that have no comment."""
    out, silent = [f"## {crate}", "", *head_of(crate), ""], []
    root = root_of(crate)
    if root.endswith("main.rt"):
        return out, silent
    public, source = exported(crate), os.path.dirname(root)
    for path in modules_of(source, "\n".join(lines_of(root))):
        for item in items_of(os.path.join(source, path), public):
            comment = [re.sub(r"^# (\w+)$", r"**\1**\n", row) for row in item.comment]
            out += [f"### `{item.name}`", "", *comment, "", "```rust", *item.lines, "```", ""]
            silent += [] if item.comment else [f"{crate}: `{item.name}` has no comment"]
    return out, silent


def page():
    """The page, and the items that have no comment."""
    crates = [crate for crate in read_crates().values() if crate.group not in ("test_", "dev_")]
    out, silent = [HEAD], []
    for crate in crates:
        rows, without = section(crate.name)
        out += rows
        silent += without
    out += ["## Named mistakes", "", mistakes.HEAD_OF_TABLE, mistakes.table()]
    return re.sub(r"\n{3,}", "\n\n", "\n".join(out)).rstrip() + "\n", silent


def main():
    text, silent = page()
    if "--check" in sys.argv[1:]:
        tally = Tally("contracts")
        tally.add("comments", silent)
        return tally.close()
    directory = sys.argv[1] if len(sys.argv) > 1 else DIRECTORY
    os.makedirs(directory, exist_ok=True)
    with open(os.path.join(directory, PAGE), "w", encoding="utf-8") as file:
        file.write(text)
    return 0


if __name__ == "__main__":
    sys.exit(main())
