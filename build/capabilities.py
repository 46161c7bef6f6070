#!/usr/bin/env python3
"""Every list of capabilities of the repository, made from build/capabilities.tsv.

    build/capabilities.py --write    writes them into the repository
    build/capabilities.py --check    fails unless the repository has them as they follow

Of ti_caps it writes the names of a kind (tables.rt, specs/Names.antt). BY_NAME is every capability in
the order of the bytes of its name, by its number: booleans, numbers and strings are counted as one
list. KEYS has the key of each of these names: its first eight bytes as one number. FLAGS_BY_NAME,
NUMBERS_BY_NAME and TEXTS_BY_NAME are the indexes of one kind, in the order of the bytes of the names.

Of ti_names it writes the variables and codes (variable_tables.rt and code_tables.rt,
specs/Variables.antt and specs/Codes.antt). There FLAG_KEYS, NUMBER_KEYS and TEXT_KEYS are the keys of the words of a kind in
rising order: their bytes as the digits of a number to the base 257, modulo 2 ^ 32. FLAG_PLACES,
NUMBER_PLACES and TEXT_PLACES have, in the same order, the index of the word of each key: the last one
if two capabilities have the word.

It also writes the rows of source_descriptions, the numbers of parameters of source_block_hints,
include/ti_names.h, and the lists of the completions.
"""

import os
import re
import sys
import textwrap
from typing import NamedTuple

from repository import TOP, text_of

DATA = os.path.join(TOP, "build", "capabilities.tsv")
# for each kind its word in the names of tables, of lists and of definitions, and in ti.h
KINDS = {
    "boolean": ("FLAG", "FLAGS", "flag", "TI_FLAG"), "number": ("NUMBER", "NUMBERS", "number", "TI_NUMBER"),
    "string": ("TEXT", "TEXTS", "text", "TI_STRING"),
}
KEY_BYTES = 8
# the width to which `rt fmt` fills the lines of a table of short items, and that of other lists
WIDTH, LIST_WIDTH = 99, 100
INDENT = "    "
# the width of the lines of names in completions for bash and zsh, and in those for fish
SHELL_WIDTH, FISH_WIDTH = 87, 83
# in how many parts source_descriptions has its rows of strings
PARTS = 6
HEADER = """\
/*
 * A constant for each capability, for ti_flag_at, ti_number_at and ti_string_at: TI_ and its name
 * in capitals, with a `_` where its letters first change between lower and upper case, as TI_K_BEG
 * for kBEG. The comments have the name, and the variable of X/Open Curses.
 *
 * Written by build/capabilities.py.
 */
#ifndef TI_NAMES_H
#define TI_NAMES_H

#include "ti.h"
"""


class Capability(NamedTuple):
    """A row of the data."""

    kind: str
    name: str
    variable: str
    code: str
    count: str
    parameters: str
    sentence: str


def read_capabilities():
    """The capabilities of each kind, in the order of the compiled entry."""
    with open(DATA, encoding="utf-8") as file:
        rows = [Capability(*line.rstrip("\n").split("\t")) for line in file if not line.startswith("#")]
    return {kind: [row for row in rows if row.kind == kind] for kind in KINDS}


# ---- the forms of lists


def filled(items, after=",", between=" ", width=WIDTH, indent=INDENT):
    """The items in lines as long as the width allows, with something after each."""
    lines, line = [], indent
    for item in items:
        more = (between if line.strip() else "") + item + after
        if len(line) + len(more) > width:
            lines.append(line)
            line, more = indent, item + after
        line += more
    return "".join(f"{line}\n" for line in [*lines, line])


def quoted(words):
    return [f'"{word}"' for word in words]


def one_a_line(items):
    return "".join(f"{INDENT}{item},\n" for item in items)


def consed(words):
    """A list of definitions: the words in quotes, each before `∷`, and the empty list."""
    return filled([*(f"{word} ∷" for word in quoted(words)), "[]"], after="", width=LIST_WIDTH)


# ---- the tables that follow from the words


def by_name(names):
    return sorted(range(len(names)), key=lambda index: names[index].encode())


def name_key(name):
    return int.from_bytes(name.encode()[:KEY_BYTES].ljust(KEY_BYTES, b"\0"), "big")


def word_key(word):
    key = 0
    for byte in word.encode():
        key = (key * 257 + byte) % 2**32
    return key


def rust_table(file, name, items):
    """A table of Rattle: its file, where its items are, and what they are."""
    return file, rf"static {name}: \[[^\]]*\] = \[\n(.*?)\];\n", items


def definition(file, name, items):
    """A list of a file of definitions."""
    return file, rf"\n{name} =\n(.*?\[\]\n)", items


def lists_of_names(all_of):
    """The names in ti_caps, and the tables that follow from them."""
    tables, names = "crates/ti_caps/src/tables.rt", {kind: [row.name for row in all_of[kind]] for kind in KINDS}
    for kind, (_, table, word, _) in KINDS.items():
        yield rust_table(tables, table, filled(quoted(names[kind])))
        yield definition("crates/ti_caps/specs/Names.antt", f"{word}_names", consed(names[kind]))
        yield rust_table("crates/ti_caps/src/name_order.rt", f"{table}_BY_NAME", filled(map(str, by_name(names[kind]))))
    whole = [name for kind in KINDS for name in names[kind]]
    order = by_name(whole)
    yield rust_table(tables, "BY_NAME", filled(map(str, order)))
    yield rust_table("crates/ti_caps/src/keys.rt", "KEYS", one_a_line(f"0x{name_key(whole[at]):016x}" for at in order))


def lists_of_words(all_of):
    """The variables and the codes in ti_names, and the tables that follow from them."""
    for field, file, specs, write in (
        ("variable", "variable_tables.rt", "Variables.antt", one_a_line), ("code", "code_tables.rt", "Codes.antt", filled),
    ):
        file, specs = f"crates/ti_names/src/{file}", f"crates/ti_names/specs/{specs}"
        for kind, (table, _, word, _) in KINDS.items():
            words = [getattr(row, field) for row in all_of[kind]]
            places = {word_key(word): place for place, word in enumerate(words)}
            yield rust_table(file, f"{table}_{field.upper()}S", write(quoted(words)))
            yield definition(specs, f"{word}_{field}s", consed(words))
            yield rust_table(file, f"{table}_KEYS", filled(f"0x{key:08x}" for key in sorted(places)))
            yield rust_table(file, f"{table}_PLACES", filled(str(places[key]) for key in sorted(places)))


def description(row):
    """A row of source_descriptions, in a line or two."""
    parts = quoted([row.variable, row.sentence, *([row.parameters] if row.parameters else [])])
    return filled(parts, width=LIST_WIDTH).rstrip("\n,").replace(f"\n{INDENT}", f"\n{INDENT * 2}") + ";\n"


def lists_of_descriptions(all_of):
    """The rows of source_descriptions."""
    size = len(all_of["string"]) // PARTS
    lists = {"FLAGS": all_of["boolean"], "NUMBERS": all_of["number"]}
    lists |= {f"PART_{at + 1}": all_of["string"][size * at : size * (at + 1)] for at in range(PARTS)}
    for name, rows in lists.items():
        place = rf"static {name}: \[[^\]]*\] = descriptions! {{\n(.*?)}};\n"
        yield "crates/source_descriptions/src/descriptions.rt", place, "".join(map(description, rows))


def lists_of_counts(all_of):
    """How many parameters each string takes, in source_block_hints."""
    yield rust_table("crates/source_block_hints/src/counts.rt", "COUNTS", filled(row.count for row in all_of["string"]))
    rows = "\n".join(f'{INDENT}("{row.name}", {row.count}) ∷' for row in all_of["string"])
    yield definition("crates/source_block_hints/specs/Counts.antt", "counts", f"{rows} []\n")


def constant(name):
    """The constant of a capability: `kbeg` and `kBEG` have to differ."""
    return "TI_" + re.sub(r"([a-z])([A-Z])|([A-Z])([a-z])", r"\1\3_\2\4", name, count=1).upper()


def words_of_header():
    """The words of ti.h that no constant may be."""
    code = re.sub(r"/\*.*?\*/", "", text_of("include", "ti.h"), flags=re.S)
    return set(re.findall(r"\bTI_\w+", code))


def header(all_of):
    """The text of include/ti_names.h."""
    text, seen = HEADER, words_of_header()
    for kind, (*_, word) in KINDS.items():
        text += f"\n/* ---- {kind}s */\n\n"
        for index, row in enumerate(all_of[kind]):
            name = constant(row.name)
            if name in seen:
                raise ValueError(f"{name} is there already")
            seen.add(name)
            text += f"#define {name} TI_PLACE({word}, {index}) /* {row.name}, {row.variable} */\n"
    return text + "\n#endif\n"


def lists_of_completions(all_of):
    """The lists of the completions."""
    names = " ".join(row.name for kind in KINDS for row in all_of[kind])
    lines = textwrap.indent("\n".join(textwrap.wrap(names, SHELL_WIDTH)), INDENT) + "\n"
    yield "completions/ti.bash", r"\n_ti_capabilities='\n(.*?)'\n", lines
    yield "completions/_ti", r"\n_ti_capabilities=\(\n(.*?)\)\n", lines
    lines = " \\\n".join(f"{INDENT * 2}'{line}'" for line in textwrap.wrap(names, FISH_WIDTH))
    yield "completions/ti.fish", r"\nfunction __ti_capabilities\n[^\n]* \\\n(.*?)end\n", f"{lines}\n"


def lists():
    """Each list: its file, an expression whose group is its place there, and what is there."""
    all_of = read_capabilities()
    for part in (lists_of_names, lists_of_words, lists_of_descriptions, lists_of_counts, lists_of_completions):
        yield from part(all_of)
    yield "include/ti_names.h", r"\A(.*)\Z", header(all_of)


def with_list(text, place, items, file):
    found = re.search(place, text, re.S)
    if not found:
        sys.exit(f"{file}: no place for a list: {place}")
    start, end = found.span(1)
    return text[:start] + items + text[end:]


def main():
    if sys.argv[1:] not in (["--write"], ["--check"]):
        sys.exit(__doc__)
    texts = {}
    for file, place, items in lists():
        texts[file] = with_list(texts.get(file) or text_of(file), place, items, file)
    differing = sorted(file for file, text in texts.items() if text != text_of(file))
    if sys.argv[1] == "--check" and differing:
        sys.exit("not as they follow from build/capabilities.tsv: " + ", ".join(differing))
    for file in differing:
        with open(os.path.join(TOP, file), "w", encoding="utf-8") as written:
            written.write(texts[file])


if __name__ == "__main__":
    main()
