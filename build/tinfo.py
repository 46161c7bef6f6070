#!/usr/bin/env python3
"""Makes libtinfo.so.6 over libti from tinfo/: `make tinfo` runs it.

    build/tinfo.py [DIRECTORY]         puts it there, with the ti-run.so of ti-run;
                                       crates/ti_c/out/lib/ti, if none is named. The directory above
                                       has libti.so.2, from `make library`
    build/tinfo.py --names DIRECTORY   writes only the tables of names, names.h and names.c

The names of capabilities, their variables and their codes of termcap are those of
build/capabilities.tsv, and the codes of keys those that tinfo/keys.c names. It uses the C compiler
that CC names, or cc.
"""

import glob
import os
import re
import shutil
import subprocess
import sys
import tempfile

from border import FLAGS, compiler
from build import tell
from capabilities import read_capabilities
from repository import TOP, text_of

SONAME = "libtinfo.so.6"
PRELOADED = "ti-run.so"
SHARED = [
    "-shared", "-Wl,-z,defs", "-Wl,-z,text", "-Wl,-z,relro", "-Wl,-z,now", "-Wl,-z,noexecstack",
]
# libti.so.2 is found in the directory above, wherever both are installed
LINKED = [*SHARED, f"-Wl,-soname,{SONAME}", "-Wl,--enable-new-dtags", "-Wl,-rpath,$ORIGIN/.."]
EXPORTS = f"{TOP}/tinfo/tinfo.map"
# the prefix of a kind's tables, and the kind
KINDS = {"bool": "boolean", "num": "number", "str": "string"}
WIDTH = 100


def field_of(kind, field):
    """What the capabilities of a kind have in a field, in the order of the compiled entry."""
    return [getattr(row, field) for row in read_capabilities()[KINDS[kind]]]


def names_of(kind):
    """The names of a kind."""
    return field_of(kind, "name")


def variables_of(kind):
    """The variables of X/Open Curses of a kind."""
    return field_of(kind, "variable")


def codes_of(kind):
    """The codes of termcap of a kind."""
    return field_of(kind, "code")


def table(name, words):
    """The text of a table of C, which ends with a null pointer as those of ncurses do."""
    lines, line = [], "   "
    for word in [*(f'"{word}"' for word in words), "NULL"]:
        if len(line) + len(word) + 2 > WIDTH:
            lines.append(line)
            line = "   "
        line += f" {word},"
    return f"EXPORTED const char *const {name}[] = {{\n" + "\n".join([*lines, line]) + "\n};\n"


def codes_of_keys():
    """The code of each key, by its name, such as KEY_UP."""
    text, codes = text_of("tinfo", "keys.c"), {}
    for table_name, first in ("first", "BREAK"), ("later", "DL"):
        start = int(re.search(rf"KEY_{first} = (0\d+)", text)[1], 8)
        rows = re.search(rf"\b{table_name}\[\] = {{(.*?)}};", text, re.S)[1]
        codes |= {name: start + at for at, name in enumerate(re.findall(r'"(KEY_\w+)"', rows))}
    start = int(re.search(r"KEY_F0 = (0\d+)", text)[1], 8)
    return codes | {f"KEY_F{at}": start + at for at in range(64)}


def keys_table():
    """The text of a table of the strings that are keys, by their variables, with the codes of the keys."""
    codes = codes_of_keys()
    strings = sorted((word, at) for at, word in enumerate(variables_of("str")) if word.startswith("key_"))
    rows = "".join(f"    {{ {at}, {codes[word.upper()]:#o} }},\n".replace("0o", "0") for word, at in strings)
    return f"{KEYS}{rows}    {{ 0, 0 }},\n}};\n"


WRITTEN = "/* Written by build/tinfo.py. */\n"
KEYS = """EXPORTED const struct tinfo_fkeys {
    unsigned index, code;
} _nc_tinfo_fkeys[] = {
"""
HEAD = WRITTEN + """#ifndef NAMES_H
#define NAMES_H
#define EXPORTED __attribute__((visibility("default")))
"""


def names_header():
    """The text of names.h: an index for each name, and the tables that names.c has."""
    parts = [HEAD]
    for kind in KINDS:
        parts += [f"extern const char *const {kind}{suffix}[];" for suffix in ("names", "codes", "fnames")]
        indexes = "".join(f"    {kind.upper()}_{name} = {index},\n" for index, name in enumerate(names_of(kind)))
        parts.append(f"enum {{\n{indexes}}};\n")
    return "\n".join([*parts, "#endif\n"])


def names_tables():
    """The text of names.c."""
    parts = [WRITTEN + '#include <stddef.h>\n\n#include "names.h"\n']
    parts.append(keys_table())
    for kind in KINDS:
        names = names_of(kind)
        for suffix, words in ("names", names), ("codes", codes_of(kind)), ("fnames", variables_of(kind)):
            if len(words) != len(names):
                raise ValueError(f"{kind}{suffix} does not have the same capabilities")
            parts.append(table(f"{kind}{suffix}", words))
    return "\n".join(parts)


def write_names(directory):
    """Writes names.h and names.c."""
    for name, text in ("names.h", names_header()), ("names.c", names_tables()):
        with open(f"{directory}/{name}", "w", encoding="utf-8") as file:
            file.write(text)


def sources():
    """The files of C of the library."""
    return sorted(path for path in glob.glob(f"{TOP}/tinfo/*.c") if not path.endswith("ti-run.c"))


def make(libraries, directory, flags=(), exports=EXPORTS):
    """Makes the library in a directory, from libti.so.2 in another one; and ti-run.so. What it exports
    is in a file."""
    os.makedirs(directory, exist_ok=True)
    with tempfile.TemporaryDirectory() as room:
        write_names(room)
        words = [compiler(), *FLAGS, *flags, "-I", room, "-I", f"{TOP}/include", "-I", f"{TOP}/tinfo"]
        words += [*sources(), f"{room}/names.c", *LINKED, f"-Wl,--version-script={exports}", "-L", libraries, "-l:libti.so.2", "-o", f"{room}/{SONAME}"]
        subprocess.run(words, cwd=room, check=True)
        words = [compiler(), *FLAGS, f"{TOP}/tinfo/ti-run.c", *SHARED, "-o", f"{room}/{PRELOADED}"]
        subprocess.run(words, cwd=room, check=True)
        for name in (SONAME, PRELOADED):
            shutil.copy(f"{room}/{name}", f"{directory}/{name}.new")
            os.replace(f"{directory}/{name}.new", f"{directory}/{name}")


def main():
    words = sys.argv[1:]
    try:
        if words[:1] == ["--names"]:
            write_names(words[1])
            return 0
        libraries = f"{TOP}/crates/ti_c/out/lib"
        make(libraries, os.path.abspath(words[0]) if words else f"{libraries}/ti")
    except (OSError, ValueError, subprocess.CalledProcessError) as error:
        tell(f"{SONAME} was not made: {error}")
        return 1
    return 0


if __name__ == "__main__":
    sys.exit(main())
