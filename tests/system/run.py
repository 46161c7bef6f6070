#!/usr/bin/env python3
"""Compares with the ncurses of this system: its entries, and its lists of names.

Every file below the system's terminfo directories is read by libti (tests/probe.c), which prints what
a view shows; Python's curses module asks ncurses for the same entry, each of the 497
capabilities by its name. A file of neither format must be refused as `Magic`. ncurses opens no
hardcopy terminal (`hc`) and no generic one (`gn`), so it is asked for a copy of such an entry
without that flag.

The names of the capabilities are compared with the arrays `boolnames`, `numnames` and
`strnames` of the ncurses library, all of them and in order.

If the system has no such directory, no curses module or no such library, that part is
not compared, and that is said. The last line is `system: N passed, M failed`.
"""

import ctypes
import ctypes.util
import multiprocessing
import os
import re
import subprocess
import sys
import tempfile

sys.path.insert(0, os.path.dirname(os.path.dirname(os.path.abspath(__file__))))
from common import ENTRY_DIRECTORIES, PROBE, TOP, Tally, is_missing  # noqa: E402

NAMES = os.path.join(TOP, "crates", "ti_caps", "specs", "Names.antt")
HEADER_LEN = 12
# the flags of the terminals that ncurses does not open
REFUSED_FLAGS = ("gn", "hc")
# how many files one run of the program is given
AT_ONCE = 500


def lists_of_names():
    """The names of the booleans, the numbers and the strings, in their order."""
    with open(NAMES, encoding="utf-8") as file:
        text = file.read()
    found = []
    for name, count in (("flag_names", 44), ("number_names", 39), ("text_names", 414)):
        rows = re.search(rf"^{name} =\n(.*?)\[\]", text, re.S | re.M)[1]
        names = re.findall(r'"([^"]*)"', rows)
        assert len(names) == count, name
        found.append(names)
    return found


def ncurses_names():
    """The arrays of the installed ncurses library, or None if it cannot be read."""
    for name in ("tinfo", "tinfow", "ncursesw", "ncurses"):
        path = ctypes.util.find_library(name)
        try:
            library = ctypes.CDLL(path) if path else None
            return [array_of(library, name) for name in ("boolnames", "numnames", "strnames")]
        except (OSError, ValueError, AttributeError, TypeError):
            continue
    return None


def array_of(library, name):
    """The texts of an array of the library that a null pointer ends."""
    array = (ctypes.c_char_p * 4096).in_dll(library, name)
    found = []
    for text in array:
        if text is None:
            return found
        found.append(text.decode())
    raise ValueError(name)


def shown(files):
    """What the program prints of each file, as a list of lines."""
    found = {}
    for at in range(0, len(files), AT_ONCE):
        done = subprocess.run(
            [PROBE, *files[at:at + AT_ONCE]], stdout=subprocess.PIPE, check=True, timeout=120,
        )
        for line in done.stdout.decode().split("\n"):
            if line.startswith("file "):
                found[line[5:]] = lines = []
            elif line:
                lines.append(line)
    return found


def ask(question):
    """What ncurses says of an entry of a directory, as tests/probe.c prints it; or why it does not."""
    import curses

    directory, name, (flags, numbers, texts) = question
    os.environ["TERMINFO"] = directory
    os.environ["TERM"] = name
    try:
        curses.setupterm(name, 1)
    except curses.error as error:
        return str(error)
    lines = [flag for flag in flags if curses.tigetflag(flag) > 0]
    lines += [f"{number}#{curses.tigetnum(number)}" for number in numbers if curses.tigetnum(number) >= 0]
    texts = [(text, curses.tigetstr(text)) for text in texts]
    return lines + [f"{text}={value.hex()}" for text, value in texts if value is not None]


def without_refused_flags(path, flags, room):
    """Copies an entry without the booleans of `REFUSED_FLAGS`; gives those that it had."""
    with open(path, "rb") as file:
        content = bytearray(file.read())
    names_len = int.from_bytes(content[2:4], "little")
    flag_count = int.from_bytes(content[4:6], "little")
    had = []
    for flag in REFUSED_FLAGS:
        index = flags.index(flag)
        if index < flag_count and content[HEADER_LEN + names_len + index] == 1:
            content[HEADER_LEN + names_len + index] = 0
            had.append(flag)
    at = os.path.join(room, *path.split("/")[-2:])
    os.makedirs(os.path.dirname(at), exist_ok=True)
    with open(at, "wb") as file:
        file.write(content)
    return had


def fault(name, path, lines, pool, names, room):
    """What differs for one entry, or None."""
    with open(path, "rb") as file:
        magic = file.read(2)
    if magic not in (b"\x1a\x01", b"\x1e\x02"):
        return None if lines == ["refused Magic"] else f"magic {magic.hex()}, but {lines[:1]}"
    if any(flag in lines for flag in REFUSED_FLAGS):
        directory, had = room, without_refused_flags(path, names[0], room)
    else:
        directory, had = os.path.dirname(os.path.dirname(path)), []
    wanted = pool.apply(ask, ((directory, name, names),))
    if isinstance(wanted, str):
        return f"ncurses does not answer: {wanted}"
    got = [line for line in lines if not line.startswith(("names=", "first name="))]
    if any(flag not in got for flag in had):
        return f"{had} are not shown"
    got = [line for line in got if line not in had]
    # if an entry has no size, ncurses answers its own default
    for size in ("cols", "lines"):
        if not any(line.startswith(f"{size}#") for line in got):
            wanted = [line for line in wanted if not line.startswith(f"{size}#")]
    if got != wanted:
        return f"{sorted(set(got) ^ set(wanted))[:6]} differ, or are in another order"
    return None


def entries():
    """The name and the path of each file below the system's directories."""
    found = []
    for directory in ENTRY_DIRECTORIES:
        for at, _, names in sorted(os.walk(directory)):
            found += [(name, os.path.join(at, name)) for name in sorted(names)]
    return found


def name_fault(names):
    """What differs in the lists of names, or None; or that there is no library."""
    wanted = ncurses_names()
    if wanted is None:
        return "absent"
    for ours, theirs in zip(names, wanted):
        if ours != theirs:
            return f"{[pair for pair in zip(ours, theirs) if pair[0] != pair[1]][:6]}, or the counts, differ"
    return None


def main():
    if is_missing(PROBE, "system"):
        return 1
    tally, names = Tally("system"), lists_of_names()
    why = name_fault(names)
    if why == "absent":
        tally.skip("names", "the arrays of names of ncurses are not here")
    else:
        tally.add("the names of the capabilities", [why] if why else [])
    files = entries()
    try:
        import curses  # noqa: F401
    except ImportError:
        files = []
        tally.skip("entries", "there is no curses module here")
    if not files:
        tally.skip("entries", "this system has no entries")
    found = shown([path for _, path in files]) if files else {}
    # a process of ncurses opens one entry
    with tempfile.TemporaryDirectory(prefix="ti-system-") as room, \
            multiprocessing.get_context("fork").Pool(1, maxtasksperchild=1) as pool:
        for name, path in files:
            why = fault(name, path, found.get(path, []), pool, names, room)
            tally.add(path, [why] if why else [])
    return tally.close()


if __name__ == "__main__":
    sys.exit(main())
