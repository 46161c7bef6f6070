"""Compares the module `ti` with `curses`: every capability of every entry, and some expansions.

    python_entries.py DIRECTORY    the entries below a directory of compiled entries

`curses` reads one entry a process, so each is read in a process of its own. It refuses entries of
generic and hard-copy terminals. The variable LIBTI names the library. The last line counts the
entries, those that `curses` refuses, and those that differ.
"""

import curses
import glob
import os
import sys

import ti

# strings whose parameters are numbers
EXPANDED = {"cup": (4, 9), "setaf": (2,), "setab": (1,), "csr": (3, 20), "hpa": (7,), "vpa": (0,)}


def ours_of(entry, name, kind):
    value = entry.get(name)
    if kind == ti.STRING:
        return None if value is None else bytes(value)
    return value if value is not None else {ti.FLAG: False, ti.NUMBER: -1}[kind]


def faults_of(name):
    """What differs in one entry, in this process."""
    entry = ti.Entry.find(name)
    for cap in ti.FLAG_NAMES:
        if ours_of(entry, cap, ti.FLAG) != (curses.tigetflag(cap) == 1):
            yield f"{name}: {cap}"
    for cap in ti.NUMBER_NAMES:
        # curses puts the size of a screen in place of one that an entry lacks
        if cap in ("cols", "lines") and cap not in entry:
            continue
        if ours_of(entry, cap, ti.NUMBER) != max(curses.tigetnum(cap), -1):
            yield f"{name}: {cap}: {entry.get(cap)}, {curses.tigetnum(cap)}"
    for cap in ti.STRING_NAMES:
        if ours_of(entry, cap, ti.STRING) != curses.tigetstr(cap):
            yield f"{name}: {cap}: {entry.get(cap)}, {curses.tigetstr(cap)}"
    for cap, value in entry.items():
        if cap in ti.FLAG_NAMES or cap in ti.NUMBER_NAMES or cap in ti.STRING_NAMES:
            continue
        asked = {bool: curses.tigetflag, int: curses.tigetnum, ti.String: curses.tigetstr}[type(value)]
        if asked(cap) != value:
            yield f"{name}: {cap}: {value}, {asked(cap)}"
    for cap, parameters in EXPANDED.items():
        text = entry.get(cap)
        if text is not None and text.parameters[2:] + text.parameters.count(bytes) * (bytes,):
            yield f"{name}: {cap} takes {text.parameters}"
        # curses leaves padding as it is, and counts a second `%i` for nothing (docs/COMPARED.md)
        if text is not None and b"$<" not in text and b"%p" in text and text.count(b"%i") < 2:
            if text(*parameters) != curses.tparm(bytes(text), *parameters):
                yield f"{name}: {cap}{parameters}"


def faults_of_names():
    """What differs of the names by variables and by codes of termcap, those of terminfo(5)."""
    variables = {"cursor_address": "cup", "max_colors": "colors", "auto_right_margin": "am", "cup": None}
    for variable, name in variables.items():
        if ti.name_of_variable(variable) != name:
            yield f"{variable}: {ti.name_of_variable(variable)}"
    codes = {
        (ti.STRING, "cm"): "cup", (ti.NUMBER, "Co"): "colors", (ti.FLAG, "am"): "am", (ti.FLAG, "cm"): None,
        (ti.FLAG, "MT"): "OTMT", (ti.STRING, "MT"): "smgtb", (ti.STRING, "ML"): "smglr",
    }
    for (kind, code), name in codes.items():
        if ti.name_of_code(kind, code) != name:
            yield f"{code}: {ti.name_of_code(kind, code)}"


def compare(directory, name):
    """Compares one entry. Gives the status of the process: 2 if `curses` refuses the entry."""
    os.environ["TERMINFO"] = directory
    curses.use_env(False)
    try:
        curses.setupterm(name, 1)
    except curses.error:
        return 2
    try:
        faults = list(faults_of(name))
    except (ti.Error, curses.error) as error:
        faults = [f"{name}: {error!r}"]
    for fault in faults:
        print(fault, flush=True)
    return 1 if faults else 0


def main():
    directory = os.path.abspath(sys.argv[1])
    names = sorted(os.path.basename(path) for path in glob.glob(os.path.join(directory, "?", "*")))
    counts = [0, 0, 0]
    faults = list(faults_of_names())
    for fault in faults:
        print(fault)
    for name in names:
        child = os.fork()
        if child == 0:
            os._exit(compare(directory, name))
        status = os.waitpid(child, 0)[1]
        counts[min(os.waitstatus_to_exitcode(status) % 256, 2)] += 1
    print(f"{len(names)} entries, {counts[2]} refused by curses, {counts[1]} differ")
    # at most one in ten is of a generic or a hard-copy terminal
    return 1 if faults or counts[1] or not names or 10 * counts[2] > len(names) else 0


if __name__ == "__main__":
    sys.exit(main())
