#!/usr/bin/env python3
"""Tests libtinfo.so.6 over libti: its answers next to those of ncurses, and programs that take it.

    tests/tinfo/run.py [CASE..]        the cases named, or all of them
    tests/tinfo/run.py --table         writes the tables of docs/TINFO.md

The archive of crates/ti_c is built already, by the gate or by `make library`. The cases:

symbols      what the library exports has the versions, kinds and sizes of ncurses's
answers      every call on every entry of the system (answers.c), run with each of the two
             libraries; what differs is counted by class, and anything else fails
sanitizers   the same calls under sanitizers, on a part of the entries
errors       what setupterm and tgetent say of a terminal that they do not take (errors.c)
directories  which of several entries of a name is taken
modes        the line to the terminal, keys and screens (modes.c), on a terminal of its own
formats      strings that tgoto expands as termcap has them (formats.c)
internals    what libncursesw.so.6 calls (internals.c)
searches     what only tic, infocmp and toe call: names, directories, messages (searches.c)
damaged      damaged entries (damaged.c), under sanitizers
memory       each allocation refused in turn (memory.c)
bash, less, vim, tmux, zsh, fish, more, emacs, minicom, w3m, mg, tcsh, joe
             the program in a terminal, with each of the two libraries (screens.py)
curses       a program of curses itself does not begin
reached      which internal functions of ncurses such programs reach, and which one would end each,
             as docs/TINFO.md says (reached.py)
objects      which objects of Debian start, as docs/TINFO.md says (objects.py)
tools        clear, tput, tset, reset and tabs on a terminal, with each of the two libraries (tools.py)
entries      tic, infocmp and toe on every entry of the system, and on sources, with each of the two
             libraries (entries.py)
install      `make install-tinfo` puts everything into its place, and ti-run runs programs and leaves
             those that they start alone

What is not installed is skipped, and said to be. The last line is
`tinfo: N passed, M failed[, K skipped]`.
"""

import collections
import itertools
import os
import re
import shutil
import subprocess
import sys
import tempfile
import threading
from concurrent.futures import ThreadPoolExecutor

HERE = os.path.dirname(os.path.abspath(__file__))
sys.path.insert(0, os.path.dirname(HERE))
from common import ENTRY_DIRECTORIES, TOP, Skipped, Tally, entry_file, files_below, need, text_of  # noqa: E402
from terminals import on_terminal  # noqa: E402
import entries  # noqa: E402
import library  # noqa: E402
import objects  # noqa: E402
import reached  # noqa: E402
import screens  # noqa: E402
import tinfo  # noqa: E402
import tools  # noqa: E402

ARCHIVE = os.path.join(TOP, "crates", "ti_c", "out", "libti_c.a")
WARN = ["-Wall", "-Wextra", "-Wpedantic", "-Werror"]
SANITIZE = ["-g", "-fsanitize=address,undefined", "-fno-sanitize-recover=all"]
# how many processes compare entries, and how many programs are in terminals at once
AT_ONCE = 4
# sanitizers are run on each entry whose place in the list this divides
PART = 6


def run(words, **more):
    """Runs a command. Gives its status and all that it wrote."""
    more = {"stdin": subprocess.DEVNULL, "timeout": 300, **more}
    if "input" in more:
        del more["stdin"]
    done = subprocess.run(words, stdout=subprocess.PIPE, stderr=subprocess.STDOUT, check=False, **more)
    return done.returncode, done.stdout.decode(errors="replace")


class Room:
    """A directory with the libraries, also as they are installed, in which programs are compiled."""

    def __init__(self, directory):
        self.directory = directory
        self.sanitized = os.path.join(directory, "sanitized")
        self.libraries = os.path.join(directory, "installed", "lib", "ti")
        self.ti_run = os.path.join(directory, "installed", "bin", "ti-run")
        # what a program is started by with ncurses's library
        self.plain = ""
        self.lock = threading.Lock()

    def make(self):
        """Makes the libraries, and installs them."""
        library.make(ARCHIVE, self.directory)
        tinfo.make(self.directory, self.path("ti"))
        self.install("install-library", "install-tinfo", f"PREFIX={self.path('installed')}")

    def install(self, *words):
        """Runs make for what is made here."""
        status, said = run(["make", "-s", "-C", TOP, f"LIBRARY={self.directory}", *words])
        if status or said:
            raise AssertionError(f"make {words}: status {status}, {said}")

    def path(self, name):
        return os.path.join(self.directory, name)

    def sanitized_library(self):
        """The directory of a libtinfo.so.6 that is compiled for sanitizers."""
        with self.lock:
            if not os.path.isdir(self.sanitized):
                tinfo.make(self.directory, self.sanitized, [*SANITIZE, "-U_FORTIFY_SOURCE"])
        return self.sanitized

    def compile(self, name, *words):
        """Compiles a program for ncurses's library. Gives its path."""
        status, _ = run([library.compiler(), "-E", "-x", "c", "-"], input=b"#include <term.h>\n")
        if status:
            raise Skipped("term.h is not installed")
        program = self.path(f"{name}{len(words)}")
        flags = ["-std=gnu99", "-O1", *WARN, *words]
        status, said = run([library.compiler(), *flags, f"{HERE}/{name}.c", "-ltinfo", "-o", program])
        if status:
            raise AssertionError(f"{name}.c is not compiled: {said}")
        return program


def environment(libraries=None, **more):
    """The environment, without what is said of the terminal, in which a library is found."""
    dropped = re.compile("TERM|LINES$|COLUMNS$|LD_")
    kept = {name: value for name, value in os.environ.items() if not dropped.match(name)}
    return {**kept, **({"LD_LIBRARY_PATH": libraries} if libraries else {}), **more}


def entries_of_system():
    """The name of each entry of the system, that of the first file with the same bytes."""
    found, seen = {}, set()
    for directory in ENTRY_DIRECTORIES:
        for path in files_below(directory):
            name = os.path.basename(path)
            with open(os.path.join(directory, path), "rb") as file:
                content = file.read()
            if name not in found and content not in seen:
                found[name] = path
                seen.add(content)
    if not found:
        raise Skipped("the system has no entries")
    return sorted(found)


# What is exported


def symbols(path):
    """The symbols that a library defines, by name: the kind, the size of data, the version."""
    _, said = run(["objdump", "-T", path])
    row = re.compile(r"^\S+ (?:g|l|w)\s+(D[OF])\s+(\S+)\t(\S+)\s+(?:\(?(\S+?)\)?\s+)?(\S+)$", re.M)
    found = {}
    for kind, section, size, version, name in row.findall(said):
        if section not in ("*UND*", "*ABS*"):
            found[name] = (kind, int(size, 16) if kind == "DO" else 0, version)
    return found


def system_library():
    """The path of ncurses's library."""
    _, said = run(["ldconfig", "-p"], env={"PATH": "/sbin:/usr/sbin:/bin:/usr/bin"})
    found = re.search(r"libtinfo\.so\.6 .*=> (\S+)", said)
    if not found:
        raise Skipped("libtinfo.so.6 of ncurses is not installed")
    return found[1]


def is_compared_version():
    """Whether the system's library is of the version of ncurses that the pages compare with."""
    return os.path.realpath(system_library()).endswith(".so.6.4")


def versions(room):
    """The versions of symbols that the library over libti defines."""
    _, said = run(["objdump", "-p", f"{room.libraries}/libtinfo.so.6"])
    return set(re.findall(r"^\d+ 0x00 0x\w+ (\S+)", said, re.M))


def check_symbols(room):
    need("objdump")
    ours, theirs = symbols(f"{room.libraries}/libtinfo.so.6"), symbols(system_library())
    wanted = set(re.findall(r"([A-Za-z_]\w*);", text_of("tinfo", "tinfo.map")))
    faults = [f"{name} is not exported, or is not to be" for name in wanted ^ set(ours)]
    for name, what in ours.items():
        # ncurses has restartterm in another library
        if theirs.get(name, what) != what or (name not in theirs and name != "restartterm"):
            faults.append(f"{name} is {what}, and ncurses's {theirs.get(name)}")
    # a manual page describes all but these
    public = {name for name in theirs if not name.startswith("_nc_") and name != "SP"}
    if is_compared_version():
        faults += [f"{name} of ncurses's is not exported" for name in public - set(ours)]
    # a version without a symbol is not there, so that the loader refuses a program that needs it
    of_symbols = {version for _, _, version in ours.values()}
    faults += [f"the version {name} has no symbol" for name in versions(room) - of_symbols]
    _, said = run(["readelf", "-d", "-W", f"{room.libraries}/libtinfo.so.6"])
    needed = re.findall(r"NEEDED.*\[(.*)\]", said)
    if sorted(needed) != ["libc.so.6", "libti.so.2"] or "[libtinfo.so.6]" not in said:
        faults.append(f"libtinfo.so.6: {said}")
    _, more = run(["readelf", "-l", "--dyn-syms", "-W", f"{room.libraries}/libtinfo.so.6"])
    for part in ("BIND_NOW", "GNU_RELRO", "__stack_chk_fail", "_chk@"):
        if part not in said + more:
            faults.append(f"libtinfo.so.6 is not hardened by {part}")
    print(f"    {len(ours)} symbols, with all {len(public)} public ones of ncurses's")
    return faults


# The answers


def answers(program, names, libraries):
    """What a program answers of each entry: its lines, by name."""
    done = subprocess.run(
        [program], input="".join(f"{name}\n" for name in names).encode(), stdout=subprocess.PIPE,
        stderr=subprocess.PIPE, env=environment(libraries), check=False, timeout=300,
    )
    if done.returncode:
        said = done.stderr.decode(errors="replace").splitlines()
        raise AssertionError(f"{os.path.basename(program)}: status {done.returncode}, {said[-20:]}")
    parts = done.stdout.decode(errors="replace").split("\nentry ")
    found = {}
    for part in parts:
        name, _, lines = part.removeprefix("entry ").partition("\n")
        found[name] = lines.split("\n")
    return found


class Entry:
    """What is known of an entry from ncurses's lines."""

    def __init__(self, lines):
        rows = [line.split(" ", 2) for line in lines]
        told = {(row[0], row[1]): row[2] for row in rows if len(row) == 3 and row[0] in ("tigetstr", "tigetflag", "tigetnum")}
        self.strings = {name: text for (call, name), text in told.items() if call == "tigetstr"}
        flags, numbers = told.get(("tigetflag", "all"), ""), told.get(("tigetnum", "all"), "").split()
        # whether delays depend on the line: by its booleans (xon) and its numbers (pb)
        self.is_xon = flags[20:21] == "1" or numbers[5:6] > ["0"]


TPUTS = re.compile(r"tputs (\S+)@\d+@(\d+) (\S+) waited (\d+) pads (\d+) (.*)$")
# the bytes that a line takes in a millisecond, by the code of its speed
BYTES = {"0": 0, "9": 0.24, "15": 3.84}
EXPANSION = re.compile(r"(tparm|tiparm|tgoto) (\S+)@\d+ (.*)$")
# what ncurses takes for a delay and libti for text, and the other way round
ODD_DELAY = re.compile(r"\$<\.|\$\$<|\$<[0-9]*\.[0-9]{2}|\*\*")


def padding_class(ours, theirs, entry):
    """The class of a difference of tputs, or None."""
    one, other = TPUTS.match(ours), TPUTS.match(theirs)
    text = entry.strings[one[1]]
    if ODD_DELAY.search(text):
        return "delays that one reads as text"
    if one.group(1, 2, 3, 4, 6) != other.group(1, 2, 3, 4, 6):
        return None
    pads, wanted = int(one[5]), int(other[5])
    # a byte has ten bits and not nine; of each delay both round, and ncurses drops its tenths
    if abs(pads - 0.9 * wanted) < text.count("$<") * (2 + BYTES[one[2]]):
        return "pads that are rounded"
    return "pads that xon or pb spares" if entry.is_xon and pads < wanted else None


def expansion_class(ours, theirs, entry):
    """The class of a difference of tparm, tiparm or tgoto, or None."""
    one, other = EXPANSION.match(ours), EXPANSION.match(theirs)
    if not one or not other or one.group(1, 2) != other.group(1, 2):
        return None
    text = entry.strings[one[2]]
    if one[3] == (text if "%p" not in text else '""') and one[1] != "tgoto":
        return "malformed formats"
    if "%p" not in text and "%i" in text:
        return "formats of termcap with %i"
    return "formats with two %i" if text.count("%i") > 1 else None


def class_of(ours, theirs, entry):
    """The class of a difference, or None."""
    call = ours.partition(" ")[0]
    if call == "tputs":
        return padding_class(ours, theirs, entry)
    return expansion_class(ours, theirs, entry) if call in ("tparm", "tiparm", "tgoto") else None


def compare_entry(name, ours, theirs, counts):
    """Compares the lines of an entry, and counts those that are alike or of a class. Gives what is
    wrong."""
    if ours == theirs:
        counts["alike"] += len(ours)
        return []
    entry = Entry(theirs)
    faults = [] if len(ours) == len(theirs) else [f"{name}: {len(ours)} lines, and ncurses's {len(theirs)}"]
    for one, other in zip(ours, theirs):
        found = "alike" if one == other else class_of(one, other, entry)
        counts[found or "unexplained"] += 1
        if not found:
            faults.append(f"{name}: {one[:300]}, and ncurses's {other[:300]}")
    return faults


def check_answers(room):
    program = room.compile("answers")
    names = entries_of_system()
    parts = [names[at::AT_ONCE] for at in range(AT_ONCE)]
    with ThreadPoolExecutor(2 * AT_ONCE) as pool:
        theirs = [pool.submit(answers, program, part, None) for part in parts]
        ours = [pool.submit(answers, program, part, room.libraries) for part in parts]
    counts, faults = collections.Counter(), []
    for one, other in zip(ours, theirs):
        one, other = one.result(), other.result()
        if list(one) != list(other):
            faults.append("not the same entries")
        for name in one:
            faults += compare_entry(name, one[name], other[name], counts)
    print(f"    {len(names)} entries: " + ", ".join(f"{counts[what]:,} {what}" for what in sorted(counts)))
    return faults[:40]


# Sanitizers


def check_sanitizers(room):
    names = entries_of_system()[::PART]
    program = room.compile("answers", *SANITIZE)
    parts = [names[at::AT_ONCE] for at in range(AT_ONCE)]
    with ThreadPoolExecutor(AT_ONCE) as pool:
        found = list(pool.map(lambda part: answers(program, part, room.sanitized_library()), parts))
    print(f"    {sum(len(part) - 1 for part in found)} entries")
    return []


def check_damaged(room):
    """Entries with and without user-defined capabilities; of the long one every so many bytes."""
    program = room.compile("damaged", *SANITIZE)
    cases = [(name, step) for name, step in (("dumb", 1), ("xterm-256color", 97), ("linux", 41)) if entry_file(name)]
    if not cases:
        raise Skipped("the system has no entries")

    def damage(case):
        name, step = case
        place = os.path.join(room.path(f"damaged-{name}"), "d")
        os.makedirs(place)
        used = environment(room.sanitized_library(), TERMINFO=os.path.dirname(place))
        words = [program, entry_file(name), "damaged", os.path.join(place, "damaged"), str(step)]
        status, said = run(words, env=used)
        print(f"    {name}: {said.strip().splitlines()[-1:]}")
        return [f"{name}: status {status}"] + said.splitlines()[-20:] if status else []

    with ThreadPoolExecutor(len(cases)) as pool:
        return [fault for faults in pool.map(damage, cases) for fault in faults]


def check_memory(room):
    if not entry_file("xterm-256color"):
        raise Skipped("the system has no entry of xterm-256color")
    program = room.compile("memory", "-fno-builtin")
    status, said = run([program, "xterm-256color", "\033[5;9H"], env=environment(room.libraries))
    print(f"    {said.strip()}")
    return [f"status {status}, {said!r}"] if status else []


# Terminals that are not taken, and where entries are looked for


def both(room, words, **more):
    """What a program writes with each of the two libraries, with its status."""
    return [run(words, env=environment(where, **more)) for where in (room.libraries, None)]


def check_errors(room):
    """The same is also asked of the library under sanitizers."""
    program, sanitized = room.compile("errors"), room.compile("errors", *SANITIZE)
    names = ["", "no-such", "a/b", "/etc/passwd", ".", "..", "du mb", "\u00e9", "x" * 512, "x" * 513, "x" * 10000]
    names += [name for name in ("dumb", "lpr", "unknown", "dialup", "5620", "xterm-256color") if entry_file(name)]
    faults, tried = [], 0
    for how in ("ask", "end", "termcap"):
        for name in [None, *names]:
            more = {} if name is None else {"TERM": name}
            for words in ([], [name]) if name else ([],):
                tried += 1
                ours, theirs = both(room, [program, how, *words], **more)
                if ours != theirs:
                    faults.append(f"{how}, TERM {str(name)[:40]}, words {len(words)}: {ours}, and ncurses's {theirs}")
                if how == "ask":
                    checked = run([sanitized, how, *words], env=environment(room.sanitized_library(), **more))
                    faults += [] if checked == ours else [f"TERM {str(name)[:40]}, under sanitizers: {checked}"]
    print(f"    {tried} tried")
    return faults


def entry_of(name, cols):
    """An entry with am, and a number of columns."""
    names = f"{name}|for a test".encode() + b"\0"
    head = b"".join(number.to_bytes(2, "little") for number in (0o432, len(names), 2, 1, 0, 0))
    body = names + b"\0\1"
    return head + body + b"\0" * (len(body) % 2) + cols.to_bytes(2, "little")


def check_directories(room):
    """Entries of one name with their directory's number of columns; `bad` has one that is none."""
    program = room.compile("errors")
    top = room.path("entries")
    for cols, name in enumerate(("first", "second", "home/.terminfo", "third", "bad"), 101):
        os.makedirs(f"{top}/{name}/t")
        with open(f"{top}/{name}/t/test", "wb") as file:
            file.write(b"no entry" if name == "bad" else entry_of("test", cols))
    os.makedirs(f"{top}/odd/t/test")
    places = lambda text: re.sub(r"(\w+)", rf"{top}/\1", text)
    settings = [
        {name: places(value) if name != "TERM" else value for name, value in row.items()}
        for row in (
            {"TERMINFO": "first"}, {"TERMINFO": "", "TERMINFO_DIRS": "second"}, {"TERMINFO": "none", "HOME": "home"},
            {"TERMINFO": "first", "HOME": "home", "TERMINFO_DIRS": "second"}, {"HOME": "home", "TERMINFO_DIRS": "second"},
            {"HOME": "none", "TERMINFO_DIRS": "none:second:third"}, {"HOME": "none", "TERMINFO_DIRS": ":second:"},
            {"HOME": "none", "TERMINFO_DIRS": ":"}, {"HOME": "none", "TERMINFO_DIRS": ""}, {"HOME": "none"}, {"HOME": ""},
            {"TERMINFO": "bad", "HOME": "home"}, {"HOME": "none", "TERMINFO_DIRS": "bad:third"}, {"TERMINFO": "bad"},
            {"TERMINFO": "odd", "HOME": "home"}, {"HOME": "none", "TERMINFO_DIRS": "odd:none:bad"},
        )
    ]
    faults, tried = [], 0
    for row in settings:
        for name in ("test", "dumb", "xterm"):
            tried += 1
            ours, theirs = both(room, [program, "ask", name], **{"HOME": "/", **row})
            if ours != theirs:
                faults.append(f"{name}, {row}: {ours}, and ncurses's {theirs}")
    # ncurses waits for a pipe that takes the place of an entry
    os.makedirs(f"{top}/pipe/t")
    os.mkfifo(f"{top}/pipe/t/test")
    more = {"TERMINFO": f"{top}/pipe", "HOME": f"{top}/home"}
    status, said = run([program, "ask", "test"], env=environment(room.libraries, **more), timeout=20)
    if status or "cols 103" not in said:
        faults.append(f"a pipe: status {status}, {said!r}")
    sizes = [{"LINES": "30"}, {"COLUMNS": "70"}, {"LINES": "0", "COLUMNS": "-1"}, {"LINES": "x", "COLUMNS": "7x"}]
    for row in [*sizes, {"LINES": "40000", "COLUMNS": "99999999999999"}]:
        tried += 1
        ours, theirs = both(room, [program, "ask", "xterm"], **row)
        if ours != theirs:
            faults.append(f"{row}: {ours}, and ncurses's {theirs}")
    print(f"    {tried} tried")
    return faults


# The line to the terminal


# the calls that fail in ncurses for a screen that newterm has not made, and are here as
# curs_kernel(3x) says: what they leave the line as is compared by itself
RESET = re.compile(r"reset_(?:prog|shell)_mode_sp |does not 0: ")


def modes_answers(room, program, libraries, term):
    """The lines that modes.c answers, and what it wrote to the terminal."""
    status, written, said = on_terminal([program, term], environment(libraries))
    if status != 7:
        raise AssertionError(f"{os.path.basename(program)} {term}: status {status}, {said[-2000:]}")
    return said.splitlines(), written


def reset_faults(term, lines):
    """The modes after the two calls are those that were remembered, which those of raw differ from."""
    modes = [(line.split()[0], line.split(": ")[1]) for line in lines if re.match(r"\w+_sp 0: ", line)]
    faults = []
    for at, (call, found) in enumerate(modes):
        wanted = {"reset_prog_mode_sp": "halfdelay_sp", "reset_shell_mode_sp": "savetty_sp"}.get(call)
        if wanted and found != [what for name, what in modes[:at] if name == wanted][-1]:
            faults.append(f"{term}, {call}: {found}")
    return faults if "reset_shell_mode_sp" in dict(modes) else [f"{term}: reset_shell_mode_sp fails"]


# what modes.c answers alone, by curs_util(3x) and curs_extend(3x)
ALONE = [
    "delay_output 0", "delay_output 0", "define_key_sp 0", "has_key_sp 1 0", "define_key_sp 0", "has_key_sp 0",
    "define_key_sp -1", "delay_output -1",
]


def alone_faults(room, program):
    """What is answered of what cannot be compared: the pads of so many milliseconds on a line of
    38,400 bits a second with ten bits a byte, each tenth of a second rounded up."""
    faults = []
    for milliseconds, pads in ((1, 4), (5, 20), (100, 384), (250, 960)):
        words = [program, "vt100", str(milliseconds)]
        status, written, said = on_terminal(words, environment(room.sanitized_library()))
        if (status, written, said.splitlines()) != (7, "\0" * pads, ALONE):
            faults.append(f"delay_output({milliseconds}): status {status}, {written!r}, {said[-2000:]}")
    return faults


def check_modes(room):
    program, sanitized = room.compile("modes"), room.compile("modes", *SANITIZE)
    terms = [name for name in ("xterm-256color", "linux", "vt100", "dumb", "hp2621") if entry_file(name)]
    faults, compared = alone_faults(room, sanitized) if "vt100" in terms else [], 0
    for term in terms:
        ours, theirs = (modes_answers(room, program, where, term) for where in (room.libraries, None))
        faults += reset_faults(term, ours[0])
        for one, other in zip(ours[0], theirs[0]):
            compared += 1
            if one != other and not RESET.match(one):
                faults.append(f"{term}: {one}, and ncurses's {other}")
        if len(ours[0]) != len(theirs[0]):
            faults.append(f"{term}: {len(ours[0])} lines, and ncurses's {len(theirs[0])}")
        if ours[1] != theirs[1]:
            faults.append(f"{term}: {ours[1]!r} is written, and by ncurses's {theirs[1]!r}")
        checked = modes_answers(room, sanitized, room.sanitized_library(), term)
        if checked != ours:
            faults.append(f"{term}: other answers under sanitizers")
    print(f"    {compared} answers on {', '.join(terms)}")
    return faults


def check_formats(room):
    """Every answer is ncurses's, but those with `%i`, and the same under sanitizers."""
    program, sanitized = room.compile("formats"), room.compile("formats", *SANITIZE)
    ours, theirs = both(room, [program])
    lines = list(zip(ours[1].splitlines(), theirs[1].splitlines()))
    counts, faults = collections.Counter(), []
    for one, other in lines:
        found = "alike" if one == other else "with %i" if "%i" in one else "unexplained"
        counts[found] += 1
        faults += [f"{one}, and ncurses's {other}"] if found == "unexplained" else []
    if ours[0] or theirs[0] or ours[1].count("\n") != theirs[1].count("\n"):
        faults.append(f"status {ours[0]} and {theirs[0]}")
    checked = run([sanitized], env=environment(room.sanitized_library()))
    if checked != ours:
        faults.append(f"under sanitizers: {checked[1][-2000:]}")
    print("    " + ", ".join(f"{counts[what]:,} {what}" for what in sorted(counts)))
    return faults[:40]


# what the sanitizer says of a size that is refused
REFUSED = re.compile(r"==\d+==WARNING: AddressSanitizer failed to allocate .*\n")


def internals_faults(programs, term, locale):
    """How what internals.c prints differs from what it prints with ncurses's library, and how much it
    prints."""
    told = []
    for program, where in programs:
        with tempfile.TemporaryDirectory(prefix="ti-tinfo-") as directory:
            more = {"LC_ALL": locale, "ASAN_OPTIONS": "allocator_may_return_null=1"}
            status, said = run([program, term, directory], env=environment(where, **more))
        told.append([f"status {status}", *REFUSED.sub("", said).splitlines()])
    theirs, *others = told
    faults = [] if theirs[0] == "status 7" else [f"{term}, {locale}, with ncurses's: {theirs}"]
    for ours in others:
        pairs = itertools.zip_longest(ours, theirs)
        faults += [f"{term}, {locale}: {one}, and ncurses's {other}" for one, other in pairs if one != other]
    return faults[:10], len(theirs)


def check_internals(room):
    """The same is also asked of the library under sanitizers; and of a message that ends a program."""
    program, sanitized = room.compile("internals"), room.compile("internals", *SANITIZE)
    programs = ((program, None), (program, room.libraries), (sanitized, room.sanitized_library()))
    faults, lines = [], 0
    for term in (name for name in ("xterm-256color", "linux", "screen") if entry_file(name)):
        for locale in ("C", "C.UTF-8"):
            found, count = internals_faults(programs, term, locale)
            faults += found
            lines += count
    ours, theirs = both(room, [program, "-abort"])
    faults += [] if ours == theirs and ours[0] == 1 else [f"_nc_err_abort: {ours}, and ncurses's {theirs}"]
    print(f"    {lines:,} lines")
    return faults


def need_compared_version():
    """Skips a case about what only ncurses's libtic calls, which is not the same in each version."""
    if not is_compared_version():
        raise Skipped("ncurses is not of the version that the pages compare with")


def check_entries(room):
    need_compared_version()
    return entries.faults(room, entries_of_system())


def check_searches(room):
    """The same is also asked of the library under sanitizers."""
    need_compared_version()
    program, sanitized = room.compile("searches"), room.compile("searches", *SANITIZE)
    told = []
    for tried, where in ((program, None), (program, room.libraries), (sanitized, room.sanitized_library())):
        with tempfile.TemporaryDirectory(prefix="ti-tinfo-") as directory:
            words = [tried, directory, "Tc", "AX", "RGB", "kDC3", "xm", "no-such", "lines", "li", "co", "x", ""]
            status, said = run(words, env=environment(where, HOME="/home/none"))
        told.append([f"status {status}", *said.split("\n")])
    theirs, *others = told
    faults = [] if theirs[0] == "status 1" else [f"with ncurses's: {theirs[-20:]}"]
    for ours in others:
        pairs = itertools.zip_longest(ours, theirs)
        faults += [f"{one}, and ncurses's {other}" for one, other in pairs if one != other][:20]
    print(f"    {len(theirs):,} lines")
    return faults


# Programs


def check_objects(room):
    theirs, ours = symbols(system_library()), symbols(f"{room.libraries}/libtinfo.so.6")
    return objects.faults(room, set(theirs), set(ours), is_compared_version(), "--table" in sys.argv)


def check_reached(room):
    theirs, ours = symbols(system_library()), symbols(f"{room.libraries}/libtinfo.so.6")
    return reached.faults(room, theirs, ours, is_compared_version(), "--table" in sys.argv)


def check_curses(room):
    """Programs that need more than the library has: the loader says so, and nothing is run."""
    programs = [name for name in ("nano", "dialog", "htop", "mutt") if shutil.which(name)]
    if not programs:
        raise Skipped("no program of curses is installed")
    faults = []
    for name in programs:
        status, said = run([room.ti_run, name, "-v"], env=environment())
        if status != 127 or not re.search(r"undefined symbol: \w+, version NCURSES6_TINFO", said):
            faults.append(f"{name} -v: status {status}, {said!r}")
    return faults


def check_install(room):
    """What is installed can be moved, and is all taken away again."""
    target = room.path("target")
    words = [f"DESTDIR={target}", "PREFIX=/opt/ti", "LIBDIR=/opt/ti/lib/x"]
    room.install("install-library", "install-tinfo", *words)
    wanted = {"opt/ti/bin/ti-run", "opt/ti/lib/x/ti/libtinfo.so.6", "opt/ti/share/man/man1/ti-run.1"}
    if not wanted <= set(files_below(target)):
        return [f"installed: {files_below(target)}"]
    moved = room.path("moved")
    os.rename(os.path.join(target, "opt", "ti"), moved)
    faults = run_faults(moved) + preload_faults(moved, f"{moved}/lib/x/ti/ti-run.so")
    # the loader takes a space for the end of a path
    spaced = room.path("moved to here")
    os.rename(moved, spaced)
    faults += run_faults(spaced) + preload_faults(spaced, "ti-run.so")
    os.rename(spaced, os.path.join(target, "opt", "ti"))
    room.install("uninstall-tinfo", "uninstall-library", *words)
    return faults + [f"left over: {name}" for name in files_below(target)]


def run_faults(installed):
    """What is wrong with the ti-run of a directory."""
    ti_run, faults = os.path.join(installed, "bin", "ti-run"), []
    status, said = run([ti_run, "bash", "-c", "cat /proc/$$/maps; exit 7"], env=environment())
    libraries = ["lib/x/ti/libtinfo.so.6", "lib/x/libti.so.2"]
    if status != 7 or not all(f" {installed}/{name}\n" in said for name in libraries):
        faults.append(f"ti-run: status {status}, {said}")
    # what a program on the library starts has the environment as it was
    for more in ({}, {"LD_LIBRARY_PATH": "/no-such:/none"}):
        words = ["bash", "-c", "grep -c /ti/libtinfo /proc/$$/maps >/dev/null && env | grep -E '^(LD|TI)_'"]
        status, said = run([ti_run, *words], env=environment(None, **more))
        if said != "".join(f"{name}={value}\n" for name, value in more.items()) or status != (0 if more else 1):
            faults.append(f"ti-run bash with {more}: status {status}, {said!r}")
    faults += script_faults(installed, ti_run)
    for given, wanted in (([], 2), (["--help"], 0), (["--no-such"], 2), (["no-such-program"], 127)):
        status, said = run([ti_run, *given])
        if status != wanted or not said:
            faults.append(f"ti-run {given}: status {status}, {said!r}")
    return faults


PRELOADED = b"""#include <stdio.h>
#include <stdlib.h>
int main(void) { return puts(getenv("LD_PRELOAD")) < 0; }
"""


def preload_faults(installed, wanted):
    """What a program without shared libraries, which loads nothing, is told to load."""
    program = os.path.join(installed, "preloaded")
    status, _ = run([library.compiler(), "-static", "-x", "c", "-", "-o", program], input=PRELOADED)
    if status:
        return []
    status, said = run([os.path.join(installed, "bin", "ti-run"), program], env=environment())
    os.remove(program)
    return [] if said == f"{wanted}\n" else [f"ti-run has {said!r} loaded, status {status}, and not {wanted}"]


SCRIPT = """#!/bin/sh
echo "preloaded ${LD_PRELOAD-no} ${LD_LIBRARY_PATH-no} ${LD_BIND_NOW-no} ${TI_RUN-no}"
bash -c 'grep -o "[^ ]*/libtinfo.so.6.*" /proc/$$/maps | sort -u'
for program in clear tput nano dialog htop; do command -v $program >/dev/null && $program -V >/dev/null 2>&1; done
tput setaf 3 && clear
"""


def script_faults(installed, ti_run):
    """A script of sh on ti-run: its programs are as without it."""
    if not shutil.which("tput"):
        return []
    script, faults = os.path.join(installed, "script.sh"), []
    with open(script, "w", encoding="utf-8") as file:
        file.write(SCRIPT)
    os.chmod(script, 0o755)
    plain = environment(None, TERM="xterm-256color")
    # a library that is there already, as fakeroot's is, stays
    for more in ({}, {"LD_PRELOAD": "libm.so.6", "LD_LIBRARY_PATH": "/none"}):
        for words in ([script], ["sh", script], ["env", script]):
            told = [run(start + words, env={**plain, **more}) for start in ([ti_run], [])]
            if told[0] != told[1] or "libtinfo" not in told[0][1]:
                faults.append(f"ti-run {words} with {more}: {told[0]}, and without it {told[1]}")
    os.remove(script)
    return faults


CASES = {
    "symbols": check_symbols, "answers": check_answers, "sanitizers": check_sanitizers, "errors": check_errors,
    "directories": check_directories, "modes": check_modes, "formats": check_formats, "damaged": check_damaged,
    "memory": check_memory, "internals": check_internals, "searches": check_searches, "curses": check_curses, "reached": check_reached,
    "objects": check_objects, "tools": lambda room: tools.faults(room), "install": check_install,
    "entries": check_entries,
}


def check_programs(room, tally, names):
    """The programs, several at once."""
    def faults(name):
        try:
            return screens.faults(name, room)
        except Skipped as why:
            return why
        except (OSError, subprocess.SubprocessError) as error:
            return [str(error)]

    with ThreadPoolExecutor(AT_ONCE) as pool:
        for name, found in zip(names, pool.map(faults, names)):
            if isinstance(found, Skipped):
                tally.skip(name, found)
            else:
                tally.add(name, found)


def main():
    tally = Tally("tinfo")
    for program in (library.compiler(), "objdump"):
        if not shutil.which(program):
            tally.skip("tinfo", f"{program} is not installed")
            return tally.close()
    if not os.path.exists(ARCHIVE):
        print("crates/ti_c/out/libti_c.a is not built")
        print("tinfo: 0 passed, 1 failed")
        return 1
    with tempfile.TemporaryDirectory(prefix="ti-tinfo-") as directory:
        room = Room(directory)
        room.make()
        wanted = sys.argv[1:] or [*CASES, *screens.PROGRAMS]
        if wanted == ["--table"]:
            wanted = ["objects", "reached"]
        for name in wanted:
            if name in CASES:
                check_case(room, tally, name)
        check_programs(room, tally, [name for name in wanted if name in screens.PROGRAMS])
    return tally.close()


def check_case(room, tally, name):
    try:
        print(f"{name}:", flush=True)
        tally.add(name, CASES[name](room))
    except Skipped as why:
        tally.skip(name, why)
    except (AssertionError, OSError, subprocess.SubprocessError) as error:
        tally.add(name, [str(error)])


if __name__ == "__main__":
    sys.exit(main())
