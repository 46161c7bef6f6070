#!/usr/bin/env python3
"""Tests the C library: its calls from C, and its answers compared with those of other libraries.

    tests/library/run.py [CASE..]      the cases named, or all of them

The archive of crates/ti_c is built already, by the gate or by `make library`. The cases:

header        ti.h and ti_names.h compile in C99 to C23 and C++98 to C++23 without a warning, before and
              after curses.h and term.h, and by themselves with every warning that clang has; a status of
              another enum gets a warning
symbols       both libraries export what ti.h declares, and nothing else; the shared one with a
              version, as debian/libti2.symbols lists them
names         ti_names.h follows from the tables of ti_caps, and its constants are the places of the
              names
calls         every call and every refusal (calls.c), from each library and under sanitizers
sending       strings sent by name, delays, look-ups by place, rates (sending.c), likewise
changed       entries that are changed in memory (changed.c), and those of the system compared, byte by
              byte, with what tic of ncurses makes of their changed sources
wrapper       ti.hpp compiles in C++17 to C++23 without a warning, before and after curses.h and term.h too,
              and does what it says (wrapper.cpp)
rust          bindings/rust is compiled by rustc without a warning, and its tests pass; by that of
              Debian too, if another one is found first
go            bindings/go is compiled by go and cgo, without a network, and its tests pass
terminal      a terminal that is opened once (terminal.c), on an entry with user-defined strings too
memory        each allocation refused in turn (memory.c), also under sanitizers
damaged       damaged entries (damaged.c), under sanitizers
open          ti_open finds what ncurses finds in each environment, and passes over what is damaged;
              ti_open_profile finds and refuses what `ti tput` does
tput          a program in C and `ti tput` write the same bytes
ncurses       every entry of the system, compared with ncurses (against_ncurses.c)
tputs         its padding, compared with tputs (against_tputs.c)
unibilium     these entries, compared with unibilium (against_unibilium.c)
page          the example of ti(3) is compiled, and writes what the page says
commands      the commands of docs/LIBRARY.md work on the installed library
examples      the programs of README, docs/LIBRARY.md and docs/TUTORIAL.md, and those of examples/, in C and Python
python        the module of python/ti, compared with `curses` on every entry of the system
garbage       no call of the module touches freed memory, whatever it is given (python_garbage.py)
wheel         `pip install` of the wheel in a new virtual environment gives a module that runs
types         mypy --strict accepts the module, the program of docs/LIBRARY.md and those of examples/
install       `make install-library` puts what a program needs into the directories that it is given

What is not installed is skipped, and said to be. The last line is
`library: N passed, M failed[, K skipped]`.
"""

import glob
import hashlib
import itertools
import os
import re
import shutil
import struct
import subprocess
import sys
import tempfile
import time
from concurrent.futures import ThreadPoolExecutor

HERE = os.path.dirname(os.path.abspath(__file__))
sys.path.insert(0, os.path.dirname(HERE))
from common import (  # noqa: E402
    ENTRY_DIRECTORIES, PROGRAM, TOP, Skipped, Tally, entry_file, files_below, need, programs_of, text_of,
)
import library  # noqa: E402
import transcript  # noqa: E402
import wheel  # noqa: E402

ARCHIVE = os.path.join(TOP, "crates", "ti_c", "out", "libti_c.a")
INCLUDE = os.path.join(TOP, "include")
WARN = ["-Wall", "-Wextra", "-Wpedantic", "-Werror"]
SANITIZE = ["-g", "-fsanitize=address,undefined", "-fno-sanitize-recover=all"]
# how many processes compare the entries of the system
AT_ONCE = 4
# terminals in use whose entries have user-defined capabilities
KNOWN_ENTRIES = ("xterm-256color", "tmux-256color", "kitty", "foot", "alacritty")


def run(words, **more):
    """Runs a command. Gives its status and all that it wrote."""
    more = {"stdin": subprocess.DEVNULL, "timeout": 300, **more}
    if "input" in more:
        del more["stdin"]
    done = subprocess.run(words, stdout=subprocess.PIPE, stderr=subprocess.STDOUT, check=False, **more)
    return done.returncode, done.stdout.decode(errors="replace")


class Room:
    """A directory with both libraries, in which programs are compiled."""

    def __init__(self, directory):
        self.directory = directory
        self.compiler = library.compiler()

    def path(self, name):
        return os.path.join(self.directory, name)

    def write(self, name, text):
        """Writes a file. Gives its path."""
        with open(self.path(name), "w", encoding="utf-8") as file:
            file.write(text)
        return self.path(name)

    def archive(self, words):
        """The static library, its part in C under sanitizers if a program is."""
        if not set(SANITIZE) <= set(words):
            return self.path("libti.a")
        directory = self.path("sanitized")
        if not os.path.isdir(directory):
            library.make(ARCHIVE, directory, SANITIZE, ["libti.a"])
        return f"{directory}/libti.a"

    def compile(self, source, *words, libraries=(), shared=False):
        """Compiles a source of this directory. Gives the program."""
        name = f"{os.path.basename(source).partition('.')[0]}-{len(os.listdir(self.directory))}"
        linked = ["-L", self.directory, "-l:libti.so.2", f"-Wl,-rpath,{self.directory}"]
        status, said = run([
            self.compiler, "-std=c99", "-D_DEFAULT_SOURCE", "-O1", *WARN, "-I", INCLUDE, *words,
            os.path.join(HERE, source), *(linked if shared else [self.archive(words)]), *libraries,
            "-o", self.path(name),
        ])
        if status:
            raise AssertionError(f"{source} is not compiled: {said}")
        return self.path(name)

    def faults(self, words, **more):
        """Runs a program. Gives its faults: what it said, unless it ended well."""
        status, said = run(words, **more)
        print(f"    {os.path.basename(words[0])}: {said.strip().splitlines()[-1:] or ['']}"[:160])
        return [] if status == 0 else [f"status {status}"] + said.splitlines()[-20:]


def has_header(room, header):
    """Skips a case unless the header of another library is installed."""
    status, _ = run([room.compiler, "-E", "-x", "c", "-"], input=f"#include <{header}>\n".encode())
    if status:
        raise Skipped(f"{header} is not installed")


# what a program may have a compiler warn of
WARN_MORE = ["-Wshadow", "-Wconversion", "-Wcast-qual", "-Wcast-align", "-Wundef", "-Wredundant-decls", "-Wswitch-enum"]
OF_C = ["-Wstrict-prototypes", "-Wmissing-prototypes", "-Wold-style-definition", "-Wwrite-strings", "-Wc++-compat"]
OF_CXX = ["-Wold-style-cast", "-Wzero-as-null-pointer-constant", "-Weffc++", "-Wsign-promo", "-Wmissing-declarations"]
# every warning of clang, but that a struct has padding, and that C++11 is not C++98
EACH_OF_CLANG = ["-Weverything", "-Wno-padded", "-Wno-c++98-compat", "-Wno-c++98-compat-pedantic"]
# each compiler, its language, and its standards
COMPILERS = [
    ("gcc", "c", ["c99", "c11", "c17", "c2x"], OF_C), ("clang", "c", ["c99", "c11", "c17", "c2x"], OF_C),
    ("g++", "c++", ["c++98", "c++11", "c++14", "c++17", "c++20", "c++2b"], OF_CXX),
    ("clang++", "c++", ["c++98", "c++11", "c++14", "c++17", "c++20", "c++2b"], OF_CXX),
]
# in C++ each struct is named without its `struct`, in C it cannot be
USES = """#ifdef __cplusplus
#define OF(name) name
#else
#define OF(name) struct name
#endif
#if defined __cplusplus && __cplusplus >= 201103L
#define NONE nullptr
#else
#define NONE NULL
#endif
int main(void) {
    OF(ti_text) text = TI_NOTHING;
    OF(ti_place) place = TI_CUP;
    OF(ti_entry) entry = TI_ENTRY_EMPTY;
    OF(ti_extension) extension = TI_EXTENSION_EMPTY;
    OF(ti_value) value = TI_VALUE_EMPTY;
    OF(ti_parameter) parameter = ti_number_given(2);
    OF(ti_parameters) taken = TI_PARAMETERS_EMPTY;
    OF(ti_variables) variables = { { 0 } };
    OF(ti_line) line = TI_LINE_EMPTY;
    OF(ti_delay) delay = TI_DELAY_EMPTY;
    OF(ti_output) output = { NONE, NONE, NONE };
    OF(ti_change) change = TI_CHANGE_EMPTY;
    OF(ti_terminal) *terminal = NONE;
    if (ti_terminal_change(terminal, &change, 1).status != TI_OK) return 1;
    if (ti_terminal_open("xterm", 1, &terminal) != TI_OK) return 1;
    OF(ti_size) size = ti_terminal_size(terminal);
#if !defined __cplusplus || __cplusplus >= 201103L
    if (ti_put(terminal, TI_CLEAR).status != TI_OK || ti_put(terminal, TI_CUP, 1, 2).status != TI_OK) return 1;
    if (ti_put_named(terminal, "Smulx", 3).status != TI_OK || ti_put_named(terminal, "sgr0").status != TI_OK) return 1;
#endif
    OF(ti_outcome) sent = ti_send(&entry, &variables, &line, "cup", &parameter, 1, 1, &output);
    enum ti_status status = ti_extension_read(&entry, &extension);
    bool is = ti_parameters_of(text.bytes, text.size, &taken) && value.is_present && delay.tenths;
    is = is || size.width || status != TI_OK || sent.status == TI_OK;
    return is || place.kind != TI_STRING || TI_VERSION_MAJOR != 2;
}
"""
OURS = '#include "ti.h"\n#include "ti_names.h"\n#include "ti.h"\n#include "ti_names.h"\n'
THEIRS = "#include <curses.h>\n#include <term.h>\n"


def syntax(compiler, language, standard, warnings, source):
    """What a compiler says of a source."""
    words = [compiler, "-x", language, f"-std={standard}", *WARN, *warnings, "-I", INCLUDE, "-fsyntax-only", source]
    status, said = run(words)
    return said.splitlines()[:5] if status or said else []


def check_header(room):
    sources = [room.write("uses.c", OURS + USES)]
    alone = room.write("alone.c", OURS)
    if run([room.compiler, "-E", "-x", "c", "-"], input=THEIRS.encode())[0]:
        print("    not tried with curses.h and term.h, which are not installed")
    else:
        sources += [room.write("uses-after.c", THEIRS + OURS + USES), room.write("uses-before.c", OURS + THEIRS + USES)]
    faults, tried = [], 0
    for compiler, language, standards, warnings in COMPILERS:
        if not shutil.which(compiler):
            print(f"    not tried with {compiler}, which is not installed")
            continue
        for standard in standards:
            for source in sources:
                tried += 1
                said = syntax(compiler, language, standard, [*WARN_MORE, *warnings], source)
                faults += [f"{compiler} {standard}: {line}" for line in said]
            faults += syntax(compiler, language, standard, [], f"{INCLUDE}/ti.c")
            if compiler.startswith("clang"):
                faults += syntax(compiler, language, standard, EACH_OF_CLANG, alone)
    other = 'enum other { ANOTHER = 1 };\nint main(void) { return ti_strerror(TI_OK) && TI_SHORT == ANOTHER; }\n'
    if not syntax(room.compiler, "c", "c99", [], room.write("other.c", OURS + other)):
        faults.append("a status compared with another enum gets no warning")
    print(f"    {tried} programs")
    return faults


def declared():
    """The functions that ti.h declares."""
    text = re.sub(r"/\*.*?\*/|^#[^\n]*", "", text_of("include", "ti.h"), flags=re.S | re.M)
    return sorted(set(re.findall(r"\b(ti_\w+)\([^;{}]*\);", text)))


def called():
    """The functions and the macros that a program calls."""
    return sorted({*declared(), *re.findall(r"^#define (ti_\w+)\(", text_of("include", "ti.h"), re.M)})


def check_symbols(room):
    wanted, faults = declared(), []
    for option, name in (("-g", "libti.a"), ("-D", "libti.so.2")):
        _, said = run(["nm", option, "--defined-only", room.path(name)])
        # the name of a version is there too, as a number
        found = sorted(line.split()[2] for line in said.splitlines() if re.search(" [^A] ", line))
        ending = "@@LIBTI_2" if name == "libti.so.2" else ""
        if found != [f"{symbol}{ending}" for symbol in wanted]:
            faults.append(f"{name}: {found}")
    listed = re.findall(r"^ (ti_\w+)@LIBTI_2 ", text_of("debian", "libti2.symbols"), re.M)
    if listed != wanted:
        faults.append(f"debian/libti2.symbols: {set(listed) ^ set(wanted)}")
    _, said = run(["readelf", "-d", room.path("libti.so.2")])
    needed = re.findall(r"NEEDED.*\[(.*)\]", said)
    if needed != ["libc.so.6"] or "[libti.so.2]" not in said or "TEXTREL" in said or "BIND_NOW" not in said:
        faults.append(f"libti.so.2: {said}")
    return faults


def check_names(room):
    """Each constant is compared with what ti_capability finds for the name in its comment."""
    status, said = run([sys.executable, os.path.join(TOP, "build", "capabilities.py"), "--check"])
    if status:
        return [said]
    rows = re.findall(r"^#define (TI_\w+) TI_PLACE\(.*?/\* (\w+),", text_of("include", "ti_names.h"), re.M)
    lines = "".join(f'    CHECK(is_at("{name}", {constant}));\n' for constant, name in rows)
    source = room.write("names.c", f"""#include "test.h"
#include "ti_names.h"
static bool is_at(const char *name, struct ti_place wanted) {{
    struct ti_place place = {{ 9, 9 }};
    bool found = ti_capability((const uint8_t *)name, strlen(name), &place);
    return found && place.kind == wanted.kind && place.index == wanted.index;
}}
int main(void) {{
    CHECK({len(rows)} == TI_FLAGS + TI_NUMBERS + TI_STRINGS);
{lines}    return close_checks();
}}
""")
    return room.faults([room.compile(source, "-I", HERE)])


def check_all_ways(room, source):
    """Runs a program with each library, and under sanitizers."""
    faults = room.faults([room.compile(source)])
    faults += room.faults([room.compile(source, shared=True)])
    return faults + room.faults([room.compile(source, *SANITIZE)])


def check_calls(room):
    return check_all_ways(room, "calls.c")


def check_sending(room):
    return check_all_ways(room, "sending.c")


def dumb_entry(room):
    """A directory of entries with `dumb`, and the entry's bytes."""
    directory = room.path("entries")
    os.makedirs(f"{directory}/d", exist_ok=True)
    names = b"dumb|tty|80-column dumb tty\0"
    offsets = [-1] * 12
    offsets[1], offsets[2], offsets[11] = 0, 2, 4
    table = b"\a\0\r\0\n\0"
    words = lambda numbers: b"".join((number & 0xFFFF).to_bytes(2, "little") for number in numbers)
    entry = words([0o432, len(names), 2, 1, 12, len(table)]) + names + b"\0\1" + words([80, *offsets]) + table
    with open(f"{directory}/d/dumb", "wb") as file:
        file.write(entry)
    return directory, entry


def clean_environment(**more):
    kept = {name: value for name, value in os.environ.items() if not name.startswith("TERM")}
    return {**kept, **more}


def check_terminal(room):
    directory, _ = dumb_entry(room)
    programs = [room.compile("terminal.c"), room.compile("terminal.c", *SANITIZE)]
    environment = clean_environment(TERMINFO=directory, HOME="")
    faults = [fault for program in programs for fault in room.faults([program], env=environment)]
    # its entry has Smulx, Ms and parameters
    if not entry_file("tmux-256color"):
        print("    not tried with tmux-256color, which the system does not have")
        return faults
    environment = clean_environment(TERMINFO_DIRS=":".join(ENTRY_DIRECTORIES), HOME="")
    for program in programs:
        faults += room.faults([program, "tmux-256color"], env=environment)
    return faults


# changes of an entry, as words of changed.c and as items of a source, in which a `@` takes away
CHANGES = [
    ("S:setaf:\033[3%p1%dm", "setaf=\\E[3%p1%dm"), ("S:Smulx:\033[4:%p1%dm", "Smulx=\\E[4:%p1%dm"),
    ("S:AX2:", "AX2="), ("S:cup:$<5>%%", "cup=$<5>%%"), ("N:cols:132", "cols#132"), ("N:U8:1", "U8#1"), ("N:pairs:32767", "pairs#32767"),
    ("F:Tc", "Tc"), ("F:hs", "hs"), ("A:smcup", "smcup@"), ("A:bce", "bce@"), ("A:it", "it@"), ("A:XM", "XM@"), ("A:nosuch", "nosuch@"),
]
WIDER = [*CHANGES, ("N:colors:16777216", "colors#0x1000000")]


def changed_source(path, items):
    """The source of an entry, as infocmp of ncurses lists it, with changes."""
    status, said = run(["infocmp", "-1", "-x", "-A", os.path.dirname(os.path.dirname(path)), os.path.basename(path)])
    if status:
        raise AssertionError(said)
    names, *rest = [line for line in said.splitlines() if not line.startswith("#")]
    named = {re.match(r"\w+", item)[0] for item in items}
    kept = [line for line in rest if re.match(r"\s*(\w+)", line)[1] not in named]
    return "\n".join([names, *kept, *(f"\t{item}," for item in items if not item.endswith("@")), ""])


def changed_faults(room, program, path, changes):
    """Whether a changed entry has the bytes that tic of ncurses gives its changed source."""
    directory = room.path(f"changed-{len(os.listdir(room.directory))}")
    source = room.write("changed.ti", changed_source(path, [item for _, item in changes]))
    status, said = run(["tic", "-x", "-o", directory, source])
    made = subprocess.run([program, path, *(word for word, _ in changes)], stdout=subprocess.PIPE, check=False)
    files = files_below(directory) if os.path.isdir(directory) else []
    if status or not files:
        return [f"tic refuses the source of {path}: {said}"]
    with open(os.path.join(directory, files[0]), "rb") as file:
        wanted = file.read()
    return [] if made.stdout == wanted else [f"{path}: status {made.returncode}, {made.stdout!r}, not {wanted!r}"]


def check_changed(room):
    faults = check_all_ways(room, "changed.c")
    if not shutil.which("tic") or not shutil.which("infocmp"):
        print("    not compared with ncurses, whose tic and infocmp are not installed")
        return faults
    program, tried = room.compile("changed.c", *SANITIZE), 0
    for name in (*KNOWN_ENTRIES, "vt100", "linux"):
        path = entry_file(name)
        for changes in (CHANGES, WIDER) if path else ():
            tried += 1
            faults += changed_faults(room, program, path, changes)
    print(f"    {tried} changed entries compared with ncurses")
    return faults


WRAPPER = '#include "ti.hpp"\n'
SENDS = """int main() {
    ti::terminal out(1, "xterm");
    return out.put(TI_CUP, 1, 2) && out.key_of("x").size == 0 ? 0 : 1;
}
"""


def check_wrapper(room):
    if not entry_file("tmux-256color"):
        raise Skipped("the system has no entry of tmux-256color")
    environment = clean_environment(TERMINFO_DIRS=":".join(ENTRY_DIRECTORIES))
    source, faults = os.path.join(HERE, "wrapper.cpp"), []
    sources = [source]
    if run([room.compiler, "-E", "-x", "c", "-"], input=THEIRS.encode())[0] == 0:
        sources += [room.write("after.cpp", f"{THEIRS}{WRAPPER}{SENDS}"), room.write("before.cpp", f"{WRAPPER}{THEIRS}{SENDS}")]
    for compiler, language, standards, warnings in COMPILERS:
        for standard in ("c++17", "c++20", "c++2b") if language == "c++" and shutil.which(compiler) else ():
            for each in sources:
                faults += syntax(compiler, language, standard, [*WARN_MORE, *warnings], each)
        if language == "c++" and shutil.which(compiler):
            program = room.path(f"wrapper-{compiler}")
            words = [compiler, "-std=c++17", *SANITIZE, "-I", INCLUDE, source, room.archive(SANITIZE), "-o", program]
            status, said = run(words)
            faults += said.splitlines() if status else room.faults([program], env=environment)
            page = re.search(r"^```cpp\n(.*?)^```", text_of("docs", "LIBRARY.md"), re.S | re.M)[1]
            faults += syntax(compiler, language, "c++17", [], room.write("page.cpp", page))
    return faults


def check_rust(room):
    if not shutil.which("rustc"):
        raise Skipped("rustc is not installed")
    if not entry_file("tmux-256color"):
        raise Skipped("the system has no entry of tmux-256color")
    faults = []
    for at, compiler in enumerate(sorted({shutil.which("rustc"), shutil.which("rustc", path="/usr/bin")} - {None})):
        directory = room.path(f"rust{at}")
        os.makedirs(directory)
        faults += [f"{compiler}: {fault}" for fault in rust_faults(room, compiler, directory)]
    return faults


def rust_faults(room, compiler, directory):
    """What a compiler says of the binding for Rust, and its tests."""
    # the name that the linker looks for
    shutil.copy(room.path("libti.so.2"), f"{directory}/libti.so")
    source, made = os.path.join(TOP, "bindings", "rust"), f"{directory}/libti_rust.rlib"
    words = [compiler, "--edition", "2021", "-D", "warnings", "-L", directory]
    status, said = run([*words, "--crate-type", "rlib", "--crate-name", "ti", f"{source}/src/lib.rs", "-o", made])
    if status or said:
        return said.splitlines()
    program = f"{directory}/terminal"
    status, said = run([*words, "--test", f"{source}/tests/terminal.rs", "--extern", f"ti={made}", "-o", program])
    if status or said:
        return said.splitlines()
    places = ":".join(ENTRY_DIRECTORIES)
    return room.faults([program], env=clean_environment(TERMINFO_DIRS=places, LD_LIBRARY_PATH=room.directory))


def check_go(room):
    if not shutil.which("go"):
        raise Skipped("go is not installed")
    if not entry_file("tmux-256color"):
        raise Skipped("the system has no entry of tmux-256color")
    source, libraries = room.path("go"), room.path("go-library")
    shutil.copytree(os.path.join(TOP, "bindings", "go"), source)
    os.makedirs(libraries)
    shutil.copy(room.path("libti.so.2"), f"{libraries}/libti.so")
    environment = clean_environment(
        CGO_CFLAGS=f"-I{INCLUDE}", CGO_LDFLAGS=f"-L{libraries}", LD_LIBRARY_PATH=room.directory, CGO_ENABLED="1",
        GOPROXY="off", GOFLAGS="-mod=mod", GOCACHE=room.path("go-cache"), GOPATH=room.path("go-path"),
        TERMINFO_DIRS=":".join(ENTRY_DIRECTORIES),
    )
    faults = []
    for words in (["go", "vet", "./..."], ["go", "test", "./..."]):
        status, said = run(words, cwd=source, env=environment)
        faults += said.splitlines() if status else []
    _, said = run(["gofmt", "-l", "."], cwd=source) if shutil.which("gofmt") else (0, "")
    return faults + [f"not as gofmt lays it out: {line}" for line in said.splitlines()]


def check_memory(room):
    directory, _ = dumb_entry(room)
    wraps = [f"-Wl,--wrap={name}" for name in ("malloc", "realloc", "free")]
    environment = clean_environment(TERMINFO=directory)
    faults = []
    for flags in ([], SANITIZE):
        program = room.compile("memory.c", "-fno-builtin", *wraps, *flags)
        faults += room.faults([program], env=environment)
    return faults


def is_extended(path):
    """Whether a file is a compiled entry with bytes after its string table (term(5), "Extended storage format")."""
    with open(path, "rb") as file:
        data = file.read()
    if len(data) < 12 or int.from_bytes(data[:2], "little") not in (282, 542):
        return False
    names, flags, numbers, strings, table = struct.unpack("<5h", data[2:12])
    after = 12 + names + flags
    after += after % 2 + (4 if data[1] == 2 else 2) * numbers + 2 * strings + table
    return len(data) >= after + after % 2 + 10


def extended_entries(count):
    """The paths of so many installed entries with user-defined capabilities, terminals in use first."""
    found = {}
    for directory in ENTRY_DIRECTORIES:
        for name in files_below(directory):
            found.setdefault(os.path.basename(name), os.path.join(directory, name))
    known = [name for name in KNOWN_ENTRIES if name in found] + sorted(set(found) - set(KNOWN_ENTRIES))
    return list(itertools.islice((found[name] for name in known if is_extended(found[name])), count))


def check_damaged(room):
    return room.faults([room.compile("damaged.c", *SANITIZE), *extended_entries(5)])


# What `ti tput` says on standard error of each refusal, and the status of ti_open_profile.
REFUSALS = ["Short", "Magic", "Counts", "Truncated", "BadNames", "BadFlag", "BadNumber", "BadOffset"]
NO_TERMINAL, READ_FAILED, BAD_NAME, TERM_UNSET, EMPTY_NAME, PATH_NAME = 10, 11, 17, 21, 22, 23


def files_to_open(entry):
    """What is at the path of an entry (bytes, a directory, a pipe), by name, and its status."""
    flags = 12 + len(b"dumb|tty|80-column dumb tty\0")
    put = lambda at, byte: entry[:at] + bytes([byte]) + entry[at + 1:]
    return {
        "good": (entry, 0), "longer": (entry + b"x" * (65536 - len(entry)), 0),
        "empty": (b"", 1), "magic": (put(0, 0), 2), "counts": (put(4, 45), 3),
        "truncated": (entry[:-1], 4), "names": (put(14, 0), 5), "flag": (put(flags, 9), 6),
        "number": (put(flags + 3, 0x80), 7), "offset": (put(flags + 4, 0xF0), 8),
        "too-long": (entry + b"x" * (65537 - len(entry)), 3),
        "too-long-and-bad": (put(flags, 9) + b"x" * 70000, 6), "directory": (os.mkdir, READ_FAILED),
        "pipe": (os.mkfifo, READ_FAILED),
    }


def put_file(directory, name, content):
    """Puts a file where an entry of the name is below a directory. Gives its path."""
    path = os.path.join(directory, name[0], name)
    os.makedirs(os.path.dirname(path), exist_ok=True)
    if callable(content):
        content(path)
    else:
        with open(path, "wb") as file:
            file.write(content)
    return path


def opened(program, words, **variables):
    """The status, the description and the path that a program prints of an entry that it opens."""
    status, said = run([program, *words], env=clean_environment(**variables))
    number, description, path = (said.split("\n") + [""] * 3)[:3]
    return (int(number) if status == 0 and number.isdigit() else said), description, path


def profile_faults(program, directory, entry):
    """Whether ti_open_profile finds and refuses what `ti tput` does, and ti_open the same files."""
    for name, (content, wanted) in files_to_open(entry).items():
        path = put_file(directory, name, content)
        here = {"TERMINFO": directory, "HOME": ""}
        found = opened(program, ["profile", name], **here)
        if found[0] != wanted:
            yield f"ti_open_profile of {name}: {found}, not {wanted}"
        found = opened(program, [name], **here)
        if found[0] != wanted or found[2] != path:
            yield f"ti_open of {name}: {found}, not {wanted}"
        if os.access(PROGRAM, os.X_OK):
            status, said = run([PROGRAM, "tput", "-T", name, "cols"], env=clean_environment(TERMINFO=directory))
            refused = next((at + 1 for at, word in enumerate(REFUSALS) if word in said), READ_FAILED)
            if (refused if status else 0) != wanted:
                yield f"ti tput -T {name}: {status}, {said!r}, and ti_open_profile {wanted}"
    system = {"TERMINFO": "/no-such", "TERMINFO_DIRS": f"::{directory}::"}
    if opened(program, ["profile", "good"], **system)[0] != 0:
        yield "ti_open_profile does not find an entry by TERMINFO_DIRS"


def name_faults(program, below, directory):
    """Whether each name that no entry can have gets a status of its own."""
    names = {"no-such": NO_TERMINAL, "": EMPTY_NAME, ".": BAD_NAME, "..": BAD_NAME, "a b": BAD_NAME, "\u00e9": BAD_NAME,
             "a/b": PATH_NAME, "/etc/passwd": PATH_NAME}
    for name, wanted in names.items():
        for words, variables in (([name], {}), (["profile", name], {}), ([], {"TERM": name})):
            found = opened(program, words, TERMINFO=directory, **variables)
            if found != (wanted, "", ""):
                yield f"{words}, {variables}: {found}, not {wanted}"
        found = opened(below, [directory, name])[0]
        if found != wanted:
            yield f"ti_open_below of {name!r}: {found}, not {wanted}"
    for words in ([], ["profile"]):
        if opened(program, words, TERMINFO=directory)[0] != TERM_UNSET:
            yield "TERM that is not set has another status"
    for place, name, wanted in ((directory, "good", 0), (directory, "flag", 6), ("/no-such", "good", NO_TERMINAL)):
        if opened(below, [place, name])[0] != wanted:
            yield f"ti_open_below of {place}, {name} is not {wanted}"


# what may be at the path of an entry below a directory, and whether ncurses takes it
STATES = ["good", "damaged", "absent", "no directory"]


def environments(room, entry):
    """Environments with directories of each state in TERMINFO, HOME and TERMINFO_DIRS."""
    places = {}
    for state in STATES:
        for place in ("own", "home/.terminfo", "first", "second"):
            directory = room.path(f"search/{state.replace(' ', '-')}/{place}")
            os.makedirs(os.path.dirname(directory), exist_ok=True)
            places[state, place] = directory
            described = entry.replace(b"80-column dumb tty", f"{place[:5]:18}".encode())
            if state in ("good", "damaged"):
                put_file(directory, "probe", described if state == "good" else described[:-1])
            elif state == "absent":
                os.makedirs(directory)
            else:
                # a file in the place of a directory cannot be searched, even by root
                with open(directory, "wb"):
                    pass
    for own, home, first, second in itertools.product([*STATES, None], [*STATES, None], STATES, STATES):
        given = {}
        if own:
            given["TERMINFO"] = places[own, "own"]
        given["HOME"] = os.path.dirname(places[home, "home/.terminfo"]) if home else ""
        given["TERMINFO_DIRS"] = f"{places[first, 'first']}::{places[second, 'second']}"
        yield given


def order_faults(program, room, entry):
    """Whether ti_open finds the entry that ncurses's tput finds, in each environment."""
    tried = 0
    for given in environments(room, entry):
        tried += 1
        status, said = run(["tput", "-T", "probe", "longname"], env=clean_environment(**given))
        found = opened(program, ["probe"], **given)
        if (found[1] if found[0] == 0 else "") != (said if status == 0 else ""):
            yield f"{given}: ti_open {found}, tput {status}, {said!r}"
    print(f"    {tried} environments compared with ncurses")


def search_faults(program, room, entry):
    """What of the search ncurses does not show: status and path, long variables, hexadecimal."""
    good, bad = room.path("search/good"), room.path("search/damaged")
    tried = [
        # the status and the path of the first file that was passed over, if there is no entry
        ({"TERMINFO": f"{bad}/own", "HOME": bad}, (4, "", f"{bad}/own/p/probe")),
        ({"TERMINFO": "/no-such", "HOME": f"{bad}/home"}, (4, "", f"{bad}/home/.terminfo/p/probe")),
        ({"TERMINFO": f"{bad}/own", "TERMINFO_DIRS": f"{good}/first"}, (0, f"{'first':18}", f"{good}/first/p/probe")),
        ({"TERMINFO": "/no-such", "HOME": "/no-such"}, (NO_TERMINAL, "", "")),
        # a TERMINFO that is longer than any path
        ({"TERMINFO": "/x" * 9000, "TERMINFO_DIRS": f"{good}/first"}, (0, f"{'first':18}", f"{good}/first/p/probe")),
        ({"TERMINFO": "", "HOME": "", "TERMINFO_DIRS": ""}, (NO_TERMINAL, "", "")),
    ]
    for given, wanted in tried:
        found = opened(program, ["probe"], **{"HOME": "", **given})
        if found != wanted:
            yield f"{given}: {found}, not {wanted}"
    os.makedirs(room.path("hexadecimal/68"))
    with open(room.path("hexadecimal/68/hex"), "wb") as file:
        file.write(entry)
    found = opened(program, ["hex"], TERMINFO=room.path("hexadecimal"))
    if found != (0, "80-column dumb tty", room.path("hexadecimal/68/hex")):
        yield f"an entry by its first byte in hexadecimal: {found}"


def check_open(room):
    directory, entry = dumb_entry(room)
    program, below = room.compile("open.c", *SANITIZE), room.compile("below.c", *SANITIZE)
    faults = list(profile_faults(program, directory, entry))
    faults += name_faults(program, below, directory)
    if shutil.which("tput"):
        faults += order_faults(program, room, entry)
        faults += search_faults(program, room, entry)
    else:
        print("    not compared with ncurses, whose tput is not installed")
    if opened(program, [], TERM="dumb", TERMINFO=directory)[0] != 0:
        faults.append("TERM is not used")
    return faults


def entries_of_system():
    """A name and a file for each entry of the system that ncurses can find, each once."""
    found, seen = [], set()
    for directory in ENTRY_DIRECTORIES:
        for path in sorted(glob.glob(f"{directory}/?/*")):
            name = os.path.basename(path)
            with open(path, "rb") as file:
                content = file.read()
            # ncurses takes the first directory that has the name
            if name in {known for known, _ in found} or content[:2] not in (b"\x1a\x01", b"\x1e\x02"):
                continue
            digest = hashlib.sha256(content).digest()
            if digest not in seen:
                seen.add(digest)
                found.append((name, path))
    return found


def compare_all(room, program, lines=False):
    """Runs a comparison over the system's entries, in several processes; they are given as lines of
    names and files, or as files in words. Gives its faults."""
    entries = entries_of_system()
    if not entries:
        raise Skipped("the system has no terminfo entries")
    environment = clean_environment(TERMINFO_DIRS=":".join(ENTRY_DIRECTORIES), TERM="dumb")
    parts = [entries[at::AT_ONCE] for at in range(AT_ONCE)]

    def compare(part):
        if lines:
            given = "".join(f"{name} {path}\n" for name, path in part).encode()
            return room.faults([program], input=given, env=environment)
        return room.faults([program, *(path for _, path in part)], env=environment)

    with ThreadPoolExecutor(AT_ONCE) as pool:
        return [fault for faults in pool.map(compare, parts) for fault in faults]


def compare_with_ncurses(room, source):
    """Runs a comparison with ncurses over the system's entries."""
    has_header(room, "term.h")
    program = room.compile(source, libraries=["-lncurses", "-ltinfo"])
    return compare_all(room, program, lines=True)


def check_ncurses(room):
    return compare_with_ncurses(room, "against_ncurses.c")


def check_tputs(room):
    return compare_with_ncurses(room, "against_tputs.c")


def check_unibilium(room):
    has_header(room, "unibilium.h")
    return compare_all(room, room.compile("against_unibilium.c", libraries=["-lunibilium"]))


# Commands, and how the same is asked of ti_expand and ti_pad by the program tput.c.
COMMANDS = [
    ["cup", "4", "9"], ["setaf", "200"], ["setaf", "1"], ["bel"], ["cr"], ["clear"], ["flash"],
    ["csr", "3", "20"], ["sgr", "1", "0", "1", "0", "0", "1", "0", "0", "0"], ["smcup"], ["no-such"],
]


def check_tput(room):
    if not os.access(PROGRAM, os.X_OK):
        raise Skipped("crates/ti/out/ti is not built")
    program = room.compile("tput.c", *SANITIZE)
    faults, tried = [], 0
    names = [name for name in ("xterm-256color", "vt100", "linux", "dumb") if entry_file(name)]
    if not names:
        raise Skipped("the system has no terminfo entries")
    environment = clean_environment(TERMINFO_DIRS=":".join(ENTRY_DIRECTORIES))
    for name in names:
        for words in COMMANDS:
            tried += 1
            ours = run([program, name, *words], env=environment)
            theirs = run([PROGRAM, "tput", "-T", name, *words], env=environment)
            if ours[0] != theirs[0] or (ours[0] == 0 and ours[1] != theirs[1]):
                faults.append(f"{name} {words}: {ours}, ti tput {theirs}")
    print(f"    {tried} commands")
    return faults


# what the second example of the page is compiled with
DRAWING = """#include <stdio.h>
#include <termios.h>
#include <time.h>
#include <ti.h>
#include <unistd.h>

%s
int main(void) {
    struct ti_entry *entry;
    if (ti_open("xterm-256color", &entry)) return 1;
    draw(entry);
    ti_entry_free(entry);
    return 0;
}
"""


def drawing_faults(room, example):
    """What is wrong with the example that moves the cursor and flashes the screen."""
    if not entry_file("xterm-256color"):
        return []
    program = room.compile(room.write("drawing.c", DRAWING % example), *SANITIZE)
    environment = clean_environment(TERMINFO_DIRS=":".join(ENTRY_DIRECTORIES))
    began = time.monotonic()
    status, said = run([program], env=environment)
    faults = [] if (status, said) == (0, "\033[5;10H\033[?5h\033[?5l") else [f"drawing: {status}, {said!r}"]
    # the delay of flash is 100 milliseconds
    return faults + ([] if time.monotonic() - began >= 0.1 else ["flash is not to be seen"])


def check_page(room):
    """The examples of the page are in it between `.Bd` and `.Ed`, with \\e for each backslash."""
    page = text_of("man", "ti.3")
    section = re.search(r"^\.Sh EXAMPLES\n(.*?)^\.Sh ", page, re.S | re.M)[1]
    section = section.replace("\\e", "\\").replace("\\(aq", "'").replace("\\&", "")
    section = section.replace("\\(dq", '"')
    first, green, second = re.findall(r"^\.Bd -literal[^\n]*\n(.*?)^\.Ed", section, re.S | re.M)
    directory, _ = dumb_entry(room)
    program = room.compile(room.write("page.c", first), *SANITIZE)
    status, said = run([program], env=clean_environment(TERMINFO=directory, TERM="dumb"))
    faults = [] if (status, said) == (0, "dumb: 80 columns\n") else [f"{status}, {said!r}"]
    program = room.compile(room.write("green.c", green), *SANITIZE)
    if entry_file("xterm"):
        status, said = run([program], env=clean_environment(TERMINFO_DIRS=":".join(ENTRY_DIRECTORIES), TERM="xterm"))
        faults += [] if (status, said) == (0, "\033[32mgreen\033(B\033[m") else [f"green: {status}, {said!r}"]
    faults += drawing_faults(room, second)
    faults += [f"the page says nothing of {name}" for name in called() if name not in page]
    if shutil.which("mandoc"):
        status, said = run(["mandoc", "-T", "lint", "-W", "warning", os.path.join(TOP, "man", "ti.3")])
        faults += said.splitlines() if status or said else []
    return faults


# What is put around the functions that docs/LIBRARY.md shows.
AROUND = """#include <stdio.h>
#include <ti.h>
%s
%s
%s
int main(void) {
    struct ti_terminal *terminal;
    struct ti_text smcup = TI_NOTHING;
    struct ti_entry *entry;
    struct ti_line line = TI_LINE_EMPTY;
    if (ti_open(NULL, &entry) != TI_OK) return 1;
    ti_line_of(entry, 38400, &line);
    bool moved = move(entry, &line, 4, 9);
    enum ti_status refusal = print_names(entry);
    ti_entry_free(entry);
    if (ti_terminal_open(NULL, 1, &terminal) != TI_OK) return 1;
    bool patched = patch(terminal) == TI_OK && ti_string_named(ti_terminal_entry(terminal), "smcup", &smcup) == 0;
    ti_terminal_close(terminal);
    return moved && patched && refusal == TI_OK ? 0 : 2;
}
"""


def library_page_faults(room, environment):
    """What is wrong with the programs of docs/LIBRARY.md, on the terminal of the environment."""
    page = text_of("docs", "LIBRARY.md")
    first, curly, *functions = re.findall(r"^```c\n(.*?)^```", page, re.S | re.M)
    programs = (
        ("first", first, r"80 columns\n"),
        ("curly", curly, r"\033\[5;10H(\033\[4:3m)?curly\033\(B\033\[m"),
        ("functions", AROUND % tuple(functions), r"\033\[5;10H(.*\n)?XT\n.*"),
    )
    for name, source, wanted in programs:
        with open(room.path(f"{name}.c"), "w", encoding="utf-8") as file:
            file.write(source)
        status, said = run([room.compile(room.path(f"{name}.c"))], env=environment)
        if status or not re.fullmatch(wanted, said, re.S):
            yield f"LIBRARY.md, {name}: {status}, {said!r}"
    script = re.search(r"^```python\n(.*?)^```", page, re.S | re.M)[1]
    given = {**environment, "LIBTI": room.path("libti.so.2"), "PYTHONPATH": os.path.join(TOP, "python")}
    status, said = run([sys.executable, "-c", script], env={**given, "PYTHONDONTWRITEBYTECODE": "1"})
    if (status, said) != (0, "\033[32m"):
        yield f"LIBRARY.md, the script: {status}, {said!r}"


def check_examples(room):
    if not entry_file("xterm-256color"):
        raise Skipped("the system has no entry of xterm-256color")
    with open(room.path("colors.c"), "w", encoding="utf-8") as file:
        file.write(re.search(r"^```c\n(.*?)^```", text_of("README.md"), re.S | re.M)[1])
    places = ":".join(ENTRY_DIRECTORIES)
    environment = clean_environment(TERMINFO_DIRS=places, TERM="xterm-256color", LD_LIBRARY_PATH=room.directory)
    faults = []
    status, said = run([room.compile(room.path("colors.c"))], env=environment)
    if (status, said) != (0, "256 colors\n"):
        faults.append(f"README's program: {status}, {said!r}")
    faults += library_page_faults(room, environment)
    ((text, name),) = programs_of("docs/TUTORIAL.md")
    with open(room.path(name), "w", encoding="utf-8") as file:
        file.write(text)
    status, said = run([room.compile(room.path(name), *SANITIZE)], env=environment)
    if status or not re.fullmatch(r"\033\[33m\033\[4(:3)?mhello\033\(B\033\[m", said):
        faults.append(f"TUTORIAL.md: {status}, {said!r}")
    program = room.compile(os.path.join(TOP, "examples", "palette.c"))
    status, said = run([program], env=environment)
    if status or "\033[38;5;200m" not in said or "\033[2;3H" not in said:
        faults.append(f"palette.c: {status}, {said!r}")
    styles = room.compile(os.path.join(TOP, "examples", "styles.c"), *SANITIZE)
    status, said = run([styles], env=environment, input=b"\033OAx\033[1;5Aq")
    if status or not said.startswith("\033[33morange\r\n\033(B\033[m") or "kcuu1\r\nkUP5\r\n" not in said:
        faults.append(f"styles.c: {status}, {said!r}")
    script = [sys.executable, os.path.join(TOP, "examples", "palette.py")]
    status, said = run(script, env=environment)
    if status or said != "\033[38;5;200mcolor 200\n":
        faults.append(f"palette.py: {status}, {said!r}")
    directory, _ = dumb_entry(room)
    for terminal, wanted in (("no-such", "No terminal has the name"), ("dumb", "the terminal ")):
        given = {**environment, "TERMINFO": directory, "TERM": terminal}
        for words in ([program], script):
            status, said = run(words, env=given)
            name = os.path.basename(words[-1]).partition("-")[0]
            if status != 1 or not said.startswith(f"palette{'.py' if words is script else ''}: {wanted}"):
                faults.append(f"{name} on {terminal}: {status}, {said!r}")
    return faults


def check_python(room):
    environment = python_environment(room)
    words = [sys.executable, os.path.join(HERE, "python_entries.py")]
    with ThreadPoolExecutor(AT_ONCE) as pool:
        directories = [found for found in ENTRY_DIRECTORIES if glob.glob(os.path.join(found, "?", "*"))]
        if not directories:
            raise Skipped("the system has no entries")
        ran = list(pool.map(lambda directory: room.faults([*words, directory], env=environment), directories))
    faults = [fault for faults in ran for fault in faults]
    if entry_file("xterm-256color"):
        script = "import doctest, sys, ti; sys.exit(doctest.testmod(ti).failed)"
        environment["TERMINFO_DIRS"] = ":".join(ENTRY_DIRECTORIES)
        faults += room.faults([sys.executable, "-c", script], env=environment)
    return faults


def python_environment(room):
    return clean_environment(
        LIBTI=room.path("libti.so.2"), PYTHONPATH=os.path.join(TOP, "python"), PYTHONDONTWRITEBYTECODE="1"
    )


def check_garbage(room):
    directory, _ = dumb_entry(room)
    # a block that is freed twice ends the process, and one that is freed is filled
    watched = {"MALLOC_CHECK_": "3", "MALLOC_PERTURB_": "165", "TERMINFO": directory}
    environment = {**python_environment(room), **watched}
    return room.faults([sys.executable, os.path.join(HERE, "python_garbage.py")], env=environment)


def check_wheel(room):
    place, shared = room.path("venv"), room.path("libti.so.2")
    if run([sys.executable, "-m", "venv", place])[0]:
        raise Skipped("python3 -m venv does not make an environment with pip")
    path = room.path(wheel.wheel_name(wheel.project()))
    with open(path, "wb") as file:
        file.write(wheel.wheel(0x60000000, shared))
    status, said = run([f"{place}/bin/pip", "install", "--no-index", path])
    if status:
        return [said]
    directory, _ = dumb_entry(room)
    script = "import ti; entry = ti.Entry.find('dumb'); print(entry.number('cols'), entry.path, ti._library_name())"
    environment = clean_environment(TERMINFO=directory)
    status, said = run([f"{place}/bin/python", "-c", script], cwd=room.directory, env=environment)
    pattern = rf"80 {re.escape(directory)}/d/dumb {re.escape(place)}/\S*/site-packages/ti/libti\.so\.2\n"
    return [] if status == 0 and re.fullmatch(pattern, said) else [f"{status}, {said!r}"]


def check_types(room):
    if not shutil.which("mypy"):
        raise Skipped("mypy is not installed")
    script = re.search(r"^```python\n(.*?)^```", text_of("docs", "LIBRARY.md"), re.S | re.M)[1]
    faults = []
    for path in (os.path.join(TOP, "python", "ti", "__init__.py"), room.write("green.py", script),
                 *glob.glob(os.path.join(TOP, "examples", "*.py"))):
        words = ["mypy", "--strict", "--no-incremental", "--cache-dir", os.devnull, path]
        status, said = run(words, env={**os.environ, "MYPYPATH": os.path.join(TOP, "python")})
        faults += said.splitlines() if status else []
    return faults


def check_commands(room):
    for program in ("pkg-config", "c++"):
        need(program)
    if not entry_file("xterm-256color"):
        raise Skipped("the system has no entry of xterm-256color")
    prefix, place, page = room.path("prefix"), room.path("commands"), os.path.join(TOP, "docs", "LIBRARY.md")
    os.mkdir(place)
    for text, name in programs_of(page):
        with open(os.path.join(place, name), "w", encoding="utf-8") as file:
            file.write(text)
    words = ["make", "-s", "-C", TOP, f"PREFIX={prefix}", f"LIBRARY={room.directory}", "install-library"]
    status, said = run(words)
    faults = [said] if status else []
    environment = clean_environment(
        PKG_CONFIG_PATH=f"{prefix}/lib/pkgconfig", LD_LIBRARY_PATH=f"{prefix}/lib",
        TERMINFO_DIRS=":".join(ENTRY_DIRECTORIES), PYTHONPATH=os.path.join(TOP, "python"),
        PYTHONDONTWRITEBYTECODE="1",
    )
    for command, shown in transcript.commands(page):
        status, said = run(["sh", "-c", command], cwd=place, env=environment)
        if status or said.rstrip("\n") != shown:
            faults.append(f"{command}: {status}, {said!r}")
    return faults


def check_install(room):
    target = room.path("target")
    built = room.path("built")
    os.makedirs(built, exist_ok=True)
    for name in ("libti.a", "libti.so.2"):
        shutil.copy(room.path(name), built)
    words = ["make", "-s", "-C", TOP, f"DESTDIR={target}", "PREFIX=/opt/ti", "LIBDIR=/opt/ti/lib64", f"LIBRARY={built}"]
    status, said = run([*words, "install-library"])
    if status:
        return [said]
    wanted = ["include/ti.h", "include/ti.hpp", "include/ti_names.h", "lib64/libti.a", "lib64/libti.so", "lib64/libti.so.2",
              "lib64/pkgconfig/ti.pc", "share/man/man3/ti.3"]
    # the page is found under the name of each call
    wanted += [f"share/man/man3/{name}.3" for name in called()]
    wanted = sorted(f"opt/ti/{name}" for name in wanted)
    faults = [] if files_below(target) == wanted else [f"installed: {set(files_below(target)) ^ set(wanted)}"]
    if shutil.which("pkg-config"):
        environment = {**os.environ, "PKG_CONFIG_PATH": f"{target}/opt/ti/lib64/pkgconfig"}
        status, said = run(["pkg-config", "--cflags", "--libs", "ti"], env=environment)
        if said.split() != ["-I/opt/ti/include", "-L/opt/ti/lib64", "-lti"]:
            faults.append(f"pkg-config: {said}")
        _, version = run(["pkg-config", "--modversion", "ti"], env=environment)
        if version.strip() != re.search(r'TI_VERSION "(.*)"', text_of("include", "ti.h"))[1]:
            faults.append(f"pkg-config: version {version}")
    status, said = run([
        room.compiler, "-std=c99", "-I", f"{target}/opt/ti/include", f"{HERE}/calls.c",
        "-L", f"{target}/opt/ti/lib64", "-lti", "-o", room.path("installed"),
    ])
    environment = {**os.environ, "LD_LIBRARY_PATH": f"{target}/opt/ti/lib64"}
    faults += [said] if status else room.faults([room.path("installed")], env=environment)
    status, said = run([*words, "uninstall-library"])
    left = files_below(target)
    return faults + ([f"left over: {left}, {said}"] if status or left else [])


CASES = {
    "header": check_header, "symbols": check_symbols, "names": check_names, "calls": check_calls,
    "sending": check_sending, "terminal": check_terminal, "changed": check_changed, "wrapper": check_wrapper,
    "rust": check_rust, "go": check_go,
    "memory": check_memory, "damaged": check_damaged, "open": check_open, "tput": check_tput,
    "ncurses": check_ncurses, "tputs": check_tputs, "unibilium": check_unibilium,
    "page": check_page, "examples": check_examples, "python": check_python, "garbage": check_garbage,
    "wheel": check_wheel, "types": check_types, "commands": check_commands, "install": check_install,
}


def main():
    tally = Tally("library")
    if not shutil.which(library.compiler()):
        tally.skip("library", f"{library.compiler()}, the C compiler, is not installed")
        return tally.close()
    if not os.path.exists(ARCHIVE):
        print("crates/ti_c/out/libti_c.a is not built")
        print("library: 0 passed, 1 failed")
        return 1
    with tempfile.TemporaryDirectory() as directory:
        library.make(ARCHIVE, directory)
        room = Room(directory)
        for name, check in CASES.items():
            if sys.argv[1:] and name not in sys.argv[1:]:
                continue
            try:
                print(f"{name}:", flush=True)
                tally.add(name, check(room))
            except Skipped as why:
                tally.skip(name, why)
            except (AssertionError, OSError, subprocess.SubprocessError) as error:
                tally.add(name, [str(error)])
    return tally.close()


if __name__ == "__main__":
    sys.exit(main())
