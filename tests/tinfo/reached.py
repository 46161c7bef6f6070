"""Programs of curses: which internal symbols of ncurses's libtinfo they take, which of these functions
they reach, and at which one they would end on the library over libti, as docs/TINFO.md lists them."""

import os
import re
import shutil
import subprocess
import tempfile

from common import Skipped, text_of
from objects import PAGE, environment, imports, libraries_of
from terminals import on_terminal
import library
import tinfo

HEAD = (
    "| Program | Takes | Missing | Calls | Missing functions that it calls | Ends at |\n"
    "|---|---:|---:|---:|---|---|\n"
)
CURSES = "import curses; window = curses.initscr(); window.addstr('text'); window.refresh(); window.getch(); curses.endwin()"
TERMINFO = "import curses; curses.setupterm(); print(curses.tigetnum('cols'), curses.tigetstr('cup'))"
# how the page names what is run; its words, in a directory with an empty file `empty`; and the keys
# that end it
PROGRAMS = (
    ("nano", ("nano", "-I", "empty"), "\x18"),
    ("htop", ("htop",), "q"),
    ("dialog", ("dialog", "--msgbox", "text", "7", "30"), "\r"),
    ("mutt", ("mutt", "-n", "-F", "/dev/null", "-f", "empty"), "q"),
    ("`curses` of Python, a window", ("/usr/bin/python3", "-c", CURSES), "q"),
    ("`curses` of Python, `setupterm`", ("/usr/bin/python3", "-c", TERMINFO), ""),
)
SECONDS = 120
# the status of a program that is ended, and what it says then
STOPPED = 99
SAYS = re.compile(r"^stopped at (\w+)$", re.M)

# Watches the loader: what other objects call of some functions of libtinfo goes through a jump that
# notes the function, in a file that is shared. What libtinfo itself calls is left as it is.
RECORDER = """#define _GNU_SOURCE
#include <fcntl.h>
#include <link.h>
#include <stdlib.h>
#include <string.h>
#include <sys/mman.h>
#define HIDDEN __attribute__((visibility("hidden")))
static const char *const names[] = { NAMES };
enum { COUNT = sizeof names / sizeof *names, JUMP_SIZE = 32 };
HIDDEN uintptr_t real[COUNT];
HIDDEN unsigned char *reached;
extern char jumps[] HIDDEN;
unsigned la_version(unsigned version) {
    int file = open(getenv("TI_REACHED"), O_RDWR);
    void *shared = mmap(NULL, COUNT, PROT_READ | PROT_WRITE, MAP_SHARED, file, 0);
    if (shared == MAP_FAILED) abort();
    reached = (unsigned char *)shared;
    return version;
}
unsigned la_objopen(struct link_map *object, Lmid_t space, uintptr_t *is_tinfo) {
    (void)space;
    *is_tinfo = strstr(object->l_name, "/libtinfo.so") != NULL;
    return LA_FLG_BINDTO | LA_FLG_BINDFROM;
}
uintptr_t la_symbind64(Elf64_Sym *symbol, unsigned index, uintptr_t *by_tinfo, uintptr_t *of_tinfo,
                       unsigned *flags, const char *name) {
    (void)index, (void)flags;
    for (int i = 0; i < COUNT && *of_tinfo && !*by_tinfo; i++)
        if (strcmp(name, names[i]) == 0) {
            real[i] = symbol->st_value;
            return (uintptr_t)jumps + JUMP_SIZE * (uintptr_t)i;
        }
    return symbol->st_value;
}
__asm__(".text\\n.balign 32\\njumps:\\n");
"""
JUMP = """__asm__(".balign 32\\nmovq reached(%rip), %r11\\nmovb $1, {at}(%r11)\\njmp *real+8*{at}(%rip)\\n");
"""

# Ends the program when it calls one of some functions or uses one of some data.
STOPPER = """#define _GNU_SOURCE
#include <signal.h>
#include <string.h>
#include <sys/mman.h>
#include <unistd.h>
#define EXPORTED __attribute__((visibility("default")))
enum { PAGE = 4096 };
static void stop(const char *name) {
    static const char says[] = "\\nstopped at ";
    if (write(2, says, sizeof says - 1) < 0 || write(2, name, strlen(name)) < 0 || write(2, "\\n", 1) < 0) _exit(1);
    _exit(STOPPED);
}
FUNCTIONS
static struct { const char *name; char *at; } data[] = { DATA { NULL, NULL } };
static void at_fault(int number, siginfo_t *info, void *context) {
    (void)number, (void)context;
    char *at = (char *)info->si_addr;
    for (int i = 0; data[i].name; i++)
        if (at >= data[i].at && at < data[i].at + PAGE) stop(data[i].name);
    stop("fault");
}
__attribute__((constructor)) static void begin(void) {
    struct sigaction action = { .sa_sigaction = at_fault, .sa_flags = SA_SIGINFO };
    sigaction(SIGSEGV, &action, NULL);
    for (int i = 0; data[i].name; i++) mprotect(data[i].at, PAGE, PROT_NONE);
}
"""


def is_internal(name):
    return name.startswith("_nc_") or name == "SP"


def objects_of(words):
    """The object that a program takes internal symbols by, and the libraries of curses around it: of
    Python that of the module."""
    program = shutil.which(words[0], path="/usr/bin:/bin:/usr/sbin:/sbin")
    if program and "python3" in words[0]:
        said = subprocess.run([program, "-c", "import _curses; print(_curses.__file__)"], capture_output=True, text=True)
        program = said.stdout.strip()
    return [program, *libraries_of(program)] if program else []


def taken_by(words, theirs):
    """The internal symbols of ncurses's library that a program takes, itself or by other libraries."""
    return sorted(name for name in set().union(*map(imports, objects_of(words))) & set(theirs) if is_internal(name))


def compile_shared(room, name, text, *words):
    """Compiles a text of C to a shared library. Gives its path."""
    path = room.path(name)
    with open(f"{path}.c", "w", encoding="utf-8") as file:
        file.write(text)
    subprocess.run([library.compiler(), "-shared", "-fPIC", "-O1", f"{path}.c", *words, "-o", f"{path}.so"], check=True)
    return f"{path}.so"


def run(words, keys, more):
    """Runs a program on a terminal, in a directory of its own. Gives its status and what it said."""
    with tempfile.TemporaryDirectory(prefix="ti-tinfo-") as directory:
        # mutt would ask for it
        os.mkdir(os.path.join(directory, "Mail"))
        with open(os.path.join(directory, "empty"), "w", encoding="utf-8"):
            pass
        status, _, said = on_terminal(words, {**environment(directory), **more}, SECONDS, keys=keys, directory=directory)
    return status, said


class Recorder:
    """Runs programs with ncurses's library, and notes which functions of it they reach."""

    def __init__(self, room, functions):
        self.functions, self.reached = functions, room.path("reached")
        text = RECORDER.replace("NAMES", ", ".join(f'"{name}"' for name in functions))
        text += "".join(JUMP.format(at=at) for at in range(len(functions)))
        self.path = compile_shared(room, "recorder", text)

    def run(self, words, keys):
        """The functions that a program reaches; what is wrong if it does not end well."""
        with open(self.reached, "wb") as file:
            file.write(bytes(len(self.functions)))
        status, said = run(words, keys, {"LD_AUDIT": self.path, "TI_REACHED": self.reached})
        with open(self.reached, "rb") as file:
            found = {name for name, byte in zip(self.functions, file.read()) if byte}
        return found, [] if status == 0 else [f"{words}, with ncurses's: status {status}, {said[-400:]}"]


def stopping_library(room, theirs, ours):
    """Makes the library over libti with what it lacks: functions and data that end the program. Gives
    its directory."""
    lacking = {name: what for name, what in theirs.items() if name not in ours}
    functions = [name for name, what in lacking.items() if what[0] == "DF"]
    data = [name for name in lacking if name not in functions]
    text = STOPPER.replace("STOPPED", str(STOPPED)).replace(
        "FUNCTIONS", "".join(f'EXPORTED void {name}(void) {{ stop("{name}"); }}\n' for name in functions)
        + "".join(f"EXPORTED char {name}[PAGE] __attribute__((aligned(PAGE)));\n" for name in data),
    ).replace("DATA", "".join(f'{{ "{name}", {name} }}, ' for name in data))
    with open(room.path("stopper.c"), "w", encoding="utf-8") as file:
        file.write(text)
    by_version = {}
    for name, what in {**theirs, **ours}.items():
        by_version.setdefault(what[2], []).append(name)
    with open(room.path("stopper.map"), "w", encoding="utf-8") as file:
        for at, (version, names) in enumerate(sorted(by_version.items())):
            file.write(f"{version} {{\n global: {'; '.join(names)};\n{'' if at else ' local: *;'}\n}};\n")
    directory = room.path("stopping")
    tinfo.make(room.directory, directory, [room.path("stopper.c")], room.path("stopper.map"))
    return directory


def table():
    """The rows of the page, by what is run, and what is around them."""
    before, head, rest = text_of("docs", "TINFO.md").partition(HEAD)
    if not head:
        raise AssertionError("docs/TINFO.md has no table of the programs of curses")
    rows, _, after = rest.partition("\n\n")
    return before, dict(re.findall(r"^\| (.*?) (\| .* \|)$", rows, re.M)), after


def row_of(words, keys, recorder, stopping, theirs, ours):
    """What the page says of a program, and what is wrong."""
    taken = taken_by(words, theirs)
    reached, wrong = recorder.run(words, keys)
    reached &= set(taken)
    status, said = run(words, keys, {"LD_LIBRARY_PATH": stopping})
    stopped = SAYS.search(said)
    if status != (STOPPED if stopped else 0) or stopped and stopped[1] not in taken:
        wrong.append(f"{words}, with what ends it: status {status}, {said[-400:]}")
    lacking = ", ".join(f"`{name}`" for name in sorted(reached - set(ours))) or "none"
    end = f"`{stopped[1]}`" if stopped else "nothing"
    return f"| {len(taken)} | {len(set(taken) - set(ours))} | {len(reached)} | {lacking} | {end} |", wrong


def is_bound_at_once(path):
    """Whether the loader finds all that an object takes before a program begins."""
    said = subprocess.run(["readelf", "-d", path], capture_output=True, text=True, check=False).stdout
    return "BIND_NOW" in said


def faults(room, theirs, ours, is_same_version, writes=False):
    """Runs the programs that are installed. Gives what is wrong; or writes the table of the page."""
    if os.uname().machine != "x86_64":
        raise Skipped("the jumps are those of x86-64")
    before, told, after = table()
    functions = [name for name, what in theirs.items() if what[0] == "DF" and is_internal(name)]
    recorder, stopping = Recorder(room, functions), stopping_library(room, theirs, ours)
    wrong, rows = [], []
    for name, words, keys in PROGRAMS:
        objects = objects_of(words)
        if not objects:
            rows += [f"| {name} {told[name]}"] if name in told else []
            print(f"    {name} is not installed")
            continue
        text, what = row_of(words, keys, recorder, stopping, theirs, ours)
        rows.append(f"| {name} {text}")
        wrong += what
        if not is_same_version:
            continue
        wrong += [f"{path} is not bound at once" for path in objects[1:] if not is_bound_at_once(path)]
        if not writes and told.get(name) != text:
            wrong.append(f"docs/TINFO.md has {told.get(name)!r} for {name}, and it is {text!r}")
    print(f"    {len(rows)} programs")
    if writes:
        with open(PAGE, "w", encoding="utf-8") as file:
            file.write(before + HEAD + "\n".join(rows) + "\n\n" + after)
    return wrong
