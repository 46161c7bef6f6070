"""Objects of Debian that need libtinfo.so.6: which of them start on that over libti, and whether
they print the same, as docs/TINFO.md lists them. objects.txt has the objects."""

import glob
import os
import re
import shlex
import subprocess
import tempfile
from concurrent.futures import ThreadPoolExecutor

from common import TOP, need, text_of
from terminals import on_terminal

HERE = os.path.dirname(os.path.abspath(__file__))
PAGE = os.path.join(TOP, "docs", "TINFO.md")
HEAD = "| Package | Object | On `libti` |\n|---|---|---|\n"
AT_ONCE = 4
# in how many seconds an object ends
SECONDS = 60
# the libraries of ncurses that call its libtinfo
OF_CURSES = re.compile(r"lib(ncurses|panel|menu|form|tic)w?\.so\.6$")


class Object:
    """A row of objects.txt."""

    def __init__(self, line):
        self.package, self.pattern, *command = line.split(None, 2)
        self.command = shlex.split(command[0]) if command else []

    def path(self):
        """The object, or None if it is not installed."""
        return next(iter(sorted(glob.glob(self.pattern))), None)

    def name(self):
        """How the table names it: by its path, or if that is not the same on each machine, by its end."""
        return os.path.basename(self.pattern) if "*" in self.pattern else self.pattern

    def words(self):
        """The words of its command."""
        return [self.path() if word == "@" else word for word in self.command]


def objects():
    """The objects, in the order of the file."""
    lines = text_of("tests", "tinfo", "objects.txt").splitlines()
    return [Object(line) for line in lines if line and not line.startswith("#")]


def said_by(*words):
    return subprocess.run(words, stdout=subprocess.PIPE, stderr=subprocess.DEVNULL, check=False).stdout.decode(
        errors="replace"
    )


def imports(path):
    """The symbols that a file takes from elsewhere."""
    return set(re.findall(r" U ([A-Za-z_]\w*)", said_by("nm", "-D", "--undefined-only", path)))


def libraries_of(path):
    """The libraries of curses that an object loads with it."""
    found = re.findall(r"^\s*(\S+) => (\S+)", said_by("ldd", path), re.M)
    return [at for name, at in found if OF_CURSES.search(name)]


def lacks(path, theirs, ours):
    """What an object and its libraries of curses take of ncurses's library and find not in ours."""
    needed = set().union(*(imports(file) for file in (path, *libraries_of(path))))
    return sorted(needed & theirs - ours)


def environment(directory, libraries=None):
    """A bare environment, in which a library is found."""
    kept = {"PATH": "/usr/bin:/bin:/usr/sbin:/sbin", "HOME": directory, "TERM": "xterm-256color", "LC_ALL": "C.UTF-8"}
    return {**kept, **({"LD_LIBRARY_PATH": libraries, "LD_BIND_NOW": "1"} if libraries else {})}


def refused(path, libraries):
    """What the loader says that an object lacks of a library, with the other symbols left out."""
    said = subprocess.run(
        ["ldd", "-r", path], env=environment("/", libraries), stdout=subprocess.PIPE, stderr=subprocess.STDOUT, check=False
    ).stdout.decode(errors="replace")
    return [line for line in said.splitlines() if "NCURSES6_TI" in line]


def outcome(found, room, theirs, ours):
    """What comes of an object on the library over libti: the text of the table, and what is wrong."""
    path = found.path()
    missing = lacks(path, theirs, ours)
    says = refused(path, room.libraries)
    if missing:
        text = f"does not start: {len(missing)} internal symbols of ncurses are not there"
        return text, [] if says else [f"{path} lacks {missing}, and the loader does not say so"]
    if says:
        return "does not start", [f"{path}: {says}"]
    if not found.command:
        return "starts", []
    with tempfile.TemporaryDirectory(prefix="ti-tinfo-") as directory:
        before, after = (
            on_terminal(found.words(), environment(directory, where), SECONDS) for where in (None, room.libraries)
        )
    # the case `answers` compares how many pad bytes there are
    before, after = ([re.sub("\0+", "\0", str(part)) for part in parts] for parts in (before, after))
    text = "starts, and prints the same"
    return text, [] if before == after else [f"{path}: {after}, and with ncurses's {before}"]


def table():
    """The rows of the page, by package and object, and what is around them."""
    before, _, rest = text_of("docs", "TINFO.md").partition(HEAD)
    rows, _, after = rest.partition("\n\n")
    told = dict(re.findall(r"^(\| \S+ \| `[^`]+`) \| (.*) \|$", rows, re.M))
    return before, told, after


def is_as_told(told, text, is_same_version):
    """Whether the page says what comes of an object; how many symbols it lacks the page says for one
    version of ncurses."""
    return told == text if is_same_version else told.split(":")[0] == text.split(":")[0]


def faults(room, theirs, ours, is_same_version, writes=False):
    """Tries the objects that are installed. Gives what is wrong; or writes the table of the page."""
    need("nm")
    before, told, after = table()
    all_of = objects()
    tried = [found for found in all_of if found.path()]
    with ThreadPoolExecutor(AT_ONCE) as pool:
        outcomes = list(pool.map(lambda found: outcome(found, room, theirs, ours), tried))
    wrong, seen = [], {}
    for found, (text, what) in zip(tried, outcomes):
        key = f"| {found.package} | `{found.name()}`"
        seen[key] = text
        wrong += what
        if not writes and not is_as_told(told.get(key, ""), text, is_same_version):
            wrong.append(f"docs/TINFO.md has {told.get(key)!r} for {found.name()}, and it {text}")
    for text in sorted(set(seen.values()), key=lambda text: text.split(":")[0]):
        names = [key.split("`")[1].rsplit("/", 1)[-1] for key, what in seen.items() if what == text]
        print(f"    {len(names)} {text}: {' '.join(names)}")
    print(f"    {len(all_of) - len(tried)} are not installed")
    if writes:
        keys = [f"| {found.package} | `{found.name()}`" for found in all_of]
        rows = [f"{key} | {seen.get(key) or told[key]} |" for key in keys if key in seen or key in told]
        with open(PAGE, "w", encoding="utf-8") as file:
            file.write(before + HEAD + "\n".join(rows) + "\n\n" + after)
    return wrong
