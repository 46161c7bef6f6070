"""The scenarios in which memory is refused: each runs a program on files and standard input."""

import os
import sys
from typing import NamedTuple

HERE = os.path.dirname(os.path.abspath(__file__))
sys.path.insert(0, os.path.dirname(HERE))
from common import TOP, bytes_of  # noqa: E402


class Scenario(NamedTuple):
    """A run: its program and words, what it reads, what it says and its status if it has memory."""

    name: str
    program: str
    words: tuple
    given: bytes = b""
    files: dict = {}
    says: bytes = b""
    status: int = 0
    # of a session: its requests, and the script before the one whose growths are refused
    requests: tuple = ()
    before: bytes = b""


def sources():
    """The sources of examples/, by their names."""
    names = sorted(name for name in os.listdir(os.path.join(TOP, "examples")) if name.endswith(".ti"))
    return {name: bytes_of(os.path.join(TOP, "examples", name)) for name in names}


SOURCES = sources()
# an installed entry without user-defined capabilities
DUMB = bytes_of(os.path.join(TOP, "tests", "entries", "dumb"))
ENTRIES = {"entries/d/dumb": DUMB, "entries/a/aurora": DUMB.replace(b"dumb|80-column dumb tty", b"aurora|80-column dumb t")}
# each kind of fault: of items, uses, names and headers
FAULTY = (
    b"a|one,cols#8x,foo,bel=\\q,cup,\nb|two,use=zz,use=c,\nc|three,use=b,\na|four,Tc=1,lines#99999999999,\n|,am,\n"
)
OWN = b"mine|one,\n\tam, Tc, Smulx=\\E[4:%p1%dm, XX#5,\n\tcols#80, setaf=\\E[3%p1%dm,\nother,use=mine,cols#8,smxx@,\n"


def session(name, *requests, says=b"ok"):
    """A session over requests."""
    return Scenario(name, "ti", ("session",), b"".join(requests), says=says, requests=requests)


def put(at, text):
    return b"i %d\n%s.\n" % (at, text)


def replace(at, text):
    return b"r %d\n%s.\n" % (at, text)


def move(source, to):
    return b"m %d %d\n" % (source, to)


def remove(at):
    return b"d %d\n" % at


def shown(*positions):
    """Requests for the report and for entries."""
    return (b"f\n", *(b"p %d\n" % at for at in positions))


def long_block(names, letters):
    """A block with a string of so many letters."""
    return b"%s,cbt=%s,\n" % (names, b"A" * letters)


def sessions():
    yield session("session-of-three-blocks", put(0, b"a,cols#1,\n"), put(1, b"b,cols#2,\n"), put(2, b"c,use=a,use=b,\n"),
                  put(3, b"d,cols@,use=a,\n"), put(4, b"e,use=d,cols#9,\n"), *shown(2, 3, 4), b"w\n")
    yield session("session-of-circular-uses", put(0, b"p,use=q,\n"), put(1, b"q,use=r,\n"), put(2, b"r,cols#1,\n"),
                  replace(2, b"r,use=q,\n"), *shown(0), replace(2, b"r,cols#1,\n"), *shown(0, 1))
    yield session("session-of-owners", put(0, b"n,cols#1,\n"), put(1, b"u,use=n,\n"), put(0, b"n,cols#2,\n"), move(0, 2),
                  move(2, 0), remove(0), *shown(1), remove(0), remove(0), b"f\n")
    yield session("session-that-moves", put(0, b"n,cols#1,\n"), put(1, b"n,cols#2,\n"), put(2, b"u|v,use=n,foo,cup=\\q,\n"),
                  move(0, 2), *shown(1), move(2, 0), move(1, 1), move(3, 0), move(0, 3), put(4, b"x,\n"),
                  replace(0, b"x,\ny,\n"), remove(2), *shown(0, 1))
    yield session("session-at-the-limit", put(0, long_block(b"a,am", 4000)), put(1, b"b,use=a,bel=^G,\n"),
                  replace(0, long_block(b"a,am", 4100)), *shown(0, 1), replace(0, long_block(b"a,am", 3900)), *shown(0, 1))
    yield session("session-of-shared-strings", put(0, b"a,cols#1,bel=^G,cr=\\r,\n"), put(1, b"b,cols#2,bel=^G,cr=\\n,\n"),
                  put(2, b"x,\ny,\n"), put(2, b"c,use=a,use=b,\n"), put(3, b"d,cols@,use=a,cup=\\q,\n"),
                  put(4, b"p,use=q,foo,\n"), put(5, b"q,use=p,\n"), *shown(2, 3))
    yield session("session-of-odd-requests", put(0, b"a,foo,\n"), put(1, b"b,use=zz,\n"), put(2, b"c,cols#9x,\n"), b"f\n",
                  put(0, b"k,\n# one\n# two\n"), b"f\n", b"p 0\n", b"d 9\n", b"zap\n")


def many_blocks():
    """One edit of a thousand blocks, of which ten use the first."""
    before = b"".join(put(at, b"n%d,cols#%d,%s\n" % (at, at, b"use=n0," if at % 100 == 5 else b"")) for at in range(1000))
    for name, edit in {
        "one-replaced": replace(0, b"n0,am,\n"), "one-inserted": put(500, b"z,use=n7,\n"), "one-removed": remove(0),
        "one-moved": move(0, 999),
    }.items():
        yield Scenario(f"many-blocks-{name}", "ti", ("session",), before + edit + b"f\n", says=b"ok\n",
                       requests=(before, edit, b"f\n"), before=before)


def profile():
    """The tools of ti."""
    files = {**SOURCES, "faulty.ti": FAULTY, **ENTRIES}
    run = lambda name, *words, **more: Scenario(f"ti-{name}", "ti", words, files=files, **more)
    yield run("tic", "tic", "-o", "out", "beacon.ti")
    yield run("tic-of-standard-input", "tic", "-o", "entries", given=SOURCES["dumb.ti"])
    yield run("tic-of-faults", "tic", "-c", "faulty.ti", says=b"E6 MissingUse zz", status=1)
    yield run("infocmp", "infocmp", "dumb", says=b"cols#80")
    yield run("infocmp-1", "infocmp", "-1", "-s", "d", "dumb", "aurora", "-I", says=b"cols#80")
    for mode in "dcnu":
        yield run(f"infocmp-{mode}", "infocmp", f"-{mode}", "dumb", "aurora")
    yield run("tput", "tput", "bel", says=b"\a")
    yield run("tput-longname", "tput", "longname", says=b"80-column")
    yield run("tput-lines", "tput", "-S", given=b"bel\ncols\nlongname\nnosuch\n", says=b"80", status=5)
    yield run("help", "help", "tic", says=b"tic")
    yield run("bad-usage", "tic", "-o", says=b"a value is required", status=2)


def everyday():
    """The everyday tools."""
    files = {**SOURCES, "own.ti": OWN, "faulty.ti": FAULTY, "odd.ti": OWN.replace(b", ", b" ,"), **ENTRIES}
    run = lambda name, *words, **more: Scenario(name, "ti-everyday", words, files=files, **more)
    yield run("ti-tic-x", "ti-tic", "-x", "-o", "out", "own.ti")
    yield run("ti-tic-of-installed-entries", "ti-tic", "-x", "-o", "out", "-", given=b"new|one,use=dumb,Tc,\n")
    yield run("ti-tic-of-chosen-entries", "ti-tic", "-x", "-s", "-e", "other", "-o", "out", "own.ti", says=b"1 entr")
    yield run("ti-tic-c", "ti-tic", "-c", "-x", "faulty.ti", says=b"E6 MissingUse", status=1)
    yield run("ti-infocmp-x", "ti-infocmp", "-x", "-1", "dumb", says=b"cols#80")
    yield run("ti-infocmp-d", "ti-infocmp", "-d", "dumb", "aurora")
    yield run("ti-infocmp-u", "ti-infocmp", "-x", "-u", "dumb", "aurora")
    yield run("ti-infocmp-D", "ti-infocmp", "-D", says=b"entries")
    yield run("ti-tput", "ti-tput", "bel", "cr", says=b"\a\r")
    yield run("ti-tput-S", "ti-tput", "-S", given=b"bel\ncols\nbel cr\n", says=b"80")
    yield run("ti-tput-init", "ti-tput", "init")
    yield run("ti-tabs", "ti-tabs", "-8", "-n", says=b"cannot clear tab stops", status=1)
    yield run("ti-toe", "ti-toe", "entries", says=b"80-column")
    yield run("ti-fmt", "ti-fmt", "odd.ti")
    yield run("ti-fmt-check", "ti-fmt", "--check", "odd.ti", "own.ti", status=1)
    yield run("ti-fmt-of-standard-input", "ti-fmt", "-", given=OWN, says=b"Smulx")
    yield run("ti-fmt-keep", "ti-fmt", "--keep", "-w", "20", "odd.ti")
    yield run("ti-lint", "ti-lint", "-x", "faulty.ti", says=b"E3 BadNumber", status=1)
    yield run("ti-lint-json", "ti-lint", "--format", "json", "own.ti", says=b"UnknownCapability")
    yield run("ti-lint-fix", "ti-lint", "-x", "--fix", "faulty.ti", says=b"error", status=1)


ALL = [*sessions(), *many_blocks(), *profile(), *everyday()]
