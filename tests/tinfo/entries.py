"""ncurses's tools for entries, tic, infocmp and toe, on the library over libti: what they print, and
the files that tic writes, next to the same with ncurses's library."""

import os
import re
import shutil
import subprocess
import tempfile
from concurrent.futures import ThreadPoolExecutor

from common import ENTRY_DIRECTORIES, entry_file, files_below, need
from objects import environment

AT_ONCE = 4
SECONDS = 300
# the listing of each entry
LISTED = ("infocmp -1 -x", "infocmp -C -r -T -x")
# what is tried on a few terminals
COMMANDS = """
infocmp
infocmp -I -w 60
infocmp -L
infocmp -C
infocmp -E
infocmp -e
infocmp -i
infocmp -x -Q 3
infocmp -x -u NAME vt100
infocmp -x -d NAME vt100
infocmp -x -c NAME linux
infocmp -x -n NAME dumb
infocmp -x -d NAME dumb vt100 ansi
infocmp -A /lib/terminfo -B /usr/share/terminfo NAME vt52
infocmp -F -x one.ti other.ti
infocmp no-such
infocmp -D
infocmp -V
toe
toe -a
toe -as
toe -h
toe /lib/terminfo
toe /usr/share/terminfo /none
toe -u one.ti
toe -U one.ti
toe -V
tic -D
tic -V
tic -I -x one.ti
tic -C -x one.ti
tic -L -x -1 one.ti
tic -r -I -x other.ti
tic -c -x faulty.ti
tic -c -v1 -x faulty.ti
tic -c faulty.ti
tic -x -s -o out faulty.ti
tic -x -s -o out -e base,two one.ti
tic -C faulty.tc
tic -c faulty.tc
tic -x -o out no-such.ti
tic -x -o /proc/none one.ti
"""
TERMS = ("xterm-256color", "linux", "screen", "tmux-256color", "vt100", "rxvt-unicode", "Eterm")
FILES = {
    "one.ti": r"""# a comment
base|a base with capabilities of its own,
	am, Tc, XT, cols#80, U8#1, bel=^G, cr=\r, clear=\E[H\E[2J, cup=\E[%i%p1%d;%p2%dH,
	sgr0=\E[m, Smulx=\E[4:%p1%dm, kUP5=\E[1;5A, AA=a, zz#3,
two|one that uses it,
	am@, Tc@, U8@, Smulx@, zz@, cols#132, ZZ, use=base,
three|one that uses both,
	Tc, AB#4, use=two, use=base,
four|without what is not there,
	nosuch@, XT@, use=three, use=base,
""",
    "other.ti": r"""base|another base,
	am, cols#90, bel=^G, U8#2,
two|one that uses an installed entry,
	Tc@, AX@, kUP5@, use=base, use=xterm-256color,
three|one that uses two,
	it#4, use=tmux-256color, use=linux,
""",
    "faulty.ti": r"""faulty|with mistakes,
	am=x, cols=80, colour#8, bel#7, cup=\E[%p1%d;%p2%d;%p3%dH, setaf=\E[%dm,
	sgr=\E[%?%p1%t7%;%{1}m, sgr0=\E[m, smcup=\E7, rmul=\E[24m, kf1=\EOP, kf2=\EOP,
	bold=\E[1m, rev=\E[7m, smso=\E[7m, acsc=abc, Smulx#3, XT=x, RGB, use=none-such,
faulty2|sgr that takes from an empty stack,
	sgr=\E[0%?%p1%p3%|%t;7%;%+m, sgr0=\E[m, bold=\E[1m, smul=\E[4m, rmul=\E[24m, rmacs=^O, smacs=^N,
	rs1=\Ec, is2=\E[!p, u6=\E[%i%d;%dR, u8=\E[?1;2c, flash=\E[?5h$<100/>\E[?5l, ich=\E[%p1%d@,
faulty2|a name that is there twice,
	am, lines#99999,
bad name|a space,
	am,
noname
	am,
""",
    "faulty.tc": r"""fc|faulty-tc|a source of termcap:\
	:am:co#80:li#24:cl=\E[H\E[J:cm=\E[%i%d;%dH:bs:ho=\E[H:\
	:up=\E[A:nd=\E[C:le=^H:me=\E[m:mr=\E[7m:xx#3:KA=\E[1~:sb=\EM:tc=vt52:
""",
}


def make_room(directory):
    """Writes the sources."""
    for name, text in FILES.items():
        with open(os.path.join(directory, name), "w", encoding="utf-8") as file:
            file.write(text)


def done_by(words, libraries, directory):
    """The status of a command, and what it wrote to its output and its errors."""
    done = subprocess.run(
        words, cwd=directory, env=environment(directory, libraries), stdin=subprocess.DEVNULL, stdout=subprocess.PIPE,
        stderr=subprocess.PIPE, check=False, timeout=SECONDS,
    )
    return done.returncode, done.stdout, done.stderr


def files_of(directory):
    """The bytes of each file that was written, by its path."""
    place, found = os.path.join(directory, "out"), {}
    for path in files_below(place) if os.path.isdir(place) else ():
        with open(os.path.join(place, path), "rb") as file:
            found[path] = file.read()
    return found


def outcome(words, libraries):
    """What a command does in a directory of its own. The name of that is not part of it."""
    with tempfile.TemporaryDirectory(prefix="ti-tinfo-") as directory:
        make_room(directory)
        done = done_by(words, libraries, directory)
        said = [part.replace(directory.encode(), b"ROOM") for part in done[1:]]
        return done[0], *said, files_of(directory)


def rows():
    """The commands, on each terminal if they name one."""
    for line in COMMANDS.split("\n"):
        words = line.split()
        if not words:
            continue
        has_name = words[0] == "infocmp" and not {"-F", "-D", "-V", "no-such"} & set(words)
        for term in (name for name in TERMS if entry_file(name)) if has_name else ("",):
            last = [term] if has_name and "NAME" not in words else []
            yield [term if word == "NAME" else word for word in words] + last


def first_difference(one, other):
    """Where two outcomes differ."""
    for ours, theirs in zip(one, other):
        if ours != theirs and isinstance(ours, dict):
            names = [name for name in {**ours, **theirs} if ours.get(name) != theirs.get(name)]
            return f"{names[:3]}: {ours.get(names[0])!r}, and with ncurses's {theirs.get(names[0])!r}"[:600]
        if ours != theirs and isinstance(ours, bytes):
            pairs = zip(ours.split(b"\n") + [b""], theirs.split(b"\n") + [b""])
            return next((f"{a!r}, and with ncurses's {b!r}" for a, b in pairs if a != b), "another length")[:400]
        if ours != theirs:
            return f"status {ours}, and with ncurses's {theirs}"
    return None


def compare(words, room):
    """How a command differs with the two libraries, or None."""
    return first_difference(outcome(words, room.libraries), outcome(words, None))


def sources(names, room):
    """A source of all entries, and of entries that use them and cancel what they have."""
    with tempfile.TemporaryDirectory(prefix="ti-tinfo-") as directory:
        listed = [done_by(["infocmp", "-1", "-x", name], None, directory)[1] for name in names]
    listed = [re.sub(rb"(?m)^#.*\n", b"", text) for text in listed]
    items = "am@, cols#132, Tc@, XT@, U8@, E3@, kUP5@, AX, Smulx=\\E[4:%p1%dm"
    used = [f"uses{at}|one that uses {names[at]},\n\t{items}, use={names[at]},\n" for at in range(0, len(names), 3)]
    path = room.path("all.ti")
    with open(path, "wb") as file:
        file.write(b"".join(listed) + "".join(used).encode())
    return path


def faults(room, names):
    """Runs each command with both libraries."""
    for program in ("tic", "infocmp", "toe"):
        need(program)
    commands = list(rows())
    # an entry whose name is one of a file with other bytes is listed by the first name
    commands += [[*line.split(), name] for line in LISTED for name in names]
    source = sources(names, room)
    commands += [["tic", "-x", "-s", "-o", "out", source], ["tic", "-c", "-x", "-v1", source]]
    with ThreadPoolExecutor(AT_ONCE) as pool:
        compared = list(zip(commands, pool.map(lambda words: compare(words, room), commands)))
    print(f"    {len(commands):,} commands on {len(names):,} entries")
    return [f"{' '.join(words)}: {how}" for words, how in compared if how][:60]
