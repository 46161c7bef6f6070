"""ncurses's tools that run on the library over libti: what they write to a terminal, and how they leave
its line, next to the same with ncurses's library."""

import itertools
import re
import tempfile
from concurrent.futures import ThreadPoolExecutor

from common import entry_file, need
from objects import environment
from terminals import on_terminal

TERMS = ("xterm-256color", "linux", "vt100", "dumb")
COMMANDS = """
clear
clear -x
clear -T vt100
tput clear
tput init
tput reset
tput longname
tput lines
tput colors
tput am
tput cup 3 4
tput setaf 3
tput sgr 1 0 0 1 0 1 0 0 0
tput bel
tput flash
tput Smulx 3
tput cup x y
tput no-such
tput -T no-such cols
tput
tset
tset -q
tset -r
tset -s
tset -I
tset -e ^H
tset -k ^X
tset -i ^C
tset -c
tset -m :vt100
reset
tabs
tabs -8
tabs -a
tabs 4,8,12
tabs 4,+8,+8
tabs -d -8
tabs x
"""
# the command, and then the modes of the line
SCRIPT = '"$@"; status=$?; stty -a >&2; exit $status'
SECONDS = 60
AT_ONCE = 6


def done_by(command, term, libraries):
    """What a command does: its status, the bytes without those of delays, and what is said after it."""
    words = ["sh", "-c", SCRIPT, "sh", *command.split()]
    with tempfile.TemporaryDirectory(prefix="ti-tinfo-") as directory:
        more = {**environment(directory, libraries), "HOME": "/none", "TERM": term}
        status, written, said = on_terminal(words, more, SECONDS)
    return status, re.sub("\0", "", written), said


def faults(room):
    """Runs each command on each terminal with both libraries."""
    for program in ("clear", "tput", "tset", "reset", "tabs", "stty"):
        need(program)
    commands = [line for line in COMMANDS.splitlines() if line]
    rows = list(itertools.product(commands, (term for term in TERMS if entry_file(term))))
    with ThreadPoolExecutor(AT_ONCE) as pool:
        theirs, ours = (
            pool.map(lambda row, where=where: done_by(*row, where), rows) for where in (None, room.libraries)
        )
        compared = list(zip(rows, ours, theirs))
    print(f"    {len(rows)} commands on a terminal")
    wrong = [f"{' '.join(row)} does not end" for row, one, _ in compared if one[0] < 0]
    wrong += [f"{' '.join(row)}: {one}, and with ncurses's {other}" for row, one, other in compared if one != other]
    return wrong[:20]
