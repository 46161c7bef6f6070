#!/usr/bin/env python3
"""Runs the rows of a table of docs/TROUBLESHOOTING.md, and the commands below the tables.

    troubleshooting.py PAGE HEADING     the table below a heading, in an empty directory with
                                        dumb.ti, as a user who is not root

Each row has a message, its cause and what helps. ROWS has commands for each that print the message;
each message of the row has to be printed by one of them. What helps is run then: each command in
backquotes has to end well, and what follows in ROWS too. In a message NAME, FILE, DIR, PATH, "xterm", N
and two points match any text; in what helps FILE, TERM, COMMAND and PATH are those of ROWS. A command of a
program that is not installed is passed over. Prints which messages are not provoked here, what is
wrong, and nothing else if all is as the page says.
"""

import os
import re
import shutil
import subprocess
import sys

SECONDS = 100
# programs of the shell, and ours: the others may not be installed
OURS = ("ti", "export", "ulimit")
# a source of an entry that other rows use, which needs no entry of the system
XTERM = "printf 'xterm|a terminal,\\n\\tam, cols#80, bel=^G,\\n' | ti tic -o entries"
ENTRIES = "TERMINFO=entries"
MINE = "printf 'xmine,\\n\\tam,\\n' >xmine.ti"
# 200 entries of a megabyte each
LARGE_SOURCE = "python3 -c 'for at in range(200): print(\"x%d,\\n#%s\" % (at, \"a\" * 1000000))'"
LONG_SOURCE = "head -c 1048577 /dev/zero | tr '\\0' a | sed 's/^/x,\\n#/'"


def damaged(position, byte):
    """The command that lists the entry of dumb with another byte at a position."""
    return f"python3 -c 'b = bytearray(open(\"entries/d/dumb\", \"rb\").read()); {position}; " \
        f"b[at:at + 1] = bytes([{byte}]); open(\"bad/d/dumb\", \"wb\").write(b)' && TERMINFO=bad ti infocmp dumb"


FLAGS = "at = 12 + b[2] + 256 * b[3]"
NUMBERS = f"{FLAGS} + b[4]; at += at % 2"
OFFSETS = f"{NUMBERS}; at += 2 * b[6]"

# By the first cell of a row, without backquotes: commands that print its messages, the words of
# what helps, and a command that works after what helps.
ROWS = {
    'unknown terminal "xterm"': (
        ["ti infocmp no-such", "ti tput -T no-such cols"], {},
        "[ ! -e /lib/terminfo/x/xterm ] || ti infocmp xterm",
    ),
    "error: unexpected argument '-x' found": (["ti tic -x dumb.ti", "ti infocmp -x dumb"], {"FILE": "dumb.ti", "TERM": "dumb"}, ""),
    "no terminal named": (["ti tput cols", "ti infocmp"], {}, "ti tput cols"),
    "write fault of ti tic FILE": (["ti tic dumb.ti"], {"FILE": "dumb.ti"}, "ti infocmp dumb"),
    "write fault of other commands": ([f"{ENTRIES} ti infocmp dumb >/dev/full"], {}, ""),
    "read fault": (["ti tic no-such.ti", "ti tic .", "ti session <."], {"FILE": "dumb.ti"}, ""),
    'bad entry "NAME" (Short), (Magic)': (
        [": >bad/d/dumb; TERMINFO=bad ti infocmp dumb", "cp dumb.ti bad/d/dumb; TERMINFO=bad ti infocmp dumb"],
        {"PATH": "bad/d/dumb"}, "",
    ),
    'bad entry "NAME" (Counts)': (
        ["{ cat entries/d/dumb; head -c 65536 /dev/zero; } >bad/d/dumb; TERMINFO=bad ti infocmp dumb"], {}, "",
    ),
    'bad entry "NAME" (Truncated), (BadNames), (BadFlag), (BadNumber), (BadOffset)': (
        [
            "head -c 100 entries/d/dumb >bad/d/dumb; TERMINFO=bad ti infocmp dumb",
            damaged("at = 14", 0),
            damaged(FLAGS, 9),
            damaged(f"{NUMBERS}; at += 1", 0x80),
            damaged(OFFSETS, 0xF0),
        ],
        {}, "",
    ),
    'unknown terminfo capability "NAME"': ([f"{ENTRIES} ti tput -T dumb Tc"], {"TERM": "dumb"}, ""),
    'bad string "NAME"': (
        ["printf 'odd,cup=%%z,\\n' | ti tic -o entries; TERMINFO=entries ti tput -T odd cup 1 2"], {"TERM": "odd"}, "",
    ),
    "line too long": (
        [
            f"head -c 4097 /dev/zero | tr '\\0' x | {ENTRIES} ti tput -T dumb -S",
            "head -c 65537 /dev/zero | tr '\\0' x | ti session",
        ],
        {}, "",
    ),
    "block too long at line N": ([f"{LONG_SOURCE} | ti tic -c"], {}, ""),
    "too many blocks": (["seq -f 'x%.0f,' 65536 | ti tic -c"], {}, ""),
    "out of memory": ([f"{LARGE_SOURCE} | (ulimit -v 131072; ti tic -c)"], {}, ""),
    "bad usage: ..": (["ti infocmp -u dumb", "ti tput"], {"COMMAND": "infocmp"}, ""),
    "error: .., then several lines": (["ti no-such", "ti tput --no-such"], {"COMMAND": "tput"}, ""),
}
# the same for the table of the everyday tools
TOOLS_ROWS = {
    "FILE:2:6: error: cols: .. [E3 BadNumber]": (["printf 'x,\\n\\tam, cols#8o,\\n' | ti-tic -c -"], {}, ""),
    ".. warning: Tc: .. [W1 UnknownCapability]": (
        ["printf 'x,\\n\\tTc,\\n' >tc.ti; ti-tic -c tc.ti"], {"FILE": "tc.ti"}, "ti-tput -T x Tc",
    ),
    ".. error: NAME: .. [E6 MissingUse]": (["printf 'x,\\n\\tuse=no-such,\\n' | ti-tic -c -"], {}, ""),
    "FILE:1:1: error: .. [BlockTooLong]": ([f"{LONG_SOURCE} | ti-tic -c -"], {}, ""),
    "FILE:..:1: error: .. [TooManyBlocks]": (["seq -f 'x%.0f,' 65536 | ti-tic -c -"], {}, ""),
    "FILE:1:1: error: .. [TermcapSource]": (
        ["printf 'x|termcap:\\\\\n\t:am:co#80:\n' >x.tc; ti-tic -c x.tc"], {"FILE": "x.tc"}, "",
    ),
    "FILE:1:1: error: .. [TooManyNames]": (["{ echo x,; seq -f '\tU%.0f,' 1025; } | ti-tic -x -c -"], {}, ""),
    "ti-tic: FILE: No such file or directory, Permission denied, Is a directory": (
        ["ti-tic -c no-such.ti", "ti-tic -c .", ": >closed.ti; chmod 0 closed.ti; ti-tic -c closed.ti"],
        {"FILE": "dumb.ti"}, "",
    ),
    "ti-tic: DIR/x/NAME: Permission denied": (
        [f"{MINE}; mkdir shut; chmod 555 shut; ti-tic -o shut xmine.ti"], {"FILE": "xmine.ti"}, "ti-infocmp xmine",
    ),
    "ti-tic: DIR/x/NAME: Not a directory, No space left on device": (
        [f"{MINE}; : >plain; ti-tic -o plain xmine.ti"], {}, "",
    ),
    'ti-tic: no block has the name "NAME"': ([f"{MINE}; ti-tic -e no-such -c xmine.ti"], {"FILE": "xmine.ti"}, ""),
    "ti-tic: PATH: bad entry (..)": (
        ["cp dumb.ti bad/x/xbad; printf 'y,\\n\\tuse=xbad,\\n' | TERMINFO=bad ti-tic -c -"], {}, "",
    ),
    "ti-tic: PATH: the entry has other names": (
        ["cp entries/x/xterm bad/x/xother; printf 'y,\\n\\tuse=xother,\\n' | TERMINFO=bad ti-tic -c -"], {}, "",
    ),
    "ti-tic: PATH: the source has no room for the entry": (
        ["{ seq -f 'x%.0f,' 65534; printf 'y,\\n\\tuse=xterm,\\n'; } | TERMINFO=entries ti-tic -c -"], {}, "",
    ),
    "ti-tic: write fault": ([], {}, ""),
    "ti-lint: FILE: PATH: The key .., The value ..": (
        [
            "mkdir set; cp dumb.ti set; printf 'name = 1\\n' >set/.ti-lint.toml; ti-lint set/dumb.ti",
            "printf 'names = 1\\n' >set/.ti-lint.toml; ti-lint set/dumb.ti",
        ],
        {}, "",
    ),
    'unknown terminal "NAME"': (["ti-infocmp no-such", "ti-tput -T no-such cols"], {}, ""),
    "PATH: No such file or directory of ti-infocmp": (["ti-infocmp ./no-such"], {}, ""),
    'terminal "NAME" cannot be used: .. of ti-clear': (
        [
            "printf 'paper,\\n\\thc, clear=x,\\n' | ti-tic -o entries -; TERMINFO=entries ti-clear -T paper",
            "printf 'any,\\n\\tgn, clear=x,\\n' | ti-tic -o entries -; TERMINFO=entries ti-clear -T any",
        ],
        {"TERM": "dumb"}, "",
    ),
    "PATH: not an entry, PATH: the directory cannot be read of ti-toe": (
        ["cp dumb.ti bad/d/notes; ti-toe bad", "mkdir closed; chmod 0 closed; ti-toe closed"], {"PATH": "bad"}, "",
    ),
    'terminal "NAME" cannot clear tab stops, cannot set tab stops of ti-tabs': (
        [
            "printf 'no-clear,\\n\\thts=H,\\n' | ti-tic -o entries -; TERMINFO=entries ti-tabs -T no-clear",
            "printf 'no-set,\\n\\ttbc=T,\\n' | ti-tic -o entries -; TERMINFO=entries ti-tabs -T no-set",
        ],
        {"TERM": "dumb"}, "",
    ),
    "tab stops are not in increasing order: ..": (["ti-tabs -T xterm 9,5,12"], {"LIST": "-T xterm 5,9,12"}, ""),
    "unknown terminal type NAME of ti-tset and ti-reset": (["script -qec 'ti-tset -q no-such </dev/null' /dev/null"], {}, ""),
    "terminal attributes: .. of ti-tset and ti-reset": (["setsid -w ti-reset -q"], {}, ""),
    "illegal -m option format: .., unknown baud rate .. of ti-tset and ti-reset": (
        ["ti-tset -m '<>110:vt100'", "ti-tset -m '>fast:vt100'"], {}, "",
    ),
    "no terminal is named": (["ti-tput cols"], {}, "ti-tput cols"),
    "unknown terminfo capability 'NAME'": ([f"{ENTRIES} ti-tput -T dumb bel Tc"], {"TERM": "dumb"}, ""),
    "ti-everyday: call it ti-tic, ..": (["ti-everyday"], {"..": "-V"}, ""),
}
TABLES = {"ti": ROWS, "The everyday tools": TOOLS_ROWS}
# a disk that is full, and a standard error that takes no message, are not had here
NOT_RUN = ("No space left on device", "ti-tic: write fault")
# where what helps looks for entries, by the row, unless the row is about that
HELPED = {
    "write fault of ti tic FILE": {}, 'unknown terminal "xterm"': {}, "ti-tic: DIR/x/NAME: Permission denied": {},
    "tab stops are not in increasing order: ..": {},
}


def shell(command, **more):
    """Runs a command by sh. Gives its status, and all that it wrote."""
    kept = {"PATH": os.environ["PATH"], "HOME": os.path.join(os.getcwd(), "home"), **more}
    done = subprocess.run(
        ["sh", "-c", command], env=kept, stdin=subprocess.DEVNULL, stdout=subprocess.PIPE, stderr=subprocess.STDOUT,
        timeout=SECONDS, check=False,
    )
    return done.returncode, done.stdout.decode(errors="replace")


def rows(page, heading):
    """The cells of the rows of the first table below a heading whose first column is `Message`."""
    lines = iter(page.split(f"\n## {heading}\n")[1].split("\n"))
    for line in lines:
        if line.startswith("| Message |"):
            next(lines)
            break
    for line in lines:
        if not line.startswith("|"):
            return
        yield [cell.strip() for cell in line.strip("|").split(" | ")]


def pattern(message):
    """What matches a message with other names in the place of its own."""
    parts = re.split(r'("[^"]*"|\bN$|\.\.|\b(?:NAME|FILE|DIR|PATH)\b)', message)
    return "".join(".*" if at % 2 else re.escape(part) for at, part in enumerate(parts))


def helping(cell, words):
    """The commands in backquotes of what helps, with the words of the row in place of theirs."""
    for command in re.findall(r"`([^`]+)`", cell):
        first = command.split()[0]
        if first in OURS or (" " in command and shutil.which(first)):
            yield " ".join(words.get(word, word) for word in command.split())


def row_faults(cells, table):
    """What is wrong with a row of the table."""
    key = cells[0].replace("`", "")
    if key not in table:
        yield f"{key}: no command prints it"
        return
    commands, words, then = table[key]
    printed = "".join(shell(command)[1] for command in commands)
    for message in re.findall(r"`([^`]+)`", cells[0]):
        if message in NOT_RUN:
            yield f"not run: {message}"
        elif not re.match(r"ti |ti-\w+$", message) and not re.search(pattern(message), printed):
            yield f"{message}: printed is {printed[:400]!r}"
    script = "\n".join(["set -e", *helping(cells[2], words), then])
    status, said = shell(script, **HELPED.get(key, {"TERMINFO": "entries"}))
    if status:
        yield f"{key}: what helps ends with {status}: {said[-400:]!r}"


def base_faults(page):
    """What is wrong with the commands that list an installed entry into a source."""
    section = page.split("\n## A base entry that is installed\n")[1]
    commands = section.split("```sh\n")[1].split("```")[0]
    last = re.search(r"`(TERMINFO=out [^`]*)`", section)[1]
    with open("mine.ti", "w", encoding="utf-8") as file:
        file.write("mine|mine with one more,\n\tam@, xenl, use=xterm,\n")
    status, said = shell("ti tic -c mine.ti", TERMINFO="entries")
    if status != 1 or "E6 MissingUse" not in said:
        yield f"without its base: {status}, {said!r}"
    status, said = shell(f"set -e\n{commands}\n{last}", TERMINFO="entries")
    if status or not said.endswith("\tam@, xenl,\n\tuse=xterm,\n"):
        yield f"{last}: {status}, {said!r}"


def main():
    with open(sys.argv[1], encoding="utf-8") as file:
        page = file.read()
    table = TABLES[sys.argv[2]]
    for directory in ("home", "bad/d", "bad/x"):
        os.makedirs(directory)
    status, said = shell(f"ti tic -o entries dumb.ti && {XTERM}")
    if status:
        print(f"the entries are not compiled: {said!r}")
    found = list(rows(page, sys.argv[2]))
    for cells in found:
        for fault in row_faults(cells, table):
            print(fault)
    for key in sorted(set(table) - {cells[0].replace("`", "") for cells in found}):
        print(f"{key}: not in the table")
    for fault in base_faults(page):
        print(fault)
    if not re.match(r".*\d+\.\d+\.\d+", shell("ti help")[1]):
        print("ti help does not begin with the version")


if __name__ == "__main__":
    main()
