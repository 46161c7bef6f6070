"""The sources that `bench/run.py` compiles: some that it makes, and the system's own entries."""

import os
import re
import subprocess

from repository import ENTRY_DIRECTORIES, files_below

ITEMS = r"""	am, bce, km, mir, msgr, xenl, colors#256, cols#80, it#8, lines#24, pairs#0x7fff,
	bel=^G, blink=\E[5m, bold=\E[1m, civis=\E[?25l, clear=\E[H\E[2J,
	cnorm=\E[?12l\E[?25h, cr=\r, csr=\E[%i%p1%d;%p2%dr, cub=\E[%p1%dD, cub1=^H,
	cud=\E[%p1%dB, cud1=\n, cuf=\E[%p1%dC, cuf1=\E[C, cup=\E[%i%p1%d;%p2%dH,
	dch=\E[%p1%dP, dl1=\E[M, ech=\E[%p1%dX, ed=\E[J, el=\E[K, flash=\E[?5h$<100/>\E[?5l,
	setaf=\E[%?%p1%{8}%<%t3%p1%d%e%p1%{16}%<%t9%p1%{8}%-%d%e38;5;%p1%d%;m,
	sgr=%?%p9%t\E(0%e\E(B%;\E[0%?%p6%t;1%;%?%p5%t;2%;%?%p2%t;4%;%?%p1%p3%|%t;7%;m,
# a comment line between wrapped lines
"""
KEY_LINES = [
    "\t" + ", ".join(f"kf{key}=\\E[{key};2~" for key in range(first, first + 6)) + ",\n"
    for first in range(1, 37, 6)
]
SMALL = "\tam, cols#80, lines#24, bel=^G, cr=\\r, cud1=\\n, ind=\\n, cub1=^H,\n"
# entries of the system whose file has a longer name are left out
FILE_NAME_BYTES = 63
# what the names field of an entry that `ti` writes may have
NAMES_FIELD_BYTES = 127


def large_entries(count):
    """`count` entries of 1.1 KB each, none of which uses another."""
    items = ITEMS + "".join(KEY_LINES)
    return "".join(f"e{i}|a large entry,\n{items}" for i in range(count)).encode()


def differing_entries(count):
    """`count` entries of 1.1 KB each, of which no two have a string in common."""
    items, text = ITEMS + "".join(KEY_LINES[:4]), re.compile(r"(?<=[a-z0-9])=([^,]*)")
    return "".join(
        text.sub(lambda found, number=i: f"={found[1]}{number:03x}", f"d{i}|a large entry,\n{items}")
        for i in range(count)
    ).encode()


def entries_with_uses(roots, users):
    """`roots` entries that use none, and `users` entries that each use one of these."""
    first = "".join(f"r{i}|a root,\n{ITEMS}" for i in range(roots))
    rest = "".join(
        f"v{i}|a variant,\n\tcols#{i % 200 + 1}, kf1=\\EO{i}, use=r{i % roots},\n" for i in range(users)
    )
    return (first + rest).encode()


def small_entries(count):
    """`count` entries with few capabilities, none of which uses another."""
    return "".join(f"e{i}|a small entry,\n{SMALL}" for i in range(count)).encode()


def chained_entries(count):
    """`count` entries, each but the first with a use of one before it."""
    rest = "".join(f"e{i}|a variant,\n\tcols#{i + 1}, use=e{i // 2},\n" for i in range(1, count))
    return (f"e0|the root,\n{SMALL}" + rest).encode()


def one_block(size):
    """A source of one block, of `size` bytes."""
    text = "bench|a made-up terminal for timing,\n"
    text += ITEMS * ((size - len(text)) // len(ITEMS))
    return (text + "#" * (size - len(text) - 1) + "\n").encode()


def system_entries(*options):
    """The system's entries, each once, as ncurses's infocmp lists them with these options."""
    found = {}
    for directory in ENTRY_DIRECTORIES[1:]:
        for path in files_below(directory):
            if len(os.path.basename(path)) <= FILE_NAME_BYTES:
                # a file of several names is listed once
                found[os.stat(os.path.join(directory, path)).st_ino] = directory, os.path.basename(path)
    listed = b""
    for directory, name in found.values():
        done = subprocess.run(
            ["infocmp", "-1", *options, "-A", directory, name],
            stdout=subprocess.PIPE, stderr=subprocess.DEVNULL, check=False,
        )
        listed += done.stdout if done.returncode == 0 else b""
    return listed
