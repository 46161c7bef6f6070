"""Compiles entries of the system, as ncurses's infocmp lists them, and the examples, by `ti tic`
and by ncurses's `tic -x`. If ncurses writes no cancelled value, the files must be the same byte for
byte, and else say the same but for that. Prints what differs, and whether there was enough to
compare."""

import glob
import os
import struct
import subprocess

# The first of these that has entries: those that another package adds, as Debian's ncurses-term,
# are not compared.
PLACES = ["/etc/terminfo", "/lib/terminfo", "/usr/share/terminfo"]
DIRECTORIES = [place for place in PLACES if glob.glob(f"{place}/?/*")][:1]


def run(*words):
    return subprocess.run(words, stdout=subprocess.PIPE, stderr=subprocess.DEVNULL, timeout=10).stdout


def shorn(values, absent):
    while values and values[-1] in absent:
        values.pop()
    return [None if value in absent else value for value in values]


def read(entry):
    """What an entry says, with cancelled values as absent ones, and whether it has any of those."""
    magic, names, flags, numbers, offsets, size = struct.unpack_from("<6h", entry)
    at = 12 + names
    shown = shorn(list(entry[at : at + flags]), (0, 254, 255))
    cancelled = 254 in entry[at : at + flags]
    at += flags + (names + flags) % 2
    form, width = ("i", 4) if magic == 0x21E else ("h", 2)
    values = list(struct.unpack_from(f"<{numbers}{form}", entry, at))
    at += numbers * width
    places = list(struct.unpack_from(f"<{offsets}h", entry, at))
    at += offsets * 2
    texts = [offset if offset < 0 else entry[at + offset :].split(b"\0")[0] for offset in places]
    cancelled = cancelled or -2 in values or -2 in places
    return (magic, entry[12 : 12 + names], shown, shorn(values, (-1, -2)), shorn(texts, (-1, -2))), cancelled


def files(directory):
    return {os.path.relpath(os.path.join(at, name), directory) for at, _, names in os.walk(directory) for name in names}


def compare(source, compared):
    run("ti", "tic", "-o", "ours", source)
    run("tic", "-x", "-o", "theirs", source)
    for name in files("ours") & files("theirs") - compared.keys():
        with open(os.path.join("ours", name), "rb") as ours, open(os.path.join("theirs", name), "rb") as theirs:
            one, other = ours.read(), theirs.read()
        (said, _), (known, cancelled) = read(one), read(other)
        if said != known or (one != other and not cancelled):
            print(f"{name} of {source} differs")
        compared[name] = cancelled


def main():
    compared = {}
    for source in ("dumb.ti", "lantern.ti", "beacon.ti", "comet.ti"):
        compare(source, compared)
    for directory in DIRECTORIES:
        for name in sorted(files(directory)):
            listing = run("infocmp", "-A", directory, os.path.basename(name))
            if listing:
                with open("listing.ti", "wb") as file:
                    file.write(listing)
                compare("listing.ti", compared)
    same = sum(not differing for differing in compared.values())
    if len(compared) > 20 and same > 15:
        print("compared")
    else:
        print(f"compared {len(compared)}, of which {same} have no cancelled value")
    with open("counts", "w", encoding="utf-8") as file:
        file.write(f"{len(compared)} {same}\n")


main()
