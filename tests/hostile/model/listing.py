"""Listings, comparisons and relative source."""

import re
from functools import lru_cache

from .caps import FLAG, KINDS, NAMES_OF, NUMBER, name

LETTERS = {0x1B: b"\\E", 0x0A: b"\\n", 0x0D: b"\\r", 0x09: b"\\t", 0x08: b"\\b", 0x0C: b"\\f", 0x00: b"\\0"}
# what may not be written as itself: a space only if it is the first or the last byte
SPECIAL = re.compile(rb"[\x00-\x1f\x7f-\xff,\\^]|\A | \Z")
WIDTH = 60


@lru_cache(maxsize=2048)
def written(value):
    """The text of a string."""
    return SPECIAL.sub(lambda found: written_byte(found[0][0], value[found.start() - 1 : found.start()] == b"%"), value)


def written_byte(byte, behind_percent):
    if byte in LETTERS:
        return LETTERS[byte]
    if byte == 0x20:
        return b"\\s"
    if byte in b",\\" or (byte == 0x5E and not behind_percent):
        return b"\\" + bytes([byte])
    if byte == 0x5E:
        return b"^"
    if byte == 0x1C or byte >= 0x80 or behind_percent:
        return b"\\%03o" % byte
    return b"^?" if byte == 0x7F else b"^" + bytes([byte + 0x40])


def caps_of(kind, by_name):
    found = [(kind, at) for at in range(len(NAMES_OF[kind]))]
    return sorted(found, key=name) if by_name else found


def item(cap, value):
    if cap[0] == FLAG:
        return name(cap) + b","
    if cap[0] == NUMBER:
        return name(cap) + b"#%d," % value
    return name(cap) + b"=" + written(value) + b","


def laid(names, items_by_kind, width, one_per_line):
    """A names field, and items in lines."""
    out = names + b",\n"
    for items in items_by_kind:
        line = b""
        for one in items:
            if line and (one_per_line or 8 + len(line) + 1 + len(one) > width):
                out += b"\t" + line + b"\n"
                line = b""
            line += b" " + one if line else one
        out += b"\t" + line + b"\n" if line else b""
    return out


def listed(entry, width=WIDTH, one_per_line=False, by_name=True):
    """The listing of an entry, which is its names and its values."""
    names, values = entry
    items = [[item(cap, values[cap]) for cap in caps_of(kind, by_name) if cap in values] for kind in KINDS]
    return laid(names, items, width, one_per_line)


def relative(entry, others, width=WIDTH, one_per_line=False, by_name=True):
    """The source of an entry that uses the others."""
    names, values = entry
    items = []
    for kind in KINDS:
        items.append([])
        for cap in caps_of(kind, by_name):
            theirs = next((other[1][cap] for other in others if cap in other[1]), None)
            if cap in values and values[cap] != theirs:
                items[-1].append(item(cap, values[cap]))
            elif cap not in values and theirs is not None:
                items[-1].append(name(cap) + b"@,")
    uses = b"".join(b"\tuse=" + other[0].split(b"|")[0] + b",\n" for other in others)
    return laid(names, items, width, one_per_line) + uses


def compared(first, second, mode, by_name=True):
    """The comparison of two entries; the mode is `d`, `c` or `n`."""
    names = [entry[0].split(b"|")[0] for entry in (first, second)]
    out = b"comparing %s to %s.\n" % tuple(names)
    for kind, heading in zip(KINDS, (b"booleans", b"numbers", b"strings")):
        out += b"    comparing %s.\n" % heading
        for cap in caps_of(kind, by_name):
            one, other = first[1].get(cap), second[1].get(cap)
            row = None
            if mode == "d" and one != other:
                row = b": " + shown(kind, one) + (b":" if kind == FLAG else b", ") + shown(kind, other) + b"."
            elif mode == "c" and one == other and one is not None:
                row = b"= " + shown(kind, one) + b"."
            elif mode == "n" and one is None and other is None:
                row = b"."
            if row is not None:
                out += b"\t" + (b"!" if mode == "n" else b"") + name(cap) + row + b"\n"
    return out


def shown(kind, value):
    if kind == FLAG:
        return b"F" if value is None else b"T"
    if value is None:
        return b"NULL"
    return b"%d" % value if kind == NUMBER else b"'" + written(value) + b"'"
