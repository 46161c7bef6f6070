"""Cutting a source into blocks, reading a block, the values of strings."""

import re
from functools import lru_cache
from typing import NamedTuple, Optional

from .caps import FIND, FLAG, NUMBER, TEXT

WHITE = b" \t"
NAMES_MAX = 127
NUMBER_MAX = 2_147_483_647

FAULTS = {
    "E1": "BadHeader", "E2": "NamesTooLong", "E3": "BadNumber", "E4": "NumberTooLarge",
    "E5": "BadString", "E6": "MissingUse", "E7": "Circular", "E8": "Unresolved",
    "E9": "TooLarge", "W1": "UnknownCapability", "W2": "WrongKind", "W3": "UnknownEscape",
    "W4": "DuplicateName",
}
# what an editor tells of each fault
ADVICE = {
    "E1": "The line of names is invalid. Correct the name that is empty or has a space, a slash or a byte"
          " that is not printable ASCII.",
    "E2": "The names up to the first comma are over 127 bytes. Shorten them, or add the missing comma.",
    "E3": "Invalid number. Write it in decimal, in octal after 0, or in hexadecimal after 0x.",
    "E4": "The number is over 2147483647. Write a smaller one.",
    "E5": "Invalid string. Write octal escapes up to \\377, and \\^ for a literal caret.",
    "E6": "No block has this name. Correct it, or add the block: installed entries are not searched.",
    "E7": "This use leads back to its own block. Remove one use= of the cycle.",
    "E8": "The block with this name has an error, or uses one that does. Correct that block.",
    "E9": "The entry is over 4096 bytes, or over 32768 with a number over 32767. Cancel capabilities that are not needed.",
    "W1": "Unknown capability, so it is ignored. Names are case-sensitive, and a comma in a string is"
          " written \\,.",
    "W2": "The capability is of another kind, so it is ignored. Booleans have no sign, numbers have #, and strings have =.",
    "W3": "Unknown escape sequence. Remove the backslash, or double it.",
    "W4": "An earlier block has this name. Remove it from one of the two.",
}
# the local faults for which a block has no entry
BREAKING = ("E1", "E2", "E3", "E4", "E5")


class Fault(NamedTuple):
    """A fault on a line of a block, counted from 1."""

    line: int
    code: str
    detail: Optional[bytes]


class Item(NamedTuple):
    """An accepted item: a capability with its value or a cancel, or a use, whose `cap` is None."""

    ordinal: int
    line: int
    cap: Optional[tuple]
    value: object


class Block(NamedTuple):
    """The one reading of a block."""

    field: bytes
    names: tuple
    items: tuple
    faults: tuple  # (ordinal, Fault); a fault of the header has the ordinal -1

    @property
    def broken(self):
        return any(fault.code in BREAKING for _, fault in self.faults)

    @property
    def uses(self):
        return [item.value for item in self.items if item.cap is None]


CANCEL = object()


def is_head(line):
    return line != b"" and line[:1] not in (b" ", b"\t", b"#")


def cut(source):
    """The preface and the blocks."""
    pieces, preface = [], b""
    for line in re.findall(rb"[^\n]*\n|[^\n]+$", source):
        if is_head(line.rstrip(b"\n")):
            pieces.append(line)
        elif pieces:
            pieces[-1] += line
        else:
            preface += line
    return preface, pieces


def is_one_block(text):
    preface, blocks = cut(text)
    return preface == b"" and len(blocks) == 1 and text.endswith(b"\n")


def fold(block):
    """The folded text, and for each of its bytes the line that it is on."""
    lines = block.split(b"\n")
    kept = [(at + 1, line) for at, line in enumerate(lines[:-1]) if not line.startswith(b"#")]
    folded, where = bytearray(), []
    for place, (number, line) in enumerate(kept):
        text = line if place == 0 else line.lstrip(WHITE)
        folded += text
        where += [number] * len(text)
    return bytes(folded), where


def ends_of_items(text, start):
    """The places where the items end, which begin at `start`, each after the comma of the last."""
    at = start
    while at < len(text):
        byte = text[at]
        if byte == 0x5C:
            at += 2
        elif byte == 0x5E and text[at - 1] != 0x25:
            at += 1 if text[at + 1 : at + 2] == b"," else 2
        else:
            if byte == 0x2C:
                yield at
            at += 1
    yield len(text)


@lru_cache(maxsize=65536)
def read(block):
    """The one reading of a block."""
    text, where = fold(block)
    field, comma, _ = text.partition(b",")
    names, faults, items = read_header(field)
    start = len(field) + 1
    if comma:
        for ordinal, end in enumerate(ends_of_items(text, start)):
            item = text[start:end]
            front = len(item) - len(item.lstrip(WHITE))
            item = item[front:]
            if item != b"" and not item.startswith(b"."):
                line = where[start + front]
                accepted, code, name = read_item(item)
                if code is not None:
                    faults.append((ordinal, Fault(line, code, name)))
                if accepted is not None:
                    items.append(Item(ordinal, line, *accepted))
            start = end + 1
    return Block(field, tuple(names), tuple(items), tuple(faults))


def is_lookup_name(name):
    return (
        name not in (b"", b".", b"..")
        and all(0x21 <= byte <= 0x7E for byte in name)
        and not set(name) & set(b"/,|")
    )


def read_header(field):
    """The names, the fault of the header, and no items."""
    parts = field.split(b"|")
    names = parts if len(parts) == 1 else parts[:-1]
    if b"" in parts or b"\0" in field or not all(map(is_lookup_name, names)):
        return [], [(-1, Fault(1, "E1", None))], []
    if len(field) > NAMES_MAX:
        return names, [(-1, Fault(1, "E2", None))], []
    return names, [], []


def read_item(item):
    """What an item gives, None if it is not accepted; its fault, or None; its name."""
    trimmed = item.rstrip(WHITE)
    marks = [at for at in (trimmed.find(b"#"), trimmed.find(b"=")) if at >= 0]
    if marks:
        end = min(marks)
        name, kind = trimmed[:end], NUMBER if trimmed[end] == 0x23 else TEXT
        if name == b"use" and kind == TEXT:
            return (None, item[end + 1 :].strip(WHITE)), None, name
    elif trimmed.endswith(b"@"):
        name, kind, end = trimmed[:-1], CANCEL, None
    else:
        name, kind, end = trimmed, FLAG, None
    cap = FIND.get(name)
    if cap is None:
        return None, "W1", name
    if kind is CANCEL:
        return (cap, CANCEL), None, name
    if cap[0] != kind:
        return None, "W2", name
    if kind == FLAG:
        return (cap, True), None, name
    return read_value(cap, name, trimmed[end + 1 :] if kind == NUMBER else item[end + 1 :])


def read_value(cap, name, text):
    """The value of a number or a string, as `read_item` gives it."""
    if cap[0] == NUMBER:
        number = number_of(text)
        if number is None:
            return None, "E3", name
        return (None, "E4", name) if number > NUMBER_MAX else ((cap, number), None, name)
    value, odd, cause = unescape(text)
    if cause is not None:
        return None, "E5", name
    return (cap, value), "W3" if odd else None, name


def number_of(text):
    if re.fullmatch(rb"0[0-7]*", text):
        return int(text, 8)
    if re.fullmatch(rb"0[xX][0-9a-fA-F]+", text):
        return int(text[2:], 16)
    if re.fullmatch(rb"[1-9][0-9]*", text):
        # Python cuts decimal texts off at 4,300 digits, and any past ten is too large anyway
        return int(text) if len(text) <= 10 else NUMBER_MAX + 1
    return None


LETTERS = {
    b"E": 0x1B, b"e": 0x1B, b"n": 0x0A, b"l": 0x0A, b"r": 0x0D, b"t": 0x09, b"b": 0x08,
    b"f": 0x0C, b"s": 0x20, b"a": 0x07, b"^": 0x5E, b"\\": 0x5C, b",": 0x2C, b":": 0x3A,
}


def unescape(text):
    """The value, whether an unknown escape is in it, and the cause why there is no value."""
    value, odd, at = bytearray(), False, 0
    while at < len(text):
        byte, after = text[at : at + 1], text[at + 1 : at + 2]
        octal = re.match(rb"\\([0-7]{1,3})", text[at : at + 4])
        if octal:
            number = int(octal[1], 8)
            if number > 255:
                return None, odd, "BadOctal"
            value.append(number or 0x80)
            at += len(octal[0])
        elif byte == b"\\":
            if after == b"\0":
                return None, odd, "BadByte"
            odd = odd or after not in LETTERS
            value.append(LETTERS.get(after, (after or b"\\")[0]))
            at += 2
        elif byte == b"^" and text[at - 1 : at] != b"%":
            if after == b"" or after == b"," or not 0x20 <= after[0] <= 0x7E:
                return None, odd, "BadControl"
            value.append(0x7F if after == b"?" else (after[0] & 0x1F) or 0x80)
            at += 2
        elif byte == b"\0":
            return None, odd, "BadByte"
        else:
            value.append(byte[0])
            at += 1
    return bytes(value), odd, None
