"""What a compiled entry says (term(5)), for the comparison of two of them."""

import struct

# the causes that docs/COMPARED.md names
CAUSES = {
    "spelled otherwise", "cancelled values", "absent user-defined names", "over 4,096 bytes",
}
# the values of a boolean, a number and an offset that is cancelled
CANCELLED = {"flag": 0xFE, "number": -2, "string": -2}


class Image:
    """The names of an entry, and its values by kind and index, or by name if they are user-defined."""

    def __init__(self, content):
        self.content, self.at = content, 12
        self.values, self.cancelled, self.absent = {}, set(), False
        magic, names, flags, numbers, strings, table = struct.unpack_from("<6H", content)
        self.number = ("i", 4) if magic == 0o1036 else ("h", 2)
        self.names = self.bytes(names)
        flags, numbers, offsets = self.rows(flags, numbers, strings)
        texts = self.bytes(table)
        self.put("flag", range(len(flags)), flags)
        self.put("number", range(len(numbers)), numbers)
        self.put("string", range(len(offsets)), self.texts(offsets, texts))
        self.at += self.at % 2
        if len(content) - self.at >= 10:
            self.read_extension()

    def bytes(self, count):
        self.at += count
        return self.content[self.at - count:self.at]

    def rows(self, flags, numbers, strings):
        """The booleans, the numbers and the offsets that follow, of that many each."""
        booleans = list(self.bytes(flags))
        self.at += self.at % 2
        letter, size = self.number
        values = struct.unpack(f"<{numbers}{letter}", self.bytes(size * numbers))
        return booleans, values, struct.unpack(f"<{strings}h", self.bytes(2 * strings))

    def texts(self, offsets, table):
        return [table[at:table.index(b"\0", at)] if at >= 0 else at for at in offsets]

    def put(self, kind, keys, values):
        for key, value in zip(keys, values):
            if value == CANCELLED[kind]:
                self.cancelled.add((kind, key))
            elif value != (0 if kind == "flag" else -1):
                self.values[kind, key] = value
            elif isinstance(key, bytes):
                self.absent = True

    def read_extension(self):
        flags, numbers, strings, _, size = struct.unpack("<5H", self.bytes(10))
        booleans, values, offsets = self.rows(flags, numbers, strings)
        places = struct.unpack(f"<{flags + numbers + strings}h", self.bytes(2 * (flags + numbers + strings)))
        table = self.bytes(size)
        texts = self.texts(offsets, table)
        base = sum(len(text) + 1 for text in texts if isinstance(text, bytes))
        names = self.texts([base + place for place in places], table)
        self.put("flag", names[:flags], booleans)
        self.put("number", names[flags:flags + numbers], values)
        self.put("string", names[flags + numbers:], texts)


# the index of acs_chars among the strings
ACS_CHARS = ("string", 146)


def plain(key, value):
    """A value as it is compared: the pairs of acs_chars in order, in which ncurses's infocmp lists them."""
    if key == ACS_CHARS:
        return sorted(value[at:at + 2] for at in range(0, len(value), 2))
    return value


def difference(ours, theirs):
    """By which cause two entries differ: None if they are alike; one of CAUSES; else what is not as it
    should be."""
    if ours == theirs:
        return None
    one, other = Image(ours), Image(theirs)
    if one.names != other.names:
        return f"names {one.names!r} and {other.names!r}"
    differing = [
        key for key in {*one.values, *other.values}
        if key not in one.values or key not in other.values
        or plain(key, one.values[key]) != plain(key, other.values[key])
    ]
    if differing:
        shown = [(key, one.values.get(key), other.values.get(key)) for key in sorted(differing, key=str)]
        return f"{shown[:4]}"
    if one.values != other.values:
        return "spelled otherwise"
    if other.cancelled and not one.cancelled:
        return "cancelled values"
    return "absent user-defined names" if other.absent and not one.absent else "laid out otherwise"


def alone(theirs):
    """Why ncurses alone writes an entry."""
    return "over 4,096 bytes" if len(theirs) > 4096 else "written by tic alone"


def cause_of(ours, theirs):
    """Why the entries of a file differ, None if they are alike."""
    if theirs is None:
        return "written by ti-tic alone"
    if ours is None:
        return alone(theirs)
    return difference(ours, theirs)


def is_entry(content):
    """Whether a file is an entry of either format."""
    return content[:2] in (b"\x1a\x01", b"\x1e\x02")
