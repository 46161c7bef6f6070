"""Sources, edits and scripts made at random, from a seed.

Names come from a small set, so that circular uses, second owners, broken owners and missing ones
are frequent; capabilities too, so that cancels and inherited values meet. A part of the sources is
then damaged byte by byte.
"""

import random

NAMES = [b"a", b"b", b"c", b"d", b"e", b"f", b"g2", b"h-h"]
ODD_NAMES = [b"", b".", b"..", b"a/b", b"a b", b"\x80x", b"#", b"n" * 60, b"n" * 140, b"~", b"!", b"a\0"]
FLAGS = [b"am", b"bw", b"xenl", b"OTxr"]
NUMBERS = [b"cols", b"it", b"lines", b"OTkn"]
TEXTS = [b"bel", b"cbt", b"cr", b"clear", b"cup", b"kf1", b"box1"]
GOOD_NUMBERS = [b"0", b"1", b"8", b"80", b"010", b"0x7fff", b"32767", b"32768", b"65535", b"2147483647", b"0X1f"]
BAD_NUMBERS = [b"", b"x", b"08", b"0x", b"2147483648", b"1 2", b"-1", b"+1", b"99999999999999999999", b"1#2", b"1=2"]
PIECES = [
    b"A", b"\\E[", b"^G", b"\\n", b"%p1%d", b"\\,", b"\\\\", b"\\^", b"^?", b"^@", b"\\0", b"\\377", b"\\33[", b"%^",
    b"$<5>", b"\\s", b" ", b"\\200", b"^\\", b"^^", b"\t", b"|", b"#", b"=", b"@", b"\xff", b"\\E", b"%%", b"\\1234", b"\\072",
]
ODD_PIECES = [b"\\q", b"\\400", b"^", b"\\", b"\0", b"\\\0", b"^\x80", b"%^\0", b"\\8", b"^,"]
OTHER_ITEMS = [
    b"", b" ", b".am", b".use=a", b"foo", b"foo#1", b"foo=x", b"use", b"use#1", b"use@", b"use =a", b"am#1", b"cols=3",
    b"bel#7", b"bel", b"cols", b"am=", b"@", b"=", b"#", b"cols #5", b"am @", b"foo\\,bar", b"foo^,bar", b"a\x80b@", b"\\", b"^",
    b"\\,am", b"cols@@", b"%^,am",
]
BREAKS = [b"\n\t", b"\n ", b"\n\t\t", b" \n\t", b"\n# note, am, use=a\n\t", b"\n\n\t", b"\n \n ", b"\n#\n#\n "]
BYTES = [b"\0", b"\n", b",", b"|", b"#", b"^", b"\\", b"%", b" ", b"\t", b"\r", b"\xff", b"=", b"@", b"a", b"use=", b"\n#", b"\nx,"]


class Source:
    """Makes texts from a generator of random numbers."""

    def __init__(self, seed):
        self.random = random.Random(seed)

    def maybe(self, chance):
        return self.random.random() < chance

    def one(self, choices):
        return self.random.choice(choices)

    def name(self):
        return self.one(ODD_NAMES) if self.maybe(0.02) else self.one(NAMES)

    def header(self):
        parts = [self.name() for _ in range(self.one([1, 1, 1, 2, 2, 3, 4]))]
        if len(parts) > 1 and self.maybe(0.7):
            parts[-1] = self.one([b"a text", b"Terminal of tests", b"", b"d" * 120, b"e" * 40, b"x/y"])
        return b"|".join(parts)

    def value(self):
        pieces = [self.one(PIECES) for _ in range(self.one([0, 1, 1, 2, 3, 6]))]
        if self.maybe(0.06):
            pieces.insert(self.random.randint(0, len(pieces)), self.one(ODD_PIECES))
        if self.maybe(0.04):
            # about as long as an entry of either format may be
            pieces.append(b"A" * self.random.choice([1000, self.random.randint(4_060, 4_082), self.random.randint(32_720, 32_750)]))
        return b"".join(pieces)

    def item(self):
        kind = self.random.random()
        if kind < 0.30:
            return b"use=" + self.one([b"", b"", b"", b" ", b"\t"]) + self.name() + self.one([b"", b"", b"", b" "])
        if kind < 0.42:
            return self.one(FLAGS)
        if kind < 0.60:
            return self.one(NUMBERS) + b"#" + self.one(BAD_NUMBERS if self.maybe(0.08) else GOOD_NUMBERS)
        if kind < 0.80:
            return self.one(TEXTS) + b"=" + self.value()
        if kind < 0.92:
            return self.one(FLAGS + NUMBERS + TEXTS) + b"@"
        return self.one(OTHER_ITEMS)

    def block(self):
        """A text that is mostly one block."""
        text = self.header() + b","
        for _ in range(self.one([0, 1, 1, 2, 2, 3, 3, 4, 6, 9])):
            text += self.one(BREAKS) if self.maybe(0.3) else self.one([b"", b" ", b"\t"])
            text += self.item() + self.one([b",", b",", b",", b",", b" ,"])
        if self.maybe(0.03):
            text = text[:-1]
        text += b"\n"
        if self.maybe(0.05):
            text += self.one([b"# a comment\n", b"\n", b"\t\n", b" am,\n"])
        return self.damage(text) if self.maybe(0.06) else text

    def damage(self, text):
        """The text with a few bytes changed, taken out or put in."""
        text = bytearray(text)
        for _ in range(self.one([1, 1, 2, 5])):
            at = self.random.randint(0, len(text))
            text[at : at + self.one([0, 0, 1, 1, 3])] = self.one(BYTES + [bytes([self.random.randrange(256)])])
        return bytes(text)

    def text(self):
        """A text for an edit: now and then none, two blocks, or without its newline."""
        if self.maybe(0.04):
            return self.one([b"", b"# only\n", b"\n", b" am,\n", self.block() + self.block(), self.block()[:-1]])
        return self.block()

    def edit(self, count):
        """An edit of a list of so many blocks; some positions are past its end."""
        at = self.random.randint(0, count + 1) if self.maybe(0.1) else self.random.randrange(max(count, 1))
        kind = self.random.random()
        if kind < (0.9 if count < 4 else 0.4 if count < 9 else 0.15):
            return "i", self.random.randint(0, count) if self.maybe(0.9) else at, self.text()
        if kind < 0.7:
            return "r", at, self.text()
        if kind < 0.85:
            return "d", at
        return "m", at, self.random.randrange(max(count, 1)) if self.maybe(0.9) else count

    def source(self):
        """A whole source, with a preface at times."""
        text = self.one([b"", b"", b"", b"# made at random\n", b"\n \n", b" am, cols#1,\n"])
        text += b"".join(self.block() for _ in range(self.one([0, 1, 2, 3, 5, 8])))
        if self.maybe(0.1):
            text = text[:-1]
        return self.damage(text) if self.maybe(0.3) else text

    def command(self, count):
        """A line of a session that is no edit of the list, or a bad one."""
        return self.one([
            b"f", b"w", b"w", b"p %d" % self.random.randint(0, count + 1), b"zap", b"", b"i", b"i  0", b"i 0 ", b"d", b"m 0",
            b"m 0  1", b"p 1234567890", b"d 999999999", b"p 007", b".", b" f", b"f ", b"w\r", b"\0", b"m 0 0 0", b"i -1", b"r x",
        ])


def lines_of(edit):
    """The lines of a session that make an edit; a text that has a line of one period is no such."""
    if edit[0] in "ir":
        return b"%s %d\n%s.\n" % (edit[0].encode(), edit[1], edit[2])
    return " ".join(map(str, edit)).encode() + b"\n"


def fits_a_session(edit):
    """Whether a session can take the edit: its text is lines, and none is a period alone."""
    if edit[0] not in "ir":
        return True
    text = edit[2]
    lines = text.split(b"\n")
    return (text == b"" or text.endswith(b"\n")) and b"." not in lines and max(map(len, lines)) <= 65_536
