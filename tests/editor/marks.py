"""Reads files of sources with marks. tests/editor/README.md says what a line of them is."""

import re
from dataclasses import dataclass, field
from typing import NamedTuple

from model.texts import offset_of, width

# the requests, and whether each is about a place
METHODS = {
    "hover": True, "completion": True, "definition": True, "references": True, "documentHighlight": True,
    "prepareRename": True, "rename": True, "signatureHelp": True, "codeAction": True, "documentSymbol": False,
    "foldingRange": False, "formatting": False, "rangeFormatting": True, "symbol": False,
}
# what may follow the name of a request; others have nothing
ARGUMENTS = {"rename": r".+", "symbol": r".+", "codeAction": r".*", "references": r"(declared)?"}

PLACE = r"(\d+):(\d+)(?:-(?:(\d+):)?(\d+))?"
CODE = r"[EWN]\d|installed|BlockTooLong|TooManyBlocks"
SEVERITIES = ["error", "warning", "information", "hint"]
# the settings of a source, with what they are if it says nothing
SETTINGS = {"hints": "on", "userDefined": "on", "client": "full", "installed": "", "unmarked": None, "unlinted": None}
VALUES = {"hints": ("on", "off"), "userDefined": ("on", "off"), "client": ("full", "plain")}
ESCAPE = re.compile(r"\\\((\d+):((?:[^\\]|\\[^)])*)\\\)|\\([0-7]{1,3}|.|$)")
LETTERS = {"E": b"\x1b", "n": b"\n", "r": b"\r", "t": b"\t", "b": b"\b", "f": b"\f", "s": b" "}


class BadMark(Exception):
    """A line of a file is none that there is; the text says why."""


class Range(NamedTuple):
    """A part of a text, by lines and columns as the protocol counts them."""

    line: int
    column: int
    last: int
    end: int

    def __str__(self):
        last = "" if self.last == self.line else f"{self.last}:"
        return f"{self.line}:{self.column}-{last}{self.end}"

    def value(self):
        start, end = {"line": self.line, "character": self.column}, {"line": self.last, "character": self.end}
        return {"start": start, "end": end}


@dataclass
class Shown:
    """A mark of a diagnostic."""

    row: int
    range: Range
    code: str
    severity: str
    message: str


@dataclass
class Asked:
    """A mark of a request: where, which, its argument, and the lines that are wanted."""

    row: int
    range: Range
    method: str
    argument: str
    wanted: list = field(default_factory=list)


@dataclass
class Text:
    """A text of a document, or a change of the text before; and its marks."""

    row: int
    text: str = ""
    change: tuple = None
    shown: list = field(default_factory=list)
    asked: list = field(default_factory=list)


@dataclass
class Source:
    """A document: its name, its settings and its texts, one after another."""

    row: int
    name: str
    settings: dict
    texts: list


def escaped_bytes(found):
    """The bytes of one escape: a text so many times, a byte by its digits, or a letter or sign."""
    if found[1]:
        return int(found[1]) * bytes_of(found[2])
    sign = found[3]
    if not sign or (sign[0].isalpha() and sign not in LETTERS):
        raise BadMark(f"no escape: \\{sign}")
    if sign[0] not in "01234567":
        return LETTERS.get(sign, sign.encode())
    if int(sign, 8) > 255:
        raise BadMark(f"no byte: \\{sign}")
    return bytes([int(sign, 8)])


def bytes_of(text):
    """The bytes of a text with escapes, which are those of the rows of test_rows."""
    pieces, at = [], 0
    for found in ESCAPE.finditer(text):
        pieces += [text[at : found.start()].encode(), escaped_bytes(found)]
        at = found.end()
    return b"".join([*pieces, text[at:].encode()])


def decoded(text):
    """A text without its escapes."""
    try:
        return bytes_of(text).decode()
    except UnicodeDecodeError as error:
        raise BadMark("the text is not UTF-8") from error


def range_of(found):
    """The range of a place that was matched; one without an end is empty."""
    line, column, last, end = (None if number is None else int(number) for number in found)
    return Range(line, column, line if last is None else last, column if end is None else end)


def word_of(argument):
    """An argument of a request: in quotes with escapes, else as it is."""
    quoted = re.fullmatch(r'"(.*)"', argument)
    return decoded(quoted[1]) if quoted else argument


def changed(text, change):
    """A text with a part replaced."""
    place, new = change
    start = offset_of(text, place.line, place.column)
    return text[:start] + new + text[max(start, offset_of(text, place.last, place.end)) :]


class Reader:
    """Reads the lines of one file."""

    def __init__(self):
        self.sources, self.settings, self.asked, self.has_comment = [], dict(SETTINGS), None, False

    def text(self):
        """The text that is being read."""
        if not self.sources or not self.sources[-1].texts:
            raise BadMark("there is no source above")
        return self.sources[-1].texts[-1]

    def read(self, row, line):
        """Reads a line of the file."""
        sign, rest = line[:2].rstrip(), line[2:]
        asked, self.asked = self.asked, None
        if not line.replace("\t", "").isprintable():
            raise BadMark("a character that is not seen: write it as an escape")
        if line.startswith("#"):
            self.has_comment = True
        elif sign == "==":
            self.begin(row, rest.strip())
        elif sign == "@":
            self.set(*rest.strip().partition(" ")[::2])
        elif sign in (">", "\\"):
            self.add(row, rest + "\n" if sign == ">" else decoded(rest))
        elif sign == "--":
            self.exchange(row, rest.strip())
        elif line.startswith("  ") and line.strip():
            self.asked = asked
            self.mark(row, rest)
        elif line.strip():
            raise BadMark(f"no line of this kind is known: {line}")

    def begin(self, row, name):
        if not name or any(source.name == name for source in self.sources):
            raise BadMark(f"no name, or one that the file has already: {name}")
        self.sources.append(Source(row, name, dict(self.settings), []))

    def set(self, name, value):
        """A setting: before the first source it is of all."""
        settings = self.sources[-1].settings if self.sources else self.settings
        if name not in SETTINGS or (name in VALUES and value not in VALUES[name]) or not value:
            raise BadMark(f"no setting, or not its value: {name} {value}")
        if self.sources and self.sources[-1].texts:
            raise BadMark("a setting comes before the text")
        settings[name] = value

    def add(self, row, text):
        """Adds to the text; the first line of a source begins its first one."""
        if not self.sources:
            raise BadMark("there is no source above")
        if not self.sources[-1].texts:
            self.sources[-1].texts.append(Text(row))
        one = self.text()
        if one.change:
            raise BadMark("a change of a part is followed by marks alone")
        one.text += text

    def exchange(self, row, change):
        """The next text of the document, or a change of a part of it."""
        before = self.text()
        self.sources[-1].texts.append(Text(row))
        if change:
            found = re.match(rf"{PLACE} (.*)", change)
            if not found:
                raise BadMark(f"no change: {change}")
            one = self.text()
            one.change = (range_of(found.groups()[:4]), word_of(found[5]))
            one.text = changed(before.text, one.change)

    def mark(self, row, rest):
        """A mark on the last line of the text so far, or on a place that it names."""
        found = re.match(rf"(\s*)(\^+|\|-*\||\||\*|=>|=\\|{PLACE})(?: (.*))?$", rest)
        if not found:
            raise BadMark(f"no mark of this kind is known: {rest.strip()}")
        sign, more = found[2], found[7] or ""
        if sign in ("=>", "=\\"):
            if self.asked is None:
                raise BadMark("no request is above")
            self.asked.wanted.append(decoded(more) if sign == "=\\" else more)
            return
        self.asked = None
        one = self.text()
        at = one.text.count("\n") - one.text.endswith("\n")
        start = width(found[1])
        if sign[0] == "*":
            place = None
        elif sign[0] in "^|":
            place = Range(at, start, at, start + (len(sign) if sign[0] == "^" else len(sign) - 1))
        else:
            place = range_of(found.groups()[2:6])
        if re.match(rf"({CODE})\b", more) and sign[0] not in "*|":
            one.shown.append(shown_mark(row, place, more))
        elif sign[0] == "^":
            raise BadMark(f"no code of a diagnostic: {more}")
        else:
            self.asked = asked_mark(row, place, more)
            one.asked.append(self.asked)


def shown_mark(row, place, words):
    """The mark of a diagnostic: its code, its severity if the code does not say it, its message."""
    found = re.fullmatch(rf"({CODE})(?: ({'|'.join(SEVERITIES)}))?(?: (.*))?", words)
    if not found:
        raise BadMark(f"no diagnostic: {words}")
    severity = found[2] or ("warning" if found[1][0] == "W" else "error")
    if found[2] is None and found[1][0] not in "EWBT":
        raise BadMark(f"the severity of {found[1]} is not said")
    if not found[3]:
        raise BadMark("no message, and no .. for any")
    return Shown(row, place, found[1], severity, found[3])


def asked_mark(row, place, words):
    """The mark of a request."""
    front, arrow, wanted = words.partition(" =>")
    method, _, argument = front.partition(" ")
    if method not in METHODS:
        raise BadMark(f"no request: {method}")
    if METHODS[method] != (place is not None):
        raise BadMark(f"{method} is of {'a place' if METHODS[method] else 'the whole document, *'}")
    if not re.fullmatch(ARGUMENTS.get(method, ""), argument.strip()):
        raise BadMark(f"no argument of {method}, or none is given: {argument}")
    asked = Asked(row, place, method, word_of(argument.strip()))
    if arrow and wanted.strip():
        asked.wanted.append(wanted[1:])
    return asked


def sources_in(path):
    """The sources of a file, and the lines that are none, with what is wrong with each."""
    reader, faults = Reader(), []
    with open(path, encoding="utf-8", newline="\n") as file:
        lines = file.read().split("\n")
    for row, line in enumerate(lines, 1):
        try:
            reader.read(row, line)
        except BadMark as error:
            faults.append((row, str(error)))
    if not reader.has_comment:
        faults.append((1, "no comment says where the values come from"))
    for source in reader.sources:
        if not source.texts:
            faults.append((source.row, "the source has no text"))
        faults += [
            (asked.row, f"nothing is wanted of {asked.method}")
            for text in source.texts for asked in text.asked if not asked.wanted
        ]
    return reader.sources, faults
