"""What a language server for terminfo source offers against the faults of items."""

import re

from .answers import (
    blocks_with_lines, fold_at, is_name, is_place, items_in, place_in, range_in, span_of, stays_in_line, use_in,
)
from .base import Meaning
from .caps import FIND, FLAG, KINDS, NAMES_OF, NUMBER, TEXT
from .listing import written
from .source import NAMES_MAX, NUMBER_MAX, WHITE, number_of, read, unescape
from .texts import offset_of

MOST = 3
SIGNS = {FLAG: "Remove the sign", NUMBER: "Write `#` before the number", TEXT: "Write `=` before the string"}


def shown(text):
    """Bytes as they are sent."""
    return "".join(chr(it) if 0x20 <= it <= 0x7E else "?" for it in text)


def distance(one, other):
    """How many bytes are put in, taken out or exchanged from one name to the other."""
    row = list(range(len(other) + 1))
    for at, byte in enumerate(one):
        before, row[0] = row[0], at + 1
        for column, right in enumerate(other):
            before, row[column + 1] = row[column + 1], min(
                before + (byte != right), row[column] + 1, row[column + 1] + 1
            )
    return row[-1]


def nearest(name, others):
    """The first names of least distance, which is less than the name is long, and at most 2."""
    if len(name) > NAMES_MAX:
        return []
    close = [it for it in others if abs(len(it) - len(name)) <= 2]
    for edits in (1, 2):
        found = [it for it in close if edits < len(name) and distance(name, it) == edits]
        if found:
            return found[:MOST]
    return []


def renamed(name, span, others):
    return [(f"Replace `{shown(name)}` with `{shown(other)}`", span, shown(other)) for other in nearest(name, others)]


def parts_of(folded, start, end):
    """The end of the name of an item, and the end of the item without white space."""
    text = folded[start:end].rstrip(WHITE)
    mark = re.search(rb"[#=]", text)
    name = mark.start() if mark else len(text.removesuffix(b"@"))
    return start + name, start + len(text)


def known(folded, where, start, end):
    """The nearest names of capabilities in place of that of an item."""
    name, stop = parts_of(folded, start, end)
    kinds = {b"": [FLAG], b"#": [NUMBER], b"=": [TEXT]}.get(folded[name:stop][:1], KINDS)
    others = [it for kind in kinds for it in NAMES_OF[kind]]
    return renamed(folded[start:name], span_of(where, start, name), others)


def fits_kind(kind, value, raw):
    """Whether a capability of a kind is read with its sign before a value, which comes without the
    white space at its end, and as it is."""
    if kind == FLAG:
        return value == b""
    if kind == TEXT:
        return value != b"" and unescape(raw)[2] is None
    number = number_of(value) if re.fullmatch(rb"[0-9]+", value) else None
    return number is not None and number <= NUMBER_MAX


def signed(folded, where, start, end):
    """The sign of an item's capability in place of its own."""
    name, stop = parts_of(folded, start, end)
    kind, value = FIND[folded[start:name]][0], folded[name + 1 : stop]
    if name == stop or not fits_kind(kind, value, folded[name + 1 : end]):
        return []
    return [(SIGNS[kind], (where[name], where[name] + 1), {FLAG: "", NUMBER: "#", TEXT: "="}[kind])]


def spelled(folded, where, start, end, value):
    """The value of an item as it is spelled, in place of how it is written, but for a CR at its end."""
    name, _ = parts_of(folded, start, end)
    if len(value) > 1 and value.endswith(b"\r") and folded[name + 1 : end].endswith(b"\r"):
        end, value = end - 1, value[:-1]
    span = span_of(where, name + 1, end)
    return [] if span is None else [("Rewrite the string as it is read", span, shown(written(value)))]


def escaped(folded, where, start, end):
    """A backslash before the `^` at the end of an item's value, if the value is read then."""
    name, _ = parts_of(folded, start, end)
    value = folded[name + 1 : end]
    heals = value.endswith(b"^") and unescape(value[:-1] + b"\\^")[2] is None
    return [("Write `\\^` at the end", (where[end - 1], where[end - 1] + 1), "\\^")] if heals else []


def used(folded, where, part, names, owners):
    """The nearest names of other blocks in place of one that no block has."""
    name = None if part is None else folded[slice(*part)]
    return [] if name is None or name == b"" or name in owners else renamed(name, span_of(where, *part), names)


def offered(block, at, owners, start, stop):
    """What is offered for the items of a block that a stretch of it touches: where each item begins,
    the codes of its fault, and the titles, parts and texts."""
    folded, where = fold_at(block)
    codes = {ordinal: fault.code for ordinal, fault in read(block).faults}
    values = {item.ordinal: item.value for item in read(block).items}
    others, found = [name for name, owner in owners.items() if owner != at and is_name(name)], []
    for ordinal, part in enumerate(items_in(folded)):
        span, code = span_of(where, *part), codes.get(ordinal)
        if span is None or stop < span[0] or span[1] < start:
            continue
        own = []
        if code == "W1":
            own = known(folded, where, *part)
        elif code == "W2":
            own = signed(folded, where, *part)
        elif code == "W3":
            own = spelled(folded, where, *part, values[ordinal])
        elif code == "E5":
            own = escaped(folded, where, *part)
        found += [(span[0], code, *each) for each in own]
        found += [(span[0], "E6", *each) for each in used(folded, where, use_in(folded, *part), others, owners)]
    return found


def shared(old, new):
    """With how many bytes both begin, if one of each is left."""
    most = min(len(old), len(new)) - 1
    return next((at for at in range(most) if old[at] != new[at]), max(0, most))


def narrowed(folded, where, span, new):
    """The part and the text of an edit without the bytes that it leaves as they are."""
    places = [(byte, at) for byte, at in zip(folded, where) if span[0] <= at < span[1]]
    new = new.encode("ascii")
    front = shared([byte for byte, _ in places], new)
    if new[front : front + 1] in (b"", b" ", b"\t"):
        front = 0
    places, new = places[front:], new[front:]
    back = shared([byte for byte, _ in reversed(places)], new[::-1])
    places, new = places[: len(places) - back], new[: len(new) - back]
    return (places[0][1], places[-1][1] + 1), new.decode("ascii")


def diagnostic(mark):
    """A diagnostic as it is sent."""
    line, start, end, severity, code, message = mark
    shown = {"start": {"line": line, "character": start}, "end": {"line": line, "character": end}}
    return {"range": shown, "severity": severity, "code": code, "source": "ti", "message": message}


def offset_in(text, line, column):
    """The place in the bytes of a text of a place in the protocol."""
    return len(text[: offset_of(text, line, column)].encode("utf-8"))


def fixes_of(text, uri, start, end, marks):
    """The quick fixes for a range of a text: of the block in which it begins, each with the
    diagnostic of its fault, which is one of `marks`."""
    first, held, found = offset_in(text, *start), blocks_with_lines(text), []
    owners = Meaning([block for block, _, _ in held]).owners
    for at, (block, line, front) in enumerate(held):
        if front <= first < front + len(block):
            # an end before the block is in its first line
            stop = offset_in(block.decode("utf-8"), max(0, end[0] - line), end[1])
            folded, where = fold_at(block)
            for item, code, title, whole, text in offered(block, at, owners, first - front, stop):
                span, new = narrowed(folded, where, whole, text)
                if not all(is_place(block, offset) for offset in span) or not stays_in_line(block, *span, new):
                    continue
                edit = {"newText": new, "range": range_in(block, line, *span)}
                place = place_in(block, line, item)
                key = place["line"], place["character"], code
                resolved = [diagnostic(mark) for mark in marks if (mark[0], mark[1], mark[4]) == key]
                action = {"edit": {"changes": {uri: [edit]}}, "kind": "quickfix", "title": title, "diagnostics": resolved}
                # another name is a guess, and an odd escape has two corrections
                guess = title.startswith(("Replace `", "Rewrite "))
                found.append(action if guess else {**action, "isPreferred": True})
    return found
