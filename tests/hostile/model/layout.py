"""The layout of a source in lines of a width, and the lines of it that may be folded."""

from .answers import blocks_with_lines
from .source import WHITE, cut, ends_of_items, fold, is_head
from .texts import lines_of, offset_of, width

COLUMNS = 80
MARK = b"\xef\xbb\xbf"
TAB = 8


def is_kept(line):
    """Whether a line stays as it is: it is a comment, or blank."""
    return line.startswith(b"#") or line.strip(WHITE) == b""


def split_lines(source):
    """The lines of a source, without their ends."""
    lines = source.split(b"\n")
    return lines[:-1] if lines[-1] == b"" else lines


def kind_of(item):
    """What an item is for the layout: a number, or 0 if it goes with any."""
    if item == b"" or item.startswith(b"."):
        return 0
    marks = [at for at in (item.find(b"#"), item.find(b"=")) if at >= 0]
    if not marks:
        return 0 if item.rstrip(WHITE).endswith(b"@") else 1
    if item[min(marks)] == 0x23:
        return 2
    return 4 if item[: min(marks)] == b"use" else 3


def items_of(block):
    """The items of a block: the line of each, 0 if it is empty, its text, and whether a comma ends it."""
    text, where = fold(block)
    start, found = text.find(b",") + 1 or len(text) + 1, []
    for end in ends_of_items(text, start):
        item = text[start:end].lstrip(WHITE)
        found.append([where[end - len(item)] if item else 0, item, True])
        start = end + 1
    if found and found[-1][1] == b"":
        found.pop()
    elif found:
        found[-1][2] = False
    return found


def columns_of(item):
    """How many columns an item takes: a tab takes eight."""
    return len(item) + (TAB - 1) * item.count(b"\t")


def lay_out_block(block, columns):
    block = block if block.endswith(b"\n") else block + b"\n"
    kept = [(at + 1, line) for at, line in enumerate(split_lines(block)) if is_kept(line)]
    out, column, kind = fold(block)[0].partition(b",")[0] + b",\n", 0, 0

    def push_kept():
        nonlocal out, column, kind
        out += (b"\n" if column else b"") + kept.pop(0)[1] + b"\n"
        column = kind = 0

    for line, item, ended in items_of(block):
        while kept and kept[0][0] < line:
            push_kept()
        new, item = kind_of(item), item + (b"," if ended else b"")
        if column and (0 in (kind, new) or kind == new) and column + 1 + columns_of(item) <= columns:
            out, column, kind = out + b" " + item, column + 1 + columns_of(item), new or kind
        else:
            out, column, kind = out + (b"\n\t" if column else b"\t") + item, TAB + columns_of(item), new
    while kept:
        push_kept()
    return out + (b"\n" if column else b"")


def lay_out(source, columns):
    preface, blocks = cut(source)
    return preface + b"".join(lay_out_block(block, columns) for block in blocks)


def next_of(reached, byte):
    """What is reached by a byte: `names`, `between` two items, within an `item`, or in one after a sign that counts."""
    if reached in "\\^":
        ended = reached == "^" and byte == b","
        return "between" if ended else "%" if byte == b"%" else "item"
    if byte == b",":
        return "between"
    if reached == "names" or reached == "between" and byte in WHITE:
        return reached
    if byte == b"\\" or byte == b"^" and reached != "%" or byte == b"%":
        return byte.decode()
    return "item"


def parts_of(reached, line):
    """The parts of a line, each up to the comma that ends one, without white space before items; and what is reached."""
    found, begun = [], False
    for byte in (line[at : at + 1] for at in range(len(line))):
        before, reached = reached, next_of(reached, byte)
        if not (before == reached == "between" and byte in WHITE):
            found[len(found) - begun :] = [found[-1] + byte if begun else byte]
            begun = reached != "between"
    return found, reached


def front_of(line):
    """The white space that a line begins with."""
    return line[: len(line) - len(line.lstrip(WHITE))]


def indent_of(lines):
    """The white space of the first line that begins with an item."""
    reached = "names"
    for line in lines:
        if reached == "between":
            return front_of(line)
        reached = parts_of(reached, line.lstrip(WHITE))[1]
    return b"\t"


def keep_block(block, columns):
    lines = split_lines(block)
    indent = indent_of([line for line in lines if not is_kept(line)])
    out, reached = [], "names"
    for line in lines:
        if is_kept(line):
            out.append(line)
            continue
        out.append(indent if reached == "between" else front_of(line))
        (first, *others), reached = parts_of(reached, line.lstrip(WHITE))
        out[-1] += first
        for part in others:
            if columns_of(out[-1]) + 1 + columns_of(part) <= columns:
                out[-1] += b" " + part
            else:
                out.append(indent + part)
    return b"".join(line + b"\n" for line in out)


def keep_lines(source, columns):
    """A source in its own lines, of which those that are too long are broken."""
    preface, blocks = cut(source)
    return preface + b"".join(keep_block(block, columns) for block in blocks)


def plain(source):
    """A source as it is read: without a byte order mark in front, and without the CR of each CR LF."""
    return source.removeprefix(MARK).replace(b"\r\n", b"\n")


def written_like(source, text):
    """A text in the place of a source: with its byte order mark, and the line ends of its first line."""
    first, newline, _ = source.partition(b"\n")
    if newline and first.endswith(b"\r") or b"\r\n" in text:
        text = text.replace(b"\n", b"\r\n")
    return MARK + text if source.startswith(MARK) or text.startswith(MARK) else text


def layout_of(text):
    """The edits that lay out a text: one, or none."""
    source = text.encode("utf-8")
    laid = written_like(source, lay_out(plain(source), COLUMNS)).decode("utf-8")
    if laid == text:
        return []
    lines = lines_of(text)
    end = {"line": len(lines) - 1, "character": width(lines[-1][1])}
    return [{"newText": laid, "range": {"start": {"line": 0, "character": 0}, "end": end}}]


def part_layout_of(text, start, end):
    """The edits that lay out the blocks that a range touches: one, or none. A range that ends before
    the first column of a line does not touch that line."""
    last = end[0] - 1 if end[1] == 0 and start[0] < end[0] else end[0]
    spans = [(line, line + block.count(b"\n")) for block, line, _ in blocks_with_lines(text)]
    touched = [span for span in spans if span[0] <= last and start[0] < span[1]]
    if not touched:
        return []
    first, stop = touched[0][0], touched[-1][1]
    piece = text[offset_of(text, first, 0) : offset_of(text, stop, 0)].encode("utf-8")
    laid = written_like(piece, lay_out(plain(piece), COLUMNS))
    if laid == piece:
        return []
    places = {"start": {"line": first, "character": 0}, "end": {"line": stop, "character": 0}}
    return [{"newText": laid.decode("utf-8"), "range": places}]


def folds_of(text):
    """The entries of a text up to their last items, and rows of comments, if they have more than one line."""
    lines, found = split_lines(text.encode("utf-8")), []
    for first, line in enumerate(lines):
        last = first
        if is_head(line):
            for at in range(first + 1, len(lines)):
                if is_head(lines[at]):
                    break
                last = last if is_kept(lines[at]) else at
        elif line.startswith(b"#") and not (first and lines[first - 1].startswith(b"#")):
            while lines[last + 1 : last + 2] and lines[last + 1].startswith(b"#"):
                last += 1
        if last > first:
            kind = {"kind": "comment"} if line.startswith(b"#") else {}
            found.append({"startLine": first, "endLine": last, **kind})
    return found
