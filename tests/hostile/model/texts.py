"""A text as an editor counts it: lines, and columns in UTF-16 units; and its blocks."""

from .base import BLOCK_MAX, BLOCKS_MAX
from .source import cut


def units(character):
    return 2 if ord(character) > 0xFFFF else 1


def width(text):
    return len(text.encode("utf-16-le")) // 2


def lines_of(text):
    """The lines of a text: where each begins, and its characters without its end."""
    found, start = [], 0
    for piece in text.split("\n"):
        last = start + len(piece) == len(text)
        found.append((start, piece[:-1] if piece.endswith("\r") and not last else piece))
        start += len(piece) + 1
    return found


def offset_of(text, line, column):
    """The place in a string of a place in the protocol."""
    lines = lines_of(text)
    if line >= len(lines):
        return len(text)
    start, characters = lines[line]
    for at, character in enumerate(characters):
        if column < units(character):
            return start + at
        column -= units(character)
    return start + len(characters)


def blocks_of(text):
    """The preface and the blocks of a text, the last line of which is ended."""
    source = text.encode("utf-8")
    return cut(source if source.endswith(b"\n") else source + b"\n")


def refused_line(preface, blocks):
    """The line, counted from 0, of the block for which a source is refused, and the code; or
    None."""
    line = preface.count(b"\n")
    for at, block in enumerate(blocks):
        if at == BLOCKS_MAX:
            return line, "TooManyBlocks"
        if len(block) > BLOCK_MAX:
            return line, "BlockTooLong"
        line += block.count(b"\n")
    return None
