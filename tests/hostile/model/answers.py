"""What a language server for terminfo source answers to questions about a text."""

import re
from functools import lru_cache

from .base import Meaning
from .caps import FIND, FLAG, KINDS, NAMES_OF, NUMBER, TEXT, described
from .listing import written
from .source import ADVICE, CANCEL, FAULTS, WHITE, ends_of_items, read, unescape
from .strings import explained, last_pushed
from .texts import blocks_of, offset_of, refused_line, width

STRUCT = 23  # of "SymbolKind"
FIELD_ITEM, STRUCT_ITEM = 5, 22  # of "CompletionItemKind"
WORDS = {FLAG: "boolean", NUMBER: "number", TEXT: "string"}


def fold_at(block):
    """The folded text of a block, and for each of its bytes the offset that it has in the block."""
    folded, where, start, is_first = bytearray(), [], 0, True
    for line in block.split(b"\n")[:-1]:
        if not line.startswith(b"#"):
            text = line if is_first else line.lstrip(WHITE)
            front = start + len(line) - len(text)
            folded += text
            where += range(front, front + len(text))
            is_first = False
        start += len(line) + 1
    return bytes(folded), where


def place_in(block, line, offset):
    """The place in the protocol of an offset in a block that begins on a line."""
    rows = block[:offset].decode("utf-8").split("\n")
    # the return of a line's end is no column
    is_end = rows[-1].endswith("\r") and block[offset : offset + 1] == b"\n"
    return {"line": line + len(rows) - 1, "character": width(rows[-1][:-1] if is_end else rows[-1])}


def range_in(block, line, start, end):
    """The part of a text that is a part of a block which begins on a line."""
    return {"start": place_in(block, line, start), "end": place_in(block, line, end)}


def shown(name):
    """A name as a report shows it."""
    return "".join(chr(it) if 0x21 <= it <= 0x7E else "?" for it in name) or "-"


def message_of(fault):
    """What a diagnostic says of a fault."""
    detail = "" if fault.detail is None else " " + shown(fault.detail)
    return f"{FAULTS[fault.code]}{detail}: {ADVICE[fault.code]}"


def symbol_of(block, line):
    """The symbol of a block that begins on a line."""
    folded, where = fold_at(block)
    field, names = folded.partition(b",")[0], read(block).names
    end = where[len(field) - 1] + 1 if field else 0
    return {
        "kind": STRUCT,
        "name": shown(names[0] if names else field),
        "range": range_in(block, line, 0, len(block) - 1),
        "selectionRange": range_in(block, line, where[0] if field else 0, end),
    }


def symbols_of(text):
    """The symbols of a text: one for each block, or none if the source is refused."""
    preface, blocks = blocks_of(text)
    if refused_line(preface, blocks) is not None:
        return []
    found, line = [], preface.count(b"\n")
    for block in blocks:
        found.append(symbol_of(block, line))
        line += block.count(b"\n")
    return found


def span_of(where, start, end):
    """Where a part of a folded text is in its block, or None if it is empty."""
    return (where[start], where[end - 1] + 1) if start < end else None


def names_in(folded):
    """The parts of a folded text that are the names of its block."""
    parts, start = [], 0
    for name in folded.partition(b",")[0].split(b"|"):
        parts.append((start, start + len(name)))
        start += len(name) + 1
    return parts if len(parts) == 1 else parts[:-1]


def items_in(folded):
    """The parts of a folded text that are the items of its block, without white space before them."""
    parts, start = [], folded.find(b",") + 1
    if start == 0:
        return []
    for end in ends_of_items(folded, start):
        parts.append((end - len(folded[start:end].lstrip(WHITE)), end))
        start = end + 1
    return parts


@lru_cache(maxsize=16)
def parts_of(block):
    """Where in a block its names field, the first of each of its names, and its items are; None for
    an empty one."""
    folded, where = fold_at(block)
    names = {folded[start:end]: span_of(where, start, end) for start, end in reversed(names_in(folded))}
    items = [span_of(where, start, end) for start, end in items_in(folded)]
    return span_of(where, 0, len(folded.partition(b",")[0])), names, items


def part_of(block, what):
    """Where in a block that is which a fault is of, as `Meaning.placed_faults` has it, or None."""
    head, names, items = parts_of(block)
    if what is None:
        return head
    return names[what] if isinstance(what, bytes) else items[what]


def use_in(folded, start, end):
    """The part of an item that is the name which it uses, or None."""
    if not folded[start:end].startswith(b"use="):
        return None
    name = folded[start + 4 : end].lstrip(WHITE)
    front = end - len(name)
    return front, front + len(name.rstrip(WHITE))


def is_on(offset, span):
    return span is not None and span[0] <= offset <= span[1]


def name_at(block, offset):
    """The name that an offset of a block is on, of the block or one that it uses, and where the name
    is; None, None if it is on none."""
    folded, where = fold_at(block)
    for start, end in names_in(folded):
        if is_on(offset, span_of(where, start, end)):
            return folded[start:end], span_of(where, start, end)
    for start, end in items_in(folded):
        if is_on(offset, span_of(where, start, end)):
            name = use_in(folded, start, end)
            return (None, None) if name is None else (folded[slice(*name)], span_of(where, *name))
    return None, None


def blocks_with_lines(text):
    """The blocks of a text, each with the line and the offset at which it begins; none if refused."""
    preface, blocks = blocks_of(text)
    if refused_line(preface, blocks) is not None:
        return []
    found, line, start = [], preface.count(b"\n"), len(preface)
    for block in blocks:
        found.append((block, line, start))
        line, start = line + block.count(b"\n"), start + len(block)
    return found


def owned_at(text, held, place):
    """The name at a place, the position of the block that owns it, and where the name at the place
    is; None, None, None if no block owns one."""
    offset = len(text[: offset_of(text, *place)].encode("utf-8"))
    owners = Meaning([block for block, _, _ in held]).owners
    for block, line, start in held:
        if start <= offset < start + len(block):
            name, span = name_at(block, offset - start)
            if name in owners:
                return name, owners[name], range_in(block, line, *span)
    return None, None, None


def owner_at(text, held, place):
    """The position of the block that owns the name at a place, or None."""
    return owned_at(text, held, place)[1]


def head_range(held, at):
    """The names field of a block."""
    block, line, _ = held[at]
    folded, where = fold_at(block)
    span = span_of(where, 0, len(folded.partition(b",")[0]))
    return range_in(block, line, *(span or (0, 0)))


def definition_of(text, uri, place):
    """Where the name at a place is defined, or None."""
    held = blocks_with_lines(text)
    at = owner_at(text, held, place)
    return None if at is None else {"range": head_range(held, at), "uri": uri}


def references_of(text, uri, place, declared):
    """Where the names are used that belong to the owner of the name at a place."""
    held = blocks_with_lines(text)
    at = owner_at(text, held, place)
    if at is None:
        return []
    owners = Meaning([block for block, _, _ in held]).owners
    found = [head_range(held, at)] if declared else []
    for block, line, _ in held:
        folded, where = fold_at(block)
        for start, end in items_in(folded):
            name = use_in(folded, start, end)
            if name is not None and name[0] < name[1] and owners.get(folded[slice(*name)]) == at:
                found.append(range_in(block, line, *span_of(where, *name)))
    return [{"range": each, "uri": uri} for each in found]


class Refused(Exception):
    """A question has no answer."""


def is_name(name):
    """Whether an entry can have a name, and another can use it."""
    if name in (b"", b".", b"..") or name[:1] == b"#" or any(it < 0x21 or it > 0x7E or it in b",/|" for it in name):
        return False
    block = b"x,use=" + name + b","
    return any(use_in(block, *part) == (6, len(block) - 1) for part in items_in(block))


def prepared_of(text, place):
    """The name that a rename at a place is of, or None."""
    return owned_at(text, blocks_with_lines(text), place)[2]


def is_kept(line):
    """Whether a line is a comment, or blank."""
    return line.startswith(b"#") or not line.strip(WHITE)


def stays_in_line(block, start, end, new):
    """Whether an edit is within a line of items, which it leaves one."""
    line, old, new = block[:start].split(b"\n")[-1], block[start:end], new.encode("ascii")
    return b"\n" not in old and not is_kept(line + old) and not is_kept(line + new)


def is_place(block, offset):
    """Whether an editor has a place there: none is between a CR and its LF."""
    return block[offset - 1 : offset + 1] != b"\r\n"


def lines_of_part(where, start, end):
    """The parts of a block that bytes of its folded text are in: one on each line."""
    parts = []
    for at in where[start:end]:
        if parts and parts[-1][1] == at:
            parts[-1][1] = at + 1
        else:
            parts.append([at, at + 1])
    return parts


def dealt(parts, new):
    """A new text in the place of parts: each but the first gets as many bytes as it had, from the
    last on, and the first what is left."""
    for at, (start, end) in enumerate(parts):
        count = max(len(new) - sum(last - first for first, last in parts[at + 1 :]), 0)
        yield start, end, new[:count]
        new = new[count:]


def renamed_of(text, uri, place, new):
    """The edits that give the name at a place another one, or None."""
    held = blocks_with_lines(text)
    name, owner, _ = owned_at(text, held, place)
    if owner is None:
        return None
    wanted, blocks = new.encode("utf-8"), [block for block, _, _ in held]
    # a name that an item uses and no block has would lead there
    is_used = any(item.cap is None and item.value == wanted for block in blocks for item in read(block).items)
    if not is_name(wanted) or Meaning(blocks).owners.get(wanted, None if is_used else owner) != owner:
        raise Refused
    edits = []
    for at, (block, line, _) in enumerate(held):
        folded, where = fold_at(block)
        parts = names_in(folded) if at == owner else []
        parts += [part for part in (use_in(folded, *item) for item in items_in(folded)) if part is not None]
        for part in parts:
            if folded[slice(*part)] == name:
                for start, end, put in dealt(lines_of_part(where, *part), wanted):
                    if not (is_place(block, start) and is_place(block, end) and stays_in_line(block, start, end, put.decode())):
                        raise Refused
                    edits.append({"newText": put.decode(), "range": range_in(block, line, start, end)})
    return {"changes": {uri: edits}}


def word_at(block, offset):
    """Where the word before an offset of a block begins, on its line and after the last blank, and
    whether it is a name that is used; None where no word is completed."""
    text = block[:offset]
    line = text.rpartition(b"\n")[2]
    if line == b"" or line.startswith(b"#"):
        return None
    folded, where = fold_at(text + b"\n")
    items = items_in(folded)
    if not items:
        return None
    start, end = items[-1]
    is_used = folded[start:end].startswith(b"use=")
    if is_used:
        start = end - len(folded[start + 4 : end].lstrip(WHITE))
    elif b"#" in folded[start:end] or b"=" in folded[start:end]:
        return None
    after_blank = 1 + max(text.rfind(blank) for blank in (b"\n", b" ", b"\t"))
    return max(where[start] if start < end else offset, after_blank), is_used


def item(kind, name, detail, documentation=None):
    """An item of a completion, without its edit."""
    found = {"detail": detail, "filterText": name, "kind": kind, "label": name}
    return found if documentation is None else found | {"documentation": documentation}


def documented(kind, name):
    """What is said of a capability, with its parameters if it takes any."""
    _, sentence, parameters = described(kind, name)
    return f"{sentence}." + (f"\nParameters: {parameters}." if parameters else "")


def capability_items():
    """The items of the capabilities: by kind, and then by the bytes of the name."""
    found = []
    for kind in KINDS:
        for name in sorted(NAMES_OF[kind]):
            detail = f"{WORDS[kind]}, {described(kind, name)[0]}"
            # ncurses calls these names of termcap's obsolete
            is_last = {"sortText": "~" + name.decode(), "tags": [1]} if name.startswith(b"OT") else {}
            found.append({**item(FIELD_ITEM, name.decode(), detail, documented(kind, name)), **is_last})
    return found


CAPABILITY_ITEMS = capability_items()


def name_items(held):
    """The items of the lookup names that an item `use=` can give, each once, where its owner is."""
    meaning = Meaning([block for block, _, _ in held])
    return [item(STRUCT_ITEM, shown(name), "entry") for name in meaning.owners if is_name(name)]


def completion_of(text, place):
    """What completes the word before a place."""
    offset, held, items = len(text[: offset_of(text, *place)].encode("utf-8")), blocks_with_lines(text), []
    for block, line, start in held:
        if start <= offset < start + len(block) and (word := word_at(block, offset - start)) is not None:
            part = range_in(block, line, word[0], offset - start)
            offered = name_items(held) if word[1] else CAPABILITY_ITEMS
            items = [{**each, "textEdit": {"newText": each["label"], "range": part}} for each in offered]
    return {"isIncomplete": False, "items": items}


def deciding(meaning, owner):
    """For each block that counts for one: of each capability the block that decides it."""
    found, todo = {}, [owner]
    while todo:
        at = todo[-1]
        uses = [use for use in meaning.used[at] if use not in found]
        todo.extend(uses)
        if not uses:
            todo.pop()
            ways, next_use = {}, iter(meaning.used[at])
            for item in meaning.blocks[at].items:
                for cap, by in (found[next(next_use)] if item.cap is None else {item.cap: at}).items():
                    ways.setdefault(cap, by)
            found[at] = ways
    return found[owner]


def sources_told(meaning, owner):
    """The blocks that decide what an entry inherits, each with the capabilities that it decides."""
    inherited = {}
    for cap, by in deciding(meaning, owner).items():
        if by != owner and meaning.mentions[owner][cap] is not CANCEL:
            inherited.setdefault(by, []).append(cap)
    lines = ""
    for by in sorted(inherited):
        caps = sorted(inherited[by], key=lambda cap: (KINDS.index(cap[0]), cap[1]))
        names = [NAMES_OF[kind][at].decode() for kind, at in caps]
        own = next(name for name in meaning.blocks[by].names if meaning.owners[name] == by)
        lines += f"\nFrom {shown(own)}: {', '.join(names)}"
    return lines


def name_told(meaning, name):
    """What is told of a name."""
    owner = meaning.owners.get(name)
    if owner is None:
        return shown(name) + ": no block has this name"
    image, mentions = meaning.images[owner], meaning.mentions[owner]
    if image is None:
        cause = next(fault for fault in meaning.faults(owner) if fault.code[0] == "E")
        return f"{shown(name)}: no entry: {cause.code} {message_of(cause)}"
    held = [cap[0] for cap, value in mentions.items() if value is not CANCEL]
    flags, numbers, texts = (held.count(kind) for kind in KINDS)
    counts = f"Booleans: {flags}, numbers: {numbers}, strings: {texts}"
    return f"{shown(name)}: an entry of {len(image)} bytes\n{counts}{sources_told(meaning, owner)}"


def meaning_told(block, ordinal):
    """How the item of that place in a block is read."""
    for _, _, cap, value in (item for item in read(block).items if item.ordinal == ordinal):
        if value is CANCEL or cap[0] == FLAG:
            return "cancelled" if value is CANCEL else "set"
        return f"{value}" if cap[0] == NUMBER else written(value).decode()
    return "nothing, since the item is not valid"


def item_told(text, meaning):
    """What is told of an item that is read so, or None if no capability has its name."""
    text = text.rstrip(WHITE)
    marked = re.match(rb"[^#=]*(?=[#=])", text, re.S)
    name = text.removesuffix(b"@") if marked is None else marked[0]
    cap = FIND.get(name)
    if cap is None:
        return None
    variable = described(cap[0], name)[0]
    return f"{name.decode()}: {WORDS[cap[0]]}, {variable}\n{documented(cap[0], name)}\nWritten: {shown(text)}\nRead: {meaning}"


def place_in_value(raw, offset):
    """Which byte of a string the byte at an offset of its text is of, or None."""
    if offset >= len(raw):
        return None
    through, before = unescape(raw[: offset + 1]), unescape(raw[:offset])
    if through[2] is None:
        return max(len(through[0]) - 1, 0)
    return len(before[0]) if before[2] is None else None


def string_told(block, ordinal, text, within):
    """What is said of the string of an item, which has this text and the offset is so far in it."""
    text = text.rstrip(WHITE)
    name, _, raw = text.partition(b"=")
    for _, _, cap, value in (item for item in read(block).items if item.ordinal == ordinal):
        if cap is not None and cap[0] == TEXT and value is not CANCEL:
            parameters = described(TEXT, name)[2]
            place = place_in_value(raw, within - len(name) - 1) if within > len(name) else None
            return explained(name.decode(), parameters, value, place) if parameters else ""
    return ""


def told_at(meaning, block, offset):
    """What is told at an offset of a block, and where that is; or None."""
    folded, where = fold_at(block)
    for part in names_in(folded):
        span = span_of(where, *part)
        if is_on(offset, span):
            return name_told(meaning, folded[slice(*part)]), span
    for ordinal, part in enumerate(items_in(folded)):
        span, name = span_of(where, *part), use_in(folded, *part)
        if is_on(offset, span):
            told = folded[slice(*part if name is None else name)]
            if name is not None:
                return name_told(meaning, told), span
            words = item_told(told, meaning_told(block, ordinal))
            within = sum(span[0] <= at < offset for at in where)
            return None if words is None else (words + string_told(block, ordinal, told, within), span)
    return None


def hover_of(text, place):
    """What is told at a place of a text, or None."""
    offset, held, told = len(text[: offset_of(text, *place)].encode("utf-8")), blocks_with_lines(text), None
    for block, line, start in held:
        if start <= offset < start + len(block):
            told = told_at(Meaning([each for each, _, _ in held]), block, offset - start)
            if told is not None:
                words, span = told
                return {"contents": {"kind": "plaintext", "value": words}, "range": range_in(block, line, *span)}
    return None


def active_in(raw, before):
    """The parameter that is active after so many bytes of the text of a string, or None."""
    place = place_in_value(raw, before - 1) if before > 0 else None
    read = unescape(raw)
    return last_pushed(read[0], place) if place is not None and read[2] is None else None


def signature_told(text, within):
    """The parameters of the string of an item with this text, so many bytes before a place; or None."""
    text = text.rstrip(WHITE)
    name, sign, raw = text.partition(b"=")
    cap = FIND.get(name)
    parameters = described(cap[0], name)[2] if cap is not None and sign and within > len(name) else ""
    if not parameters:
        return None
    shown = {"label": f"{name.decode()}({parameters})", "parameters": [{"label": each} for each in parameters.split(", ")]}
    active = active_in(raw, within - len(name) - 1)
    return {"activeSignature": 0, "signatures": [shown]} | ({} if active is None else {"activeParameter": active})


def signature_of(text, place):
    """The parameters of the string that a place of a text is in, or None."""
    offset = len(text[: offset_of(text, *place)].encode("utf-8"))
    for block, _, start in blocks_with_lines(text):
        if start <= offset < start + len(block):
            folded, where = fold_at(block)
            for part in items_in(folded):
                span = span_of(where, *part)
                if is_on(offset - start, span):
                    return signature_told(folded[slice(*part)], sum(span[0] <= at < offset - start for at in where))
    return None
