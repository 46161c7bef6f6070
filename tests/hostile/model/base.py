"""What a list of blocks means: owners, expansion, faults, entries, the report; edits of it."""

from .entry import image
from .source import CANCEL, FAULTS, Fault, cut, is_one_block, read

BLOCK_MAX = 1_048_576
BLOCKS_MAX = 65_535


class Meaning:
    """What a list of texts means, each of which is one block; told anew for every list."""

    def __init__(self, texts):
        self.texts = list(texts)
        self.blocks = [read(text) for text in self.texts]
        self.owners = {}
        for at, block in enumerate(self.blocks):
            for name in block.names:
                self.owners.setdefault(name, at)
        self.used = [[self.owners.get(name) for name in block.uses] for block in self.blocks]
        self.mentions = self.settled()
        self.reached = [self.blocks_reached(at) for at in range(len(self.blocks))]
        self.images = [
            None if known is None else image(block.field, {cap: v for cap, v in known.items() if v is not CANCEL})
            for block, known in zip(self.blocks, self.mentions)
        ]

    def settled(self):
        """For each block the leftmost mention of each capability; None if it does not resolve."""
        found = [None] * len(self.blocks)
        more = True
        while more:
            more = False
            for at, block in enumerate(self.blocks):
                if found[at] is None and not block.broken:
                    used = [None if use is None else found[use] for use in self.used[at]]
                    if all(values is not None for values in used):
                        found[at] = merged(block, used)
                        more = True
        return found

    def blocks_reached(self, start):
        """The blocks to which one or more uses lead from a block, through broken ones too."""
        found, todo = set(), [start]
        while todo:
            for owner in self.used[todo.pop()]:
                if owner is not None and owner not in found:
                    found.add(owner)
                    todo.append(owner)
        return found

    def names_reached(self, at):
        """The names that a block uses, and those that the owner of a reached name uses."""
        return {name for other in {at} | self.reached[at] for name in self.blocks[other].uses}

    def use_fault(self, at, name):
        """The code of the fault of a use, or None."""
        owner = self.owners.get(name)
        if owner is None:
            return "E6"
        if owner == at or at in self.reached[owner]:
            return "E7"
        return "E8" if self.mentions[owner] is None else None

    def placed_faults(self, at):
        """The faults of a block, in their order, each after what it is of: None for the names field,
        a name, or the ordinal of an item."""
        block = self.blocks[at]
        found = [(None, fault) for ordinal, fault in block.faults if ordinal < 0]
        found += [(name, Fault(1, "W4", name)) for name in dict.fromkeys(block.names) if self.owners[name] < at]
        items = [(ordinal, fault) for ordinal, fault in block.faults if ordinal >= 0]
        for item in block.items:
            code = self.use_fault(at, item.value) if item.cap is None else None
            if code is not None:
                items.append((item.ordinal, Fault(item.line, code, item.value)))
        found += sorted(items, key=lambda row: row[0])
        if self.mentions[at] is not None and self.images[at] is None:
            found.append((block.names[0], Fault(1, "E9", block.names[0])))
        return found

    def faults(self, at):
        """The faults of a block, in their order."""
        return [fault for _, fault in self.placed_faults(at)]

    def report(self, first_line=1):
        """The lines of the report."""
        found = b""
        for at, text in enumerate(self.texts):
            for fault in self.faults(at):
                found += report_line(first_line, fault)
            first_line += text.count(b"\n")
        return found

    def depend(self, touched, put_in):
        """The positions that an edit rebuilt, after which the list is this one."""
        return [
            at for at in range(len(self.blocks)) if at == put_in or not touched.isdisjoint(self.names_reached(at))
        ]


def merged(block, used):
    """The leftmost mentions of a block, of whose uses these are the owners' mentions, in order."""
    found, uses = {}, iter(used)
    for item in block.items:
        mentions = next(uses) if item.cap is None else {item.cap: item.value}
        for cap, value in mentions.items():
            found.setdefault(cap, value)
    return found


def report_line(first_line, fault):
    line = b"%d: %s %s" % (first_line + fault.line - 1, fault.code.encode(), FAULTS[fault.code].encode())
    if fault.detail is None:
        return line + b"\n"
    shown = bytes(byte if 0x21 <= byte <= 0x7E else 0x3F for byte in fault.detail)
    return line + b" " + (shown or b"-") + b"\n"


class Database:
    """A list of texts under edits: ("i", at, text), ("r", at, text), ("d", at), ("m", from, to)."""

    def __init__(self):
        self.texts = []
        self.last = None  # the names that the last accepted edit touched, and the place of its block
        self.known = None

    @property
    def meaning(self):
        if self.known is None:
            self.known = Meaning(self.texts)
        return self.known

    @property
    def rebuilt(self):
        """The positions that the last accepted edit rebuilt."""
        return [] if self.last is None else self.meaning.depend(*self.last)

    def cause(self, edit):
        """Why an edit is refused, or None."""
        kind, at, count = edit[0], edit[1], len(self.texts)
        if at > count or (at == count and kind != "i") or (kind == "m" and edit[2] >= count):
            return "Position"
        if kind in "dm":
            return None
        if len(edit[2]) > BLOCK_MAX:
            return "TooLong"
        if not is_one_block(edit[2]):
            return "NotOneBlock"
        return "TooMany" if kind == "i" and count >= BLOCKS_MAX else None

    def apply(self, edit):
        """Makes an edit, or answers the cause why it is refused."""
        cause = self.cause(edit)
        if cause is not None:
            return cause
        kind, at = edit[0], edit[1]
        out = None if kind == "i" else self.texts.pop(at)
        text, put_in = (None, None) if kind == "d" else (edit[2], at)
        if kind == "m":
            text, put_in = out, edit[2]
        if text is not None:
            self.texts.insert(put_in, text)
        touched = {name for block in (out, text) if block is not None for name in read(block).names}
        self.last = touched, put_in
        self.known = None
        return None


def compile_source(source):
    """What `tic` makes of a source: its files, the report, the status; or a fault's text."""
    if not source.endswith(b"\n"):
        source += b"\n"
    preface, blocks = cut(source)
    line = 1 + preface.count(b"\n")
    first_line = line
    for at, block in enumerate(blocks):
        if len(block) > BLOCK_MAX:
            return {}, b"tic: block too long at line %d\n" % line, 1
        if at == BLOCKS_MAX:
            return {}, b"tic: too many blocks\n", 1
        line += block.count(b"\n")
    meaning = Meaning(blocks)
    files = {}
    for at, block in enumerate(meaning.blocks):
        if meaning.images[at] is not None:
            files |= {name: meaning.images[at] for name in block.names if meaning.owners[name] == at}
    report = meaning.report(first_line)
    bad = any(line.split(b": ", 1)[1].startswith(b"E") for line in report.splitlines())
    return files, report, int(bad)
