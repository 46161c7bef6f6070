"""The wrong bodies and wrong definitions of the crates: the one reader of `crates/*/*/*.edit`.

Each makes one mistake. It is a line `file: PATH`, a file of its crate, and pairs of lines
`old: TEXT` and `new: TEXT`. Each old text occurs in the file exactly once; a later pair applies to
what the earlier ones made. Lines `# mistake:`, `# input:`, `# wrong:` and `# right:` above them say
what the mistake is, and for which input the crate then gives what is wrong in place of what is
right; `# clause:` is for a named mistake, and says what refuses it.
"""

import glob
import os
import re

from common import TOP, text_of

# what every run of the gate tries, and what only an audit does: of code, and of definitions
GATE, BODIES, DEFINITIONS = "must-fail", "wrong-bodies", "wrong-definitions"
EDITS_MAX, CRATES_MAX = 80, 25
NOTES = ("mistake", "input", "wrong", "right")
CLAUSE = "clause"
NOTE = re.compile(rf"# ({'|'.join((*NOTES, CLAUSE))}): (\S.*)")
HEAD = re.compile(
    r'^( *)(?:pub(?:\([a-z]+\))? )?(?:ghost )?(?:const )?(?:unsafe )?(?:extern "C" )?fn (\w+)', re.M
)
BLOCK = re.compile(r"^(?:pub(?:\([a-z]+\))? )?(?:unsafe )?(?:impl|trait)\b([^{;]*)", re.M)
PARAMETERS = re.compile(r"<[^<>]*(?:<[^<>]*>[^<>]*)*>")


class CannotApply(Exception):
    """An edit whose text is not that of an edit, or no longer fits its file; the text says why."""


class Edit:
    """One edit: its path in the repository, its notes, and its pairs, each with its file."""

    def __init__(self, path, notes, pairs):
        self.path, self.notes, self.pairs = path, notes, pairs
        _, self.crate, self.place, _ = path.split("/")

    def is_of_definitions(self):
        return all(file.startswith("specs/") for file, _, _ in self.pairs)


def read_edit(path, top=TOP):
    """An edit; a line that is of no kind is an error."""
    file, old, notes, pairs = None, None, {}, []
    for line in text_of(top, path).split("\n"):
        note = NOTE.fullmatch(line)
        if note and note[1] not in notes:
            notes[note[1]] = note[2]
        elif line.startswith("file: "):
            file = line[len("file: "):].strip()
        elif line.startswith("old: ") and file:
            old = line[len("old: "):]
        elif line.startswith("new:") and old:
            pairs.append((file, old, line[len("new:"):].removeprefix(" ")))
            old = None
        elif note or line and not line.startswith("# "):
            raise CannotApply(f"a line of no kind, or a second one: {line}")
    if not pairs:
        raise CannotApply("no pair of an old and a new text")
    return Edit(path, notes, pairs)


def edit_paths(top=TOP):
    """The paths of all edits, in order."""
    found = [path for place in (GATE, BODIES, DEFINITIONS) for path in glob.glob(f"{top}/crates/*/{place}/*.edit")]
    return sorted(os.path.relpath(path, top) for path in found)


class Texts:
    """The files of a crate in memory, as edits change them."""

    def __init__(self, crate, top=TOP):
        self.crate, self.top, self.right, self.edited = crate, top, {}, {}

    def text(self, file):
        """A file as it is by now."""
        if file not in self.right:
            try:
                self.right[file] = text_of(self.top, "crates", self.crate, file)
            except OSError as error:
                raise CannotApply(f"there is no file {file}") from error
        return self.edited.get(file, self.right[file])

    def apply(self, edit):
        """Makes an edit, or none of it. Gives for each of its pairs the file, the text before it,
        and where the old text begins there, without the blanks before it."""
        before, places = dict(self.edited), []
        try:
            for file, old, new in edit.pairs:
                text = self.text(file)
                if text.count(old) != 1:
                    raise CannotApply(f"an old text occurs {text.count(old)} times in {file}: {old.strip()}")
                places.append((file, text, text.index(old) + len(old) - len(old.lstrip())))
                self.edited[file] = text.replace(old, new)
            if self.edited == before:
                raise CannotApply("it changes nothing")
        except CannotApply:
            self.edited = before
            raise
        return places


def names_in(words):
    """The names of types in a piece of code: the last of each path, and no lifetime."""
    return re.findall(r"(?<!')\b(?:\w+::)*(\w+)", words)


def block_at(text, at):
    """The name by which the prover calls the block around a place: that of `impl From<Other> for
    Type` is TypeFromOther."""
    words = [head[1] for head in BLOCK.finditer(text, 0, at)][-1].strip()
    own = PARAMETERS.match(words)
    words = words[own.end():] if own else words
    trait, separator, of = words.partition(" for ")
    if not separator:
        return names_in(words)[0]
    of_block = re.findall(r"\w+", own[0]) if own else []
    return "".join([names_in(of)[0], *(name for name in names_in(trait) if name not in of_block)])


def function_at(file, text, at):
    """The function of a file of code in which a place is, by its name in what the prover says,
    without the crate; None outside functions. Functions end as rt fmt lays them out."""
    heads = [head for head in HEAD.finditer(text) if head.start() <= at]
    if not heads:
        return None
    head = heads[-1]
    end = re.compile(rf"^{head[1]}(?:\}}|{{\}})", re.M).search(text, head.end())
    if not end or end.end() <= at:
        return None
    module = [part for part in file[len("src/"):-len(".rt")].split("/") if part not in ("lib", "main")]
    block = [block_at(text, head.start())] if head[1] else []
    return "::".join([*module, *block, head[2]])


def functions_of(places):
    """The functions in which an edit changes code."""
    return {function_at(*place) for place in places if place[0].startswith("src/")} - {None}
