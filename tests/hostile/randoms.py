"""Edits, scripts and sources made at random: what the program answers must be what the model says,
and what a session says in the end must be what a fresh session of the same list says.

Each has a seed of its own, made of the run's seed and its number, so that one alone can be
repeated.
"""

import os
import shutil
import tempfile

from documents import disordered, edited
from generate import Source, fits_a_session, lines_of
from limits import EVERYDAY, ROOM, quick
from model.base import Database, Meaning, compile_source
from model.layout import keep_lines, lay_out, plain, written_like
from model.listing import listed
from model.session import replies
from model.entry import read

EDITS_A_SESSION = 20


def first_difference(got, wanted):
    """Where two texts part, for a report."""
    if isinstance(got, bytes) and isinstance(wanted, bytes):
        for at, (one, other) in enumerate(zip(got.split(b"\n"), wanted.split(b"\n"))):
            if one != other:
                return f"line {at + 1} is {one[:200]!r}, wanted {other[:200]!r}"
    return f"{str(got)[:300]}, wanted {str(wanted)[:300]}"


def shown(texts):
    """The lines of a session that show all of a list of so many texts."""
    return b"f\n" + b"".join(b"p %d\n" % at for at in range(len(texts) + 1))


def fresh(texts):
    """The lines of a session that make a list and show it."""
    return b"".join(lines_of(("i", at, text)) for at, text in enumerate(texts)) + shown(texts)


def meant(texts):
    """What `shown` makes a session write of a list."""
    meaning = Meaning(texts)
    entries = [b"none" if entry is None else entry.hex().encode() for entry in meaning.images]
    return meaning.report() + b".\n" + b"".join(entry + b"\n" for entry in entries) + b"refused Position\n"


def checked(script):
    """What a session writes for a script, and what of it is not what the model writes."""
    wanted, status, texts = replies(script)
    got = quick(["session"], script)
    if got[:2] != (status, wanted):
        return got[1], texts, f"status {got[0]}, {first_difference(got[1], wanted)}"
    return got[1], texts, None


def fresh_fault(texts, last):
    """What is wrong with a session's last replies, compared with a new session of its list."""
    code, got, _ = quick(["session"], fresh(texts))
    wanted = b"ok\n" * len(texts) + last
    return None if (code, got) == (0, wanted) else f"a fresh session differs: {first_difference(got, wanted)}"


def edits(seed):
    """A session of some edits; after each all is shown, and compared with a fresh session."""
    source, database = Source(seed), Database()
    lines, lists = b"", []
    while len(lists) < EDITS_A_SESSION:
        edit = source.edit(len(database.texts))
        if fits_a_session(edit):
            database.apply(edit)
            lines += lines_of(edit) + b"w\n" + shown(database.texts)
            lists.append(list(database.texts))
    _, texts, fault = checked(lines)
    if fault is None and texts != lists[-1]:
        fault = "the model of edits and that of sessions differ"
    for texts in lists:
        fault = fault or fresh_fault(texts, meant(texts))
    return fault


def closed(lines):
    """A script with lines after it that end the text of an edit, if it ends within one."""
    return lines + b"\n.\n"


def script(seed):
    """A session of any commands, and a fresh session of the list that it then holds."""
    source, database = Source(seed), Database()
    lines = b""
    for _ in range(source.random.randint(1, 12)):
        if source.maybe(0.4):
            lines += source.command(len(database.texts)) + b"\n"
        edit = source.edit(len(database.texts))
        if fits_a_session(edit):
            database.apply(edit)
            lines += lines_of(edit) + (b"w\n" if source.maybe(0.6) else b"")
    if source.maybe(0.15):
        lines = closed(source.damage(lines))
    before, status, texts = replies(lines)
    if status != 0:
        # a line that is too long ended it, and nothing after it is read
        return checked(lines)[2]
    got, texts, fault = checked(lines + shown(texts))
    return fault or fresh_fault(texts, got[len(before) :])


def source(seed):
    """A source, compiled: files, report, status; and each file read, listed and compiled again."""
    maker = Source(seed)
    text = maker.source()
    files, report, status = compile_source(text)
    room = tempfile.mkdtemp(prefix="ti-hostile-", dir=ROOM)
    try:
        code, out, err = quick(["tic", "-o", room], text)
        if (code, out, err) != (status, b"", report):
            return f"status {code}, {first_difference(err, report)}"
        found = {}
        for at, _, names in os.walk(os.fsencode(room)):
            for name in names:
                # of a name that begins with a full stop this is the directory itself
                if at != os.path.normpath(os.path.join(os.fsencode(room), name[:1])):
                    return f"{name!r} is in the directory {at!r}"
                with open(os.path.join(at, name), "rb") as file:
                    found[name] = file.read()
        if found != files:
            wrong = [name for name in found.keys() | files if found.get(name) != files.get(name)]
            return f"the files of {sorted(wrong)[:5]} differ"
        names = [name for name in sorted(files) if not name.startswith(b"-")]
        return listing_fault(room, names, files) if names else None
    finally:
        shutil.rmtree(room)


def listing_fault(room, names, files):
    """What is wrong with the listings of some entries."""
    wanted = b"".join(listed(read(files[name])[0]) for name in names)
    code, got, err = quick([b"infocmp", b"-I", b"-A", room.encode(), b"-B", room.encode(), *names])
    return None if (code, got, err) == (0, wanted, b"") else f"listings, status {code}: {first_difference(got, wanted)}"


# of what a source is made whose layout is not that of a listing
PIECES = (
    b"am bel=a cols#80 use=u # x|y . \\ ^ % \\, ^, %^, , , , ,".split() + [b"wide_boolean", b"a" * 14]
    + [b" ", b"  ", b"\t", b"\n", b"\n\t", b"\n  ", b"\n    ", b"\n\n", b"\n#c, d", b"\nt,", b"\r", b"\r\n", b"\xef\xbb\xbf", b"\0"]
)


def layout(seed):
    """A source, laid out by ti-fmt in each of its layouts; and what it wrote, laid out again."""
    maker = Source(seed)
    text = maker.source() if maker.maybe(0.2) else maker.one([b"", b"t,", b"t|n, am,\n"]) + b"".join(
        maker.one(PIECES) for _ in range(maker.random.randint(0, 40)))
    columns = maker.one([20, 21, 30, 80])
    width = ["-w", str(columns)]
    for words, lay, size in ((["--keep"], keep_lines, columns), ([], lay_out, columns), (["-1"], lay_out, 0)):
        wanted = written_like(text, lay(plain(text), size))
        for given in (text, wanted):
            code, got, err = quick(["ti-fmt", *words, *width], given, EVERYDAY)
            if (code, got, err) != (0, wanted, b""):
                return f"{words}, status {code}: {first_difference(got, wanted)}"
    return None


KINDS = {"layouts": layout, "edits": edits, "scripts": script, "sources": source, "documents": edited, "messages": disordered}


def one(question):
    """What is wrong with one of a kind, with how it is made again; or None."""
    kind, seed, number = question
    try:
        fault = KINDS[kind](f"{kind} {seed} {number}")
    except Exception as error:  # a hang, or a fault of these tests
        fault = repr(error)[:400]
    return None if fault is None else f"{kind} {number} of --seed {seed}: {fault}"
