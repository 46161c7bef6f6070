"""Malicious entry files: those of every changed byte, odd ones, texts that are costly to print."""

import itertools
import os
import resource
import shutil
import struct
import subprocess
import tempfile

from limits import EVERYDAY, PROBE, PROGRAM, ROOM
from model.base import compile_source
from model.caps import FLAG, FIND, NAMES_OF, NUMBER, TEXT
from model.entry import read, read_file
from model.listing import compared, listed, relative
from registry import case

DUMB = b"dumb|80-column dumb tty,\n\tam, cols#80, bel=^G, cr=\\r, cud1=\\n, ind=\\n,\n"
HEADER_LEN = 12
CHANGES = (0x00, 0x01, 0x7F, 0x80, 0xFF)
# how many files one run of a program is given
AT_ONCE = 400


class Room:
    """A directory of entries, each under its name, for one case."""

    def __enter__(self):
        self.path = tempfile.mkdtemp(prefix="ti-hostile-", dir=ROOM)
        return self

    def __exit__(self, *_):
        shutil.rmtree(self.path)

    def put(self, name, content):
        directory = os.path.join(self.path, name[0])
        os.makedirs(directory, exist_ok=True)
        with open(os.path.join(directory, name), "wb") as file:
            file.write(content)

    def places(self):
        return ["-A", self.path, "-B", self.path]


def dumb():
    return compile_source(DUMB)[0][b"dumb"]


def changed_entries():
    """The entry with each byte set to each of the changes, and each two bytes of its header."""
    plain = dumb()
    found = {}
    for at, to in itertools.product(range(len(plain)), CHANGES):
        found[f"a{at}-{to:02x}"] = with_bytes(plain, {at: to})
    for first, second in itertools.combinations(range(HEADER_LEN), 2):
        for one, other in itertools.product(CHANGES, CHANGES):
            found[f"h{first}-{one:02x}-{second}-{other:02x}"] = with_bytes(plain, {first: one, second: other})
    return found


def with_bytes(content, changes):
    content = bytearray(content)
    for at, to in changes.items():
        content[at] = to
    return bytes(content)


def probed(entry, refusal):
    """The lines that tests/probe.c prints of an entry."""
    if refusal is not None:
        return [f"refused {refusal}"]
    names, values = entry
    lines = [f"names={names.hex()}", "first name=" + names.split(b"|")[0].hex()]
    for kind in (FLAG, NUMBER, TEXT):
        for at, word in enumerate(NAMES_OF[kind]):
            value = values.get((kind, at))
            if value is not None:
                word = word.decode()
                lines.append(word if kind == FLAG else f"{word}#{value}" if kind == NUMBER else f"{word}={value.hex()}")
    return lines


def tput_lines(entry):
    """For each capability a line of `tput -S`, without words; and what they all write."""
    names, values = entry
    lines = b"".join(name + b"\n" for name in FIND) + b"longname\n"
    out = b""
    for cap in FIND.values():
        value = values.get(cap)
        if cap[0] == NUMBER:
            out += b"%d\n" % (-1 if value is None else value)
        elif cap[0] == TEXT and value is not None:
            out += value
    return lines, out + names.split(b"|")[-1]


@case("each byte of an entry, and each two of its header, changed: what a view shows")
def changed_bytes_shown(take):
    entries = changed_entries()
    with Room() as room:
        for name, content in entries.items():
            room.put(name, content)
        paths = {name: os.path.join(room.path, name[0], name) for name in entries}
        for at in range(0, len(entries), AT_ONCE):
            some = list(entries)[at : at + AT_ONCE]
            done = take([paths[name] for name in some], program=PROBE)
            wanted = [line for name in some for line in (f"file {paths[name]}", *probed(*read(entries[name])))]
            if done.status != 0 or done.out.decode().splitlines() != wanted:
                return f"status {done.status}, of {some[0]} to {some[-1]}"
    return None


@case("each byte of an entry, and each two of its header, changed: listed, compared, relative to each other")
def changed_bytes_listed(take):
    entries = {name: read(content)[0] for name, content in changed_entries().items()}
    contents = changed_entries()
    good = [name for name, entry in entries.items() if entry is not None]
    shapes = {contents[name][:HEADER_LEN]: name for name in good}
    with Room() as room:
        for name in contents:
            room.put(name, contents[name])
        for at in range(0, len(good), AT_ONCE):
            some = good[at : at + AT_ONCE]
            found = [entries[name] for name in some]
            first, others = found[0], found[1:]
            fault = take.fault(["infocmp", "-I", *room.places(), *some], b"", 0, b"".join(map(listed, found)))
            for mode in "dcn":
                out = b"".join(compared(first, other, mode) for other in others)
                fault = fault or take.fault(["infocmp", "-" + mode, *room.places(), *some], b"", 0, out)
            fault = fault or take.fault(["infocmp", "-u", *room.places(), *some], b"", 0, relative(first, others))
            if fault is not None:
                return fault
    return None if len(shapes) > 20 else "too few headers are accepted"


@case("each byte of an entry, and each two of its header, changed: every capability printed, or refused")
def changed_bytes_printed(take):
    with Room() as room:
        env = {"TERMINFO": room.path}
        seen = set()
        for name, content in changed_entries().items():
            entry, refusal = read(content)
            key = refusal or repr(entry)
            if key in seen:
                continue
            seen.add(key)
            room.put(name, content)
            if entry is None:
                err = f'tput: bad entry "{name}" ({refusal})\n'.encode()
                fault = take.fault(["tput", "-T", name, "cols"], b"", 3, err=err, env=env)
            else:
                lines, out = tput_lines(entry)
                fault = take.fault(["tput", "-T", name, "-S"], lines, 0, out, env=env)
            if fault is not None:
                return f"{name}: {fault}"
    return None


def refused(content):
    return read_file(content)[1]


@case("odd files: none, of nothing, of ones, of counts, too long, of every length")
def odd_files(take):
    plain = dumb()
    contents = {
        "empty": b"", "ones": b"\xff" * 12, "counts": b"\x1a\x01" + b"\xff" * 10,
        "long-dumb": plain + b"\0" * (65_537 - len(plain)), "long-zero": b"\0" * 65_537,
        "longest-dumb": plain + b"\xff" * (65_536 - len(plain)), "huge": plain + b"\0" * 100_000_000,
        "extended": b"\x1e\x02" + plain[2:], "greatest": b"\x1a\x01" + b"\xff\x7f" * 5 + b"x" * 60_000,
        **{f"cut{at}": plain[:at] for at in range(len(plain))},
    }
    wanted = {"ones": "Magic", "counts": "Counts", "long-dumb": "Counts", "long-zero": "Magic", "empty": "Short"}
    with Room() as room:
        for name, content in contents.items():
            refusal = refused(content)
            if wanted.get(name, refusal) != refusal:
                return f"the model says {refusal} of {name}"
            room.put(name, content)
            env = {"TERMINFO": room.path}
            if refusal is None:
                fault = take.fault(["infocmp", name], b"", 0, listed(read(content)[0]), env=env)
            else:
                err = f'infocmp: bad entry "{name}" ({refusal})\n'.encode()
                fault = take.fault(["infocmp", name], b"", 1, err=err, env=env)
            if fault is not None:
                return f"{name}: {fault}"
    return None


def of_one_text(text, offsets):
    """An entry whose offsets lead into one text."""
    table = text + b"\0"
    header = struct.pack("<6H", 0x011A, 2, 0, 0, len(offsets), len(table))
    return header + b"x\0" + struct.pack(f"<{len(offsets)}H", *offsets) + table


@case("414 offsets into one text of 32,000 bytes: read, printed, listed, compared")
def one_text(take):
    shapes = {
        "same": of_one_text(b"A" * 32_000, [0] * 414),
        "apart": of_one_text(b"A" * 32_000, [at * 77 for at in range(414)]),
        "last": of_one_text(b"A" * 31_999 + b"B", [0] * 414),
        "unended": of_one_text(b"A" * 32_000, [0] * 414)[:-1] + b"A",
    }
    with Room() as room:
        env = {"TERMINFO": room.path}
        for name, content in shapes.items():
            room.put(name, content)
        entries = {name: read(content)[0] for name, content in shapes.items()}
        fault = take.fault(["tput", "-T", "same", "box1"], b"", 0, b"A" * 32_000, env=env)
        fault = fault or take.fault(
            ["infocmp", "unended"], b"", 1, err=b'infocmp: bad entry "unended" (BadOffset)\n', env=env)
        for name in ("same", "apart"):
            fault = fault or take.fault(["infocmp", name], b"", 0, listed(entries[name]), env=env)
        fault = fault or take.fault(
            ["infocmp", "-d", "same", "last"], b"", 0, compared(entries["same"], entries["last"], "d"), env=env)
        return fault or take.fault(
            ["infocmp", "-u", "same"] + ["last"] * 20, b"", 0, relative(entries["same"], [entries["last"]] * 20), env=env)


def least_time(words, place, wanted, runs=60, batches=3):
    """The least CPU time of this many runs of a program that reads an entry of a directory."""
    used = []
    for _ in range(batches):
        before = resource.getrusage(resource.RUSAGE_CHILDREN)
        for _ in range(runs):
            done = subprocess.run(
                words, env={"TERMINFO": place},
                stdin=subprocess.DEVNULL, stdout=subprocess.PIPE, stderr=subprocess.PIPE, check=False)
            if (done.returncode, done.stdout, done.stderr) != wanted:
                raise ValueError(f"{words}: {done}")
        after = resource.getrusage(resource.RUSAGE_CHILDREN)
        used.append(after.ru_utime + after.ru_stime - before.ru_utime - before.ru_stime)
    return min(used)


def reading_time(place, name):
    """That of runs which print nothing of an entry."""
    return least_time([PROGRAM, "tput", "-T", name, "am"], place, (1, b"", b""))


@case("414 offsets into one text of 32,000 bytes: read in the time of one offset")
def one_text_is_read_once(take):
    del take
    with Room() as room:
        room.put("one", of_one_text(b"A" * 32_000, [0]))
        room.put("many", of_one_text(b"A" * 32_000, [0] * 414))
        one, many = reading_time(room.path, "one"), reading_time(room.path, "many")
    # one search for each offset would be 13 million steps a run, ten times what a run takes
    return None if many < 2 * one + 0.05 else f"{many:.3f} s compared with {one:.3f} s"


def of_one_value(offsets):
    """An entry and an extension whose values lead into one text that leaves no room for a name."""
    table = b"A" * 32_765 + b"\0"
    header = struct.pack("<5H", 0, 0, len(offsets), 2 * len(offsets), len(table))
    places = struct.pack(f"<{2 * len(offsets)}H", *offsets, *[0] * len(offsets))
    return of_one_text(b"", []) + b"\0" + header + places + table


@case("8,000 user-defined strings of one text of 32,765 bytes: refused in the time of one string")
def one_value_is_read_once(take):
    del take
    with Room() as room:
        program = os.path.join(room.path, "ti-tput")
        os.symlink(EVERYDAY, program)
        used = []
        # absent strings have no text
        for name, offsets in (("one", [0] + [0xFFFF] * 7_999), ("many", [0] * 8_000)):
            room.put(name, of_one_value(offsets))
            refusal = f"ti-tput: {room.path}/{name[0]}/{name}: bad entry (BadExtension)\n".encode()
            used.append(least_time([program, "-T", name, "Xx"], room.path, (3, b"", refusal)))
    one, many = used
    # one search for each string would be 262 million steps a run
    return None if many < 2 * one + 0.05 else f"{many:.3f} s compared with {one:.3f} s"


@case("65,535 blocks of four names each, written as files", long=True)
def many_files(take):
    blocks = [b"a%d|b%d|c%d|d%d|a terminal,cols#1,\n" % (at, at, at, at) for at in range(65_535)]
    with Room() as room:
        fault = take.fault(["tic", "-o", room.path], b"".join(blocks), 0)
        found = sum(len(names) for _, _, names in os.walk(room.path))
        return fault or (None if found == 4 * 65_535 else f"{found} files")


@case("a header of a megabyte with 180,000 names, and one with a name 300,000 times, of which no file comes")
def wide_headers(take):
    distinct = b"|".join(b"%x" % at for at in range(180_000)) + b"|d,\n"
    repeated = b"nn|" * 300_000 + b"d,\n"
    with Room() as room:
        return take.fault(
            ["tic", "-o", room.path], distinct + repeated, 1, err=b"1: E2 NamesTooLong\n2: E2 NamesTooLong\n")


# a text of a capability, the words that follow its name, the status, what is written
TEXTS = (
    (b"%?" * 16_000, ["1"], 4, b""),
    (b"%?" * 64, ["1"], 0, b""),
    (b"%?%p1%t" + b"%%" * 16_000, ["0"], 0, b""),
    (b"%?%p1%t" + b"%%" * 16_000, ["1"], 0, b"%" * 16_000),
    (b"%?%p1%t" + b"%?%p1%tA%eB%;" * 2_400 + b"%eC%;", ["1"], 0, b"A" * 2_400),
    (b"%?%p1%tA%e" * 3_200 + b"B", ["0"], 4, b""),
    (b"%?" + b"%p1%tA%e" * 3_200 + b"B%;", ["0"], 0, b"B"),
    (b"%p1" * 20, ["1"], 0, b""),
    (b"%p1" * 21, ["1"], 4, b""),
    (b"%p1%" + b"0" * 32_000 + b"d", ["7"], 0, b"7"),
    (b"%p1%999.999d" * 2_000, ["7"], 0, (b"0" * 998 + b"7") * 2_000),
    (b"%{" + b"9" * 32_000 + b"}%d", ["7"], 4, b""),
    (b"%{" + b"0" * 32_000 + b"}%d", ["7"], 0, b"0"),
    (b"$<" * 16_000, [], 0, b"$<" * 16_000),
    (b"$<1" * 10_000, [], 0, b"$<1" * 10_000),
    (b"$<99999*/>" * 3_000, [], 0, b""),
    (b"%" * 32_000, ["1"], 0, b"%" * 16_000),
    (b"%i" * 16_000 + b"%p1%d", ["2147483647"], 0, b"-2147467649"),
)


@case("texts of 32,000 bytes with hostile parameters and paddings")
def hostile_texts(take):
    with Room() as room:
        env = {"TERMINFO": room.path}
        for at, (text, words, status, out) in enumerate(TEXTS):
            name = f"t{at}"
            room.put(name, of_one_text(text, [0]))
            err = b'tput: bad string "cbt"\n' if status == 4 else b""
            fault = take.fault(["tput", "-T", name, "cbt", *words], b"", status, out, err, env=env)
            if fault is not None:
                return f"{text[:20]!r}..: {fault}"
            # padded at the highest rate too, when all else is alike but what is too much
            if text.startswith(b"$<99999"):
                fault = take.fault(["tput", "-T", name, "--rate", "4294967295", "cbt"], b"", 4,
                                   err=b'tput: bad string "cbt"\n', env=env)
                if fault is not None:
                    return fault
    return None


@case("300,000 lines of tput: of capabilities, of nothing, of words that are too many, of nothing known")
def many_lines(take):
    with Room() as room:
        room.put("dumb", dumb())
        env, count = {"TERMINFO": room.path}, 300_000
        fault = take.fault(["tput", "-T", "dumb", "-S"], b"cols\n" * count, 0, b"80\n" * count, env=env)
        fault = fault or take.fault(["tput", "-T", "dumb", "-S"], b" \t\n" * count, 0, env=env)
        fault = fault or take.fault(["tput", "-T", "dumb", "-S"], b"zz\n" * count, 255, env=env)
        return fault or take.fault(["tput", "-T", "dumb", "-S"], b"bel 1 2 3 4 5 6 7 8 9 0\n" * count, 255, env=env)
