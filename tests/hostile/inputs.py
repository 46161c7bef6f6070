"""Malicious inputs for the built program, each with what it must answer."""

from typing import Callable, NamedTuple

from limits import run
from model.caps import FLAG, NAMES_OF, NUMBER, TEXT
from registry import CASES, case

BLOCKS_MAX = 65_535
BLOCK_MAX = 1_048_576


class Take:
    """Runs the program for an input, and keeps what its runs took."""

    def __init__(self):
        self.seconds, self.memory = 0.0, 0

    def __call__(self, words, given=b"", **options):
        done = run(words, given, **options)
        self.seconds += done.seconds
        self.memory = max(self.memory, done.memory)
        return done

    def fault(self, words, given, status, out=b"", err=b"", **options):
        """What is wrong with a run, of which this is wanted, or None."""
        done = self(words, given, **options)
        for what, got, wanted in (("output", done.out, out), ("errors", done.err, err)):
            if got != wanted:
                return f"status {done.status}, {what}: {first_difference(got, wanted)}"
        return None if done.status == status else f"status {done.status}, wanted {status}"

    def tic(self, blocks, report):
        """What is wrong with a check of a source, of which this report is wanted."""
        bad = any(line.split(b" ", 2)[1].startswith(b"E") for line in report.splitlines())
        return self.fault(["tic", "-c"], b"".join(blocks), int(bad), b"", report)

    def session(self, blocks, commands, replies):
        """What is wrong with a session that puts blocks in at the end, and then does more."""
        lines = [b"i %d\n%s.\n" % (at, text) for at, text in enumerate(blocks)]
        return self.fault(["session"], b"".join(lines) + commands, 0, b"ok\n" * len(blocks) + replies)


def first_difference(got, wanted):
    """Where two texts of many lines part."""
    one, other = got.split(b"\n"), wanted.split(b"\n")
    at = next((at for at, (a, b) in enumerate(zip(one, other)) if a != b), min(len(one), len(other)))
    return f"line {at + 1} of {len(one)} is {one[at : at + 1]!r:.200}, wanted {other[at : at + 1]!r:.200} of {len(other)}"


class Case(NamedTuple):
    name: str
    body: Callable
    long: bool
    take: Take

    @property
    def seconds(self):
        return self.take.seconds

    @property
    def memory(self):
        return self.take.memory

    def run(self):
        return self.body(self.take)


def cases(all_of_them):
    """The inputs, without the long ones unless all are wanted."""
    return [Case(*row, Take()) for row in CASES if all_of_them or not row[2]]


def numbers(count):
    """The positions below a count, as the command `w` writes them."""
    return " ".join(map(str, range(count))).encode() + b"\n"


def chain(count, first):
    """Blocks of which each uses the one before it, but for the first."""
    return [b"b0," + first + b",\n"] + [b"b%d,use=b%d,\n" % (at, at - 1) for at in range(1, count)]


def entry_of(name, cols=1):
    """The bytes of an entry with a number of columns alone, in hexadecimal, as `p` writes it."""
    names = name + b"\0"
    pad = b"\0" if len(names) % 2 else b""
    found = b"\x1a\x01" + bytes([len(names), 0, 0, 0, 1, 0, 0, 0, 0, 0]) + names + pad + cols.to_bytes(2, "little")
    return found.hex().encode() + b"\n"


def unresolved(count):
    """The report of a chain whose first block uses what nobody owns."""
    return b"1: E6 MissingUse zz\n" + b"".join(b"%d: E8 Unresolved b%d\n" % (at + 1, at - 1) for at in range(1, count))


def circular(count):
    """The report of circular uses."""
    return b"".join(b"%d: E7 Circular b%d\n" % (at + 1, (at - 1) % count) for at in range(count))


def every_entry(count):
    return (
        b"".join(b"p %d\n" % at for at in range(count)),
        b"".join(entry_of(b"b%d" % at) for at in range(count)),
    )


@case("chain of 65,535 uses whose first owner is missing, compiled")
def chain_unresolved(take):
    return take.tic(chain(BLOCKS_MAX, b"use=zz"), unresolved(BLOCKS_MAX))


@case("chain of 65,535 uses, compiled")
def chain_resolved(take):
    return take.tic(chain(BLOCKS_MAX, b"cols#1"), b"")


@case("chain of 65,535 in a session: the first owner comes, goes, comes back")
def chain_edited(take):
    show, entries = every_entry(BLOCKS_MAX)
    commands = b"f\nr 0\nb0,cols#1,\n.\nw\nf\n" + show + b"r 0\nb0,use=zz,\n.\nf\np 65534\nr 0\nb0,cols#1,\n.\np 65534\n"
    bad = unresolved(BLOCKS_MAX) + b".\n"
    replies = bad + b"ok\n" + numbers(BLOCKS_MAX) + b".\n" + entries
    return take.session(
        chain(BLOCKS_MAX, b"use=zz"), commands, replies + b"ok\n" + bad + b"none\nok\n" + entry_of(b"b65534"))


@case("1,000 circular uses, compiled")
def ring_small(take):
    return take.tic(chain(1_000, b"use=b999"), circular(1_000))


def ring_session(take, count):
    commands = b"r 0\nb0,use=b%d,\n.\nw\nf\nr %d\nb%d,cols#1,\n.\nf\np 0\nr %d\nb%d,use=b%d,\n.\nf\n" % (
        count - 1, count // 2, count // 2, count // 2, count // 2, count // 2 - 1)
    faults = circular(count) + b".\n"
    return take.session(
        chain(count, b"cols#1"), commands,
        b"ok\n" + numbers(count) + faults + b"ok\n.\n" + entry_of(b"b0") + b"ok\n" + faults)


@case("1,000 uses in a session: made circular, repaired in the middle, made circular again")
def ring_edited(take):
    return ring_session(take, 1_000)


@case("65,535 uses in a session: made circular, repaired in the middle, made circular again")
def long_ring_edited(take):
    return ring_session(take, BLOCKS_MAX)


@case("65,535 circular uses, compiled")
def ring_long(take):
    return take.tic(chain(BLOCKS_MAX, b"use=b65534"), circular(BLOCKS_MAX))


@case("doubled diamonds, 40 deep")
def diamonds(take):
    blocks = [b"b0,cols#1,\n"] + [b"b%d,use=b%d,use=b%d,\n" % (at, at - 1, at - 1) for at in range(1, 41)]
    show, entries = every_entry(41)
    return take.session(
        blocks, b"w\nr 0\nb0,cols#2,\n.\nw\np 40\nr 0\nb0,cols#1,\n.\n" + show,
        b"40\nok\n" + numbers(41) + entry_of(b"b40", 2) + b"ok\n" + entries)


@case("doubled diamonds, 65,535 deep")
def deep_diamonds(take):
    blocks = [b"b0,cols#1,\n"] + [b"b%d,use=b%d,use=b%d,\n" % (at, at - 1, at - 1) for at in range(1, BLOCKS_MAX)]
    return take.session(blocks, b"r 0\nb0,cols#2,\n.\nw\np 65534\n", b"ok\n" + numbers(BLOCKS_MAX) + entry_of(b"b65534", 2))


@case("65,535 blocks of one name, compiled")
def one_name(take):
    report = b"".join(b"%d: W4 DuplicateName n\n" % (at + 1) for at in range(1, BLOCKS_MAX))
    return take.tic([b"n,cols#1,\n"] * BLOCKS_MAX, report)


@case("65,534 blocks of one name and a user of it: the first owner is taken out 5,000 times, and put in")
def one_name_edited(take):
    blocks = [b"u,use=n,\n"] + [b"n,cols#%d,\n" % (at % 9 + 1) for at in range(1, BLOCKS_MAX)]
    commands = b"d 1\np 0\n" * 5_000 + b"i 1\nn,cols#77,\n.\np 0\nm 1 60000\np 0\n"
    replies = b"".join(b"ok\n" + entry_of(b"u", at % 9 + 1) for at in range(2, 5_002))
    return take.session(
        blocks, commands, replies + b"ok\n" + entry_of(b"u", 77) + b"ok\n" + entry_of(b"u", 5_001 % 9 + 1))


def short_names(count):
    """So many distinct names of up to three bytes."""
    letters = [bytes([byte]) for byte in range(0x21, 0x7F) if byte not in b"/,|#.\\^"]
    found = letters + [a + b for a in letters for b in letters]
    found += [a + b + c for a in letters for b in letters for c in letters][: max(0, count - len(found))]
    return found[:count]


@case("a block with 100,000 uses of names that nobody owns")
def missing_uses(take):
    names = short_names(100_000)
    return take.tic([b"long," + b",".join(b"use=" + name for name in names) + b",\n"],
                    b"".join(b"1: E6 MissingUse %s\n" % name for name in names))


@case("a block with 170,000 uses of one name, which comes, goes and is broken")
def uses_of_one_name(take):
    # with line breaks, since a session takes no line of a megabyte
    block = b"x," + (b"use=n," * 5_000 + b"\n\t") * 34 + b"\n"
    commands = b"p 0\ni 0\nn,cols#1,\n.\np 1\nr 0\nn,cols#x,\n.\nf\nd 0\np 0\n"
    report = b"1: E3 BadNumber cols\n"
    report += b"".join(b"%d: E8 Unresolved n\n" % (2 + at) * 5_000 for at in range(34)) + b".\n"
    return take.session([block], commands, b"none\nok\n" + entry_of(b"x") + b"ok\n" + report + b"ok\nnone\n")


def wide_header(names):
    return b"|".join(names) + b"|d,\n"


@case("two headers of a megabyte with the same 250,000 names, compiled")
def wide_headers(take):
    header = wide_header(short_names(250_000))
    return take.tic([header] * 2, b"1: E2 NamesTooLong\n2: E2 NamesTooLong\n" + b"".join(
        b"2: W4 DuplicateName %s\n" % name for name in short_names(250_000)))


@case("two blocks of 1,048,576 bytes, each a header of 300,000 names, of which 224,000 differ, compiled")
def fullest_headers(take):
    names = short_names(224_000)
    again = [names[at % 80] for at in range(76_000)]
    short = len(wide_header(names + again)) - 2
    names[-1] += b"n" * (BLOCK_MAX - 2 - short)
    header = wide_header(names + again)
    if len(header) != BLOCK_MAX:
        return f"a header of {len(header)} bytes was made"
    return take.tic([header] * 2, b"1: E2 NamesTooLong\n2: E2 NamesTooLong\n" + b"".join(
        b"2: W4 DuplicateName %s\n" % name for name in names))


@case("two headers of a megabyte with one name 300,000 times, compiled")
def repeated_names(take):
    header = wide_header([b"nn"] * 300_000)
    return take.tic([header] * 2, b"1: E2 NamesTooLong\n2: E2 NamesTooLong\n2: W4 DuplicateName nn\n")


@case("names of 500,000 bytes that differ in their last byte")
def long_names(take):
    blocks = [b"n" * 500_000 + bytes([letter]) + b",\n" for letter in range(0x41, 0x5B)] * 2
    report = b"".join(
        b"%d: E2 NamesTooLong\n" % (at + 1) + (b"%d: W4 DuplicateName %s\n" % (at + 1, block[:-2]) if at >= 26 else b"")
        for at, block in enumerate(blocks))
    return take.tic(blocks, report)


@case("a name that 65,534 blocks use: it comes last, changes, goes, and comes first")
def used_by_all(take):
    count = BLOCKS_MAX - 1
    blocks = [b"b%d,use=n,\n" % at for at in range(count)]
    show, entries = every_entry(count)
    commands = b"p 9\ni %d\nn,cols#2,\n.\np 9\nr %d\nn,cols#1,\n.\nw\n" % (count, count) + show
    commands += b"d %d\nf\ni 0\nn,cols#7,\n.\np 65534\nm 0 65534\np 65533\n" % count
    missing = b"".join(b"%d: E6 MissingUse n\n" % (at + 1) for at in range(count)) + b".\n"
    return take.session(
        blocks, commands, b"none\nok\n" + entry_of(b"b9", 2) + b"ok\n" + numbers(BLOCKS_MAX) + entries + b"ok\n" + missing
        + b"ok\n" + entry_of(b"b65533", 7) + b"ok\n" + entry_of(b"b65533", 7))


@case("65,535 blocks that wait for the last one, compiled")
def wait_for_last(take):
    return take.tic([b"b%d,use=n,\n" % at for at in range(BLOCKS_MAX - 1)] + [b"n,cols#1,\n"], b"")


@case("65,535 blocks that each use ten earlier ones: the root is replaced, and made part of a knot")
def thicket(take):
    blocks = [b"b0,cols#1,\n"]
    for at in range(1, BLOCKS_MAX):
        used = ((at * 2_654_435_761 + number * 40_503) // 128 % at for number in range(10))
        blocks.append(b"b%d,%s\n" % (at, b"".join(b"use=b%d," % number for number in used)))
    commands = b"r 0\nb0,cols#2,\n.\np 65534\nr 0\nb0,use=b65534,\n.\np 65534\nr 0\nb0,cols#1,\n.\np 65534\n"
    return take.session(
        blocks, commands,
        b"ok\n" + entry_of(b"b65534", 2) + b"ok\nnone\nok\n" + entry_of(b"b65534"))


@case("a block with a megabyte of commas, of bars, of escapes, of digits, of comments, of empty lines")
def megabytes(take):
    many = 1_000_000
    return (
        take.tic([b"x" + b"," * many + b"\n"], b"")
        or take.tic([b"x" + b"|" * many + b",\n"], b"1: E1 BadHeader\n")
        or take.tic([b"x,bel=" + b"\\E" * (many // 2) + b",\n"], b"1: E9 TooLarge x\n")
        or take.tic([b"x,bel=" + b"\\" * (many // 2) + b",\n"], b"1: E9 TooLarge x\n")
        or take.tic([b"x,bel=" + b"^" * many + b",\n"], b"1: E9 TooLarge x\n")
        or take.tic([b"x,bel=" + b"%^" * (many // 2) + b",\n"], b"1: E9 TooLarge x\n")
        or take.tic([b"x,cols#1" + b"0" * many + b",\n"], b"1: E4 NumberTooLarge cols\n")
        or take.tic([b"x,cols#0" + b"0" * many + b",\n"], b"")
        or take.tic([b"x,cols#0x" + b"0" * many + b"f,\n"], b"")
        or take.tic([b"x,\n" + b"#\n" * (many // 2)], b"")
        or take.tic([b"x,\n" + b"\n" * many], b"")
        or take.tic([b"x,\n" + b"\n " * (many // 2) + b"zap,\n"], b"%d: W1 UnknownCapability zap\n" % (many // 2 + 2))
        or take.tic([b"x," + b" " * many + b",\n"], b"")
        or take.tic([b"x," + b" am" * (many // 3) + b",\n"],
                    b"1: W1 UnknownCapability am" + b"?am" * (many // 3 - 1) + b"\n")
        or take.tic([b"x," + b"cols@," * (many // 6) + b"\n"], b"")
        or take.tic([b"x," + b"cols#1," * (many // 7) + b"\n"], b"")
        or take.tic([b"x," + b"\n\t.am," * (many // 7) + b"\n"], b"")
    )


@case("a preface of 32 megabytes, and a block too long after it")
def long_preface(take):
    lines = 16_000_000
    return take.tic([b"#\n" * lines, b"x,foo,\n"], b"%d: W1 UnknownCapability foo\n" % (lines + 1)) or take.fault(
        ["tic", "-c"], b"#\n" * lines + b"x,\n" + b"#" * BLOCK_MAX + b"\n", 1, b"",
        b"tic: block too long at line %d\n" % (lines + 1))


def all_items():
    """An item for each of the 497 capabilities."""
    flags, numbers, texts = (NAMES_OF[kind] for kind in (FLAG, NUMBER, TEXT))
    return b",".join(flags + [name + b"#1" for name in numbers] + [name + b"=A" for name in texts])


def full_chain(count):
    """A chain whose first block has all capabilities, which all others inherit."""
    return chain(count, all_items())


@case("a chain of 10,000 blocks, each with all 497 capabilities of the first")
def full_chain_short(take):
    return take.tic(full_chain(10_000), b"")


@case("a chain of 2,000 blocks: every second of the 414 texts of the first changes, then each, and all come back")
def texts_change(take):
    count = 2_000

    def first(value):
        return b",".join(name + b"=" + value(at) for at, name in enumerate(NAMES_OF[TEXT]))

    states = [first(lambda at: b"a%d" % (at % 10)), first(lambda at: (b"a%d" % (at % 10), b"bcd")[at % 2]), first(lambda at: b"e")]
    # what a list of the first and the last alone compiles the last to
    fresh = [take(["session"], b"i 0\nb0,%s,\n.\ni 1\nb%d,use=b0,\n.\np 1\n" % (state, count - 1)).out.split(b"\n")[2] + b"\n" for state in states]
    if len(set(fresh)) != len(states):
        return "entries of other texts are the same"
    show = b"p %d\n" % (count - 1)
    commands = show + b"".join(b"r 0\nb0,%s,\n.\n" % state + show for state in states[1:] + states[:1])
    return take.session(chain(count, states[0]), commands, b"ok\n".join(fresh + fresh[:1]))


@case("a chain of 65,535 blocks, each with all 497 capabilities of the first", long=True)
def full_chain_long(take):
    return take.tic(full_chain(BLOCKS_MAX), b"")


@case("a chain of 65,535 entries of 32,768 bytes each, which 2 GB do not hold: out of memory", long=True)
def too_much_memory(take):
    blocks = chain(BLOCKS_MAX, b"cols#65536,cbt=" + b"A" * 32_700)
    return take.fault(["tic", "-c"], b"".join(blocks), 1, b"", b"tic: out of memory\n")


@case("65,535 blocks: 30,000 moves from one end of the list to the other, and 30,000 back")
def moves(take):
    blocks = [b"b%d,cols#1,\n" % at for at in range(BLOCKS_MAX)]
    end, many = BLOCKS_MAX - 1, 30_000
    there, back = b"m 0 %d\n" % end, b"m %d 0\n" % end
    return take.session(
        blocks, there * many + b"w\np 0\np %d\n" % end + back * many + b"w\np 0\n",
        b"ok\n" * many + b"%d\n" % end + entry_of(b"b%d" % many) + entry_of(b"b%d" % (many - 1))
        + b"ok\n" * many + b"0\n" + entry_of(b"b0"))


@case("65,535 blocks: 30,000 are taken out of the middle, each put in again at the front")
def taken_out(take):
    blocks = [b"b%d,cols#1,\n" % at for at in range(BLOCKS_MAX)]
    middle, many = BLOCKS_MAX // 2, 30_000
    commands = [b"d %d\ni 0\nb%d,cols#2,\n.\n" % (middle, middle - at) for at in range(many)]
    return take.session(
        blocks, b"".join(commands) + b"w\np 0\np %d\nf\n" % middle,
        b"ok\n" * (2 * many) + b"0\n" + entry_of(b"b%d" % (middle - many + 1), 2)
        + entry_of(b"b%d" % (middle - many)) + b".\n")


@case("65,536 blocks are too many, and a session refuses the last")
def too_many(take):
    blocks = [b"b%d,cols#1,\n" % at for at in range(BLOCKS_MAX)]
    long = b"x,\n" + b"#\n" * (BLOCK_MAX // 2)
    return take.fault(["tic", "-c"], b"".join(blocks) + b"x,\n", 1, b"", b"tic: too many blocks\n") or take.session(
        blocks, b"i 0\nx,\n.\ni 9\n\n.\ni 70000\nx,\n.\ni 70000\n" + long + b".\nr 65535\n" + long + b".\ni 0\n" + long
        + b".\nm 65534 0\np 0\nd 65534\ni 65534\nx,\n.\np 65534\n",
        b"refused TooMany\nrefused NotOneBlock\nrefused Position\nrefused Position\nrefused Position\nrefused TooLong\nok\n"
        + entry_of(b"b65534") + b"ok\nok\n"
        + b"1a0102000000000000000000" + b"7800" + b"\n")


@case("a session of 1,000,000 lines that are no commands")
def unknown_lines(take):
    return take.session([], b"zap\n" * 1_000_000, b"unknown\n" * 1_000_000)
