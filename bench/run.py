#!/usr/bin/env python3
"""Speed, compared with ncurses's tools on the same work.

    bench/run.py [PART..]      the parts named, or all but `glance`

glance    the rows of the first table of docs/PERFORMANCE.md alone, some three minutes
daily     the everyday tools: `ti-tic`, `ti-lint`, `ti-infocmp` and `ti-tput`, on ncurses's own
          source and the entries of the system
entries   sources of many entries, compiled into files: 1,800 of 1.1 KB each with the same items;
          1,800 of which no two have a string in common; 1,800 of which 1,500 have a use; 2,000
          small ones; and 1,000 of which all but the first use one before them
system    the entries of the system, as ncurses's infocmp lists them, compiled into files; and
          ncurses's own source
tools     `ti tput` and `ti infocmp` on the system's own entry, if it is there; both read one file
edits     edits of a database of 1,000 and of 65,535 blocks, a chain of uses and circular ones, by
          `ti session`, and lists of blocks: instructions, CPU time in microseconds, and MB
editor    the CPU time of `ti-lsp` for opening a source and for a key in it, and that of ncurses's
          `tic -c` of the whole: ncurses's own source, and 1,000 entries of 1.1 KB each; and for
          answers about 2,800 entries, of which 900 have a use
rates     MB/s (10^6 bytes a second) of `ti tic -c` on one-block sources of 64 KiB, 256 KiB and
          1 MiB, and of ncurses's `tic -c` on the last: the best of several runs

If each row of that table was measured, it is printed and docs/speed.svg is drawn anew.
ncurses's own source is misc/terminfo.src of ncurses; the variable MASTER names the file, and
without it what is about that source is left out.

The first five print rows of one table: the median wall-clock time of ten runs (of a hundred if no
files are written), by hyperfine if it is installed, and instructions by valgrind's callgrind, if
that is installed. Each run writes into a directory of its own, in memory if there is /dev/shm. Both
tools must have written the same files, but for those of names that are too long for `ti`; of tput
both must have written the same bytes. If not, that is said, and the status is 1. A tool that is not
installed, or not built yet, is left out, and that is said too.
"""

import os
import shutil
import sys
import tempfile

HERE = os.path.dirname(os.path.abspath(__file__))
sys.path.append(os.path.join(os.path.dirname(HERE), "build"))
import edits  # noqa: E402
import picture  # noqa: E402
import server  # noqa: E402
import sources  # noqa: E402
from measuring import OUT, Room, Work, clock, files_written, measure, run  # noqa: E402

from repository import entry_file, program_of  # noqa: E402

PROGRAM, EVERYDAY = program_of("ti"), program_of("ti_everyday")
MASTER = os.environ.get("MASTER")
TERMINAL = "xterm-256color"
MEMORY = "/dev/shm"
RATE_RUNS = 40
TOOLS_HEAD = """| Work | Milliseconds, ti | ncurses | Ratio | Instructions, ti | ncurses | Ratio |
|---|---:|---:|---:|---:|---:|---:|"""
EDITS_HEAD = """| Blocks | Edit | Instructions | Microseconds | MB at most |
|---:|---|---:|---:|---:|"""
EDITOR_HEAD = """| Source | Opening, ms of CPU time | A key | ncurses's `tic -c` |
|---|---:|---:|---:|"""
# what was measured, by name; what is said after the tables; what differs that must not
MEASURED, NOTES, FAULTS = {}, [], []


def tic_work(room, name, source):
    """The compiling of a source into files, which is made and written now."""
    path = room.write("source.ti", source())
    return Work(name, [PROGRAM, "tic", "-o", OUT, path], ["tic", "-o", OUT, path])


def user_defined_work(room, name, source):
    """The same with user-defined capabilities, by `ti-tic`."""
    path = room.write("source.ti", source())
    words = ["-x", "-o", OUT, path]
    return Work(name, [EVERYDAY, "ti-tic", *words], ["tic", *words])


def entries(room):
    for name, source in {
        "`tic -o`, 1,800 entries with the same items": lambda: sources.large_entries(1800),
        "`tic -o`, 1,800 entries, no string twice": lambda: sources.differing_entries(1800),
        "`tic -o`, 1,800 entries, 1,500 with a use": lambda: sources.entries_with_uses(300, 1500),
        "`tic -o`, 2,000 small entries": lambda: sources.small_entries(2000),
        "`tic -o`, 1,000 entries, all but the first with a use": lambda: sources.chained_entries(1000),
    }.items():
        yield name, lambda name=name, source=source: tic_work(room, name, source)


def read_master():
    with open(MASTER, "rb") as file:
        return file.read()


def known_sources(tool, *options):
    """Real sources: what each is, and how to get it. What is not here is noted as left out."""
    for title, source, why_not in (
        ("ncurses's own source", read_master, "" if MASTER else "MASTER does not name it"),
        ("the system's entries", lambda: sources.system_entries(*options),
         "" if shutil.which("infocmp") else "infocmp of ncurses is not installed"),
    ):
        if why_not:
            NOTES.append(f"{tool}, {title}: left out, since {why_not}")
        else:
            yield f"{tool}, {title}", source


def system(room):
    for name, source in known_sources("`tic -o`"):
        yield name, lambda name=name, source=source: tic_work(room, name, source)


def tools(room):
    entry = entry_file(TERMINAL)
    if entry is None:
        NOTES.append(f"infocmp, tput: left out, since the system has no entry of {TERMINAL}")
        return
    os.environ["TERMINFO"] = os.path.dirname(os.path.dirname(entry))  # for both
    for name, words in {
        f"`infocmp {TERMINAL}`": ["infocmp", TERMINAL], "`tput setaf 200`": ["tput", "-T", TERMINAL, "setaf", "200"],
    }.items():
        yield name, lambda name=name, words=words: Work(name, [PROGRAM, *words], words)
    words = ["tput", "-T", TERMINAL, "-S"]
    for number, line in enumerate(("bold", "setaf 12", "cup 4 9")):
        given, name = room.write(f"lines{number}", f"{line}\n".encode() * 10_000), f"`tput -S`, 10,000 lines `{line}`"
        yield name, lambda name=name, given=given: Work(name, [PROGRAM, *words], words, given)


def daily(room):
    if not os.access(EVERYDAY, os.X_OK):
        NOTES.append("the everyday tools: left out, since ti-everyday is not built: make everyday")
        return
    ours = lambda tool, *words: [EVERYDAY, f"ti-{tool}", *words]
    for name, source in known_sources("`ti-tic -x -o`", "-x"):
        yield name, lambda name=name, source=source: user_defined_work(room, name, source)
    if MASTER:
        # they find other mistakes
        name = "`ti-lint -x`, ncurses's own source, and `tic -c -x`"
        yield name, lambda name=name: Work(name, ours("lint", "-x", MASTER), ["tic", "-c", "-x", MASTER], is_compared=False)
    name = f"`ti-infocmp -x {TERMINAL}`"
    yield name, lambda name=name: Work(name, ours("infocmp", "-x", TERMINAL), ["infocmp", "-x", TERMINAL])
    words = ["-T", TERMINAL]
    name = "`ti-tput setaf 200`"
    yield name, lambda name=name: Work(name, ours("tput", *words, "setaf", "200"), ["tput", *words, "setaf", "200"])
    given, name = room.write("lines", b"cup 4 9\n" * 10_000), "`ti-tput -S`, 10,000 lines `cup 4 9`"
    yield name, lambda name=name: Work(name, ours("tput", *words, "-S"), ["tput", *words, "-S"], given)


def long_names(source):
    """The files of the entries whose names field is too long for `ti`, which reports them."""
    found = set()
    for line in source.decode("latin-1").split("\n"):
        field = line.partition(",")[0]
        if line[:1] not in ("", "#", "\t", " ") and len(field) > sources.NAMES_FIELD_BYTES:
            found |= {f"{name[0]}/{name}" for name in field.split("|")[:-1]}
    return found


def check(room, work):
    """Notes whether both commands do the same work; gives whether they do."""
    if work.writes_files():
        with open(work.ours[-1], "rb") as file:
            left_out = long_names(file.read())
        ours, theirs = (files_written(room, words) for words in (work.ours, work.theirs))
        NOTES.append(f"{work.name}: {len(ours):,} files of ti, {len(theirs):,} of ncurses")
        if ours - theirs or theirs - ours - left_out or not ours:
            few = sorted((ours ^ theirs) - left_out)[:5]
            FAULTS.append(f"{work.name}: one tool alone writes {', '.join(few)} ..")
        return True
    if not work.is_compared:
        return True
    ours, theirs = (run(words, work.given) for words in (work.ours, work.theirs))
    # listings differ in layout and in what ncurses says of its file
    is_same = ours == theirs if "tput" in work.theirs else ours[0] == theirs[0]
    # a run that fails is fast, so it is not timed
    if not is_same or ours[0] or not ours[1]:
        FAULTS.append(f"{work.name}: ti or ncurses fails, or they do not write the same")
        return False
    return True


def compare(room, work):
    """Prints a row that compares both commands, and adds it to what was measured."""
    if not shutil.which(work.theirs[0]):
        NOTES.append(f"{work.name}: left out, since {work.theirs[0]} of ncurses is not installed")
        return
    if not check(room, work):
        return
    taken = MEASURED[work.name] = measure(room, work)
    milliseconds = " | ".join(f"{seconds * 1000:.1f}" for seconds in taken.seconds)
    counted = "not counted | | "
    if taken.ratio(taken.instructions) is not None:
        counts = " | ".join(f"{count:,}" for count in taken.instructions)
        counted = f"{counts} | {taken.ratio(taken.instructions):.2f}"
    print(f"| {work.name} | {milliseconds} | {taken.ratio(taken.seconds):.2f} | {counted} |", flush=True)


def compare_all(works, room):
    """Compares what a part yields."""
    for _, make in works(room):
        compare(room, make())


def glance(room):
    """Compares the rows of the first table of docs/PERFORMANCE.md."""
    makers = dict((*daily(room), *entries(room), *system(room), *tools(room)))
    for name, *_ in picture.rows_at_a_glance():
        if name in makers:
            compare(room, makers[name]())


def show_glance():
    """If each row of that table was measured, prints it and draws its picture."""
    taken = [MEASURED.get(name) for name, *_ in picture.rows_at_a_glance()]
    if any(one is None or one.ratio(one.instructions) is None for one in taken):
        return
    print(f"\nThe first table of docs/PERFORMANCE.md, drawn into docs/speed.svg:\n\n{picture.HEAD}")
    print("\n".join(picture.row(one) for one in taken))
    picture.draw([(one.name, *(1000 * seconds for seconds in one.seconds)) for one in taken])


def editor(room):
    if not os.access(server.SERVER, os.X_OK):
        print("editor: left out (ti-lsp is not built: make lsp)")
        return
    if MASTER:
        print(server.measured(room, "ncurses's own source", read_master()))
    print(server.measured(room, "1,000 entries", sources.large_entries(1000)))
    print(*server.answered(room, "2,800 entries", sources.entries_with_uses(1900, 900)), sep="\n")


def fastest(room, words):
    """The seconds of the fastest of several runs."""
    return min(clock(room, words, os.devnull) for _ in range(RATE_RUNS))


def rates(room):
    empty = room.write("empty", b"x,\n")
    largest = room.write("largest", sources.one_block(1 << 20))
    start = fastest(room, [PROGRAM, "tic", "-c", empty])
    print(f"starting ti: {start * 1000:.2f} ms (taken off below)")
    for size in (64 << 10, 256 << 10, 1 << 20):
        path = room.write(f"{size}.ti", sources.one_block(size))
        took = max(fastest(room, [PROGRAM, "tic", "-c", path]) - start, 1e-6)
        print(f"ti tic -c, {size >> 10:5} KiB: {size / took / 1e6:8.1f} MB/s")
    if not shutil.which("tic"):
        print("ncurses's tic is not installed here")
        return
    took = max(fastest(room, ["tic", "-c", largest]) - fastest(room, ["tic", "-c", empty]), 1e-6)
    print(f"ncurses tic -c, {1 << 10:5} KiB: {(1 << 20) / took / 1e6:8.1f} MB/s")


PARTS = {
    "daily": lambda room: compare_all(daily, room),
    "entries": lambda room: compare_all(entries, room), "system": lambda room: compare_all(system, room),
    "tools": lambda room: compare_all(tools, room), "edits": edits.show, "editor": editor, "rates": rates,
    "glance": glance,
}
HEADS = {
    "glance": TOOLS_HEAD, "daily": TOOLS_HEAD, "entries": TOOLS_HEAD, "system": TOOLS_HEAD, "tools": TOOLS_HEAD,
    "edits": EDITS_HEAD, "editor": EDITOR_HEAD,
}


def main():
    wanted, begun = sys.argv[1:] or [name for name in PARTS if name != "glance"], ""
    for name in wanted:
        if name not in PARTS:
            print(f"no such part: {name}; the parts are {', '.join(PARTS)}")
            return 2
    memory = MEMORY if os.access(MEMORY, os.W_OK) else None
    with tempfile.TemporaryDirectory(prefix="ti-bench-", dir=memory) as path:
        room = Room(path)
        for name in wanted:
            head = HEADS.get(name, "")
            if head != begun:
                print(("\n" if begun else "") + head, flush=True)
            begun = head
            PARTS[name](room)
    show_glance()
    print("".join(f"\n{note}" for note in NOTES), end="\n" if NOTES else "")
    for fault in FAULTS:
        print(f"FAILED: {fault}")
    return 1 if FAULTS else 0


if __name__ == "__main__":
    sys.exit(main())
