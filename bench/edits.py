"""What edits of a database of blocks take, through `ti session`, and lists of insertions, through
`ti tic -c`: instructions by callgrind, CPU time, and the most memory.

What an edit takes is what a script takes with so many of them after others, less what it takes
without them. That includes the reading of the request and the answer.
"""

import os
import random
import statistics
import subprocess
from typing import NamedTuple

from measuring import instructions

from repository import program_of

PROGRAM = program_of("ti")
# of which CPU time is given by the median
RUNS = 5
# how many edits of a kind are measured on one list
TURNS = 1000
FEW, MANY = 1000, 65_535


class Script(NamedTuple):
    """Some edits, and the requests before them."""

    name: str
    blocks: int
    before: list
    edits: list


def block(number, what):
    return f"b{number},{what},\n"


def put(at, text):
    return f"i {at}\n{text}.\n"


def replaced(at, text):
    return f"r {at}\n{text}.\n"


def filled(count):
    return [put(number, block(number, "cols#1")) for number in range(count)]


def chained(count):
    return [put(number, block(number, f"use=b{number - 1}" if number else "cols#1")) for number in range(count)]


def scripts():
    """The edits that are measured."""
    for count in (FEW, MANY):
        blocks, middle = filled(count), count // 2
        spread = [turn * 2_654_435_761 % count for turn in range(TURNS)]
        yield Script("insert at the end", count, [], blocks)
        yield Script("replace a block without dependents", count, blocks,
                     [replaced(at, block(at, f"cols#{turn}")) for turn, at in enumerate(spread)])
        yield Script("remove and insert in the middle", count, blocks,
                     [f"d {middle}\n" + put(middle, block(middle, "cols#1"))] * TURNS)
    for count in (FEW, MANY):
        chain = chained(count)
        yield Script("insert at the end of a chain of uses", count, [], chain)
        yield Script("replace the root of a chain of uses", count, chain, [replaced(0, "b0,cols#2,\n")])
        yield Script("make a chain circular, and its report", count, chain, [replaced(0, block(0, f"use=b{count - 1}")) + "f\n"])


def at_random(count):
    """Insertions, replacements, removals and moves of blocks of few names, a quarter of which use another."""
    draw, blocks, edits = random.Random(20_261_126), 0, []
    for _ in range(count):
        what = f"use=b{draw.randrange(count // 2)}" if draw.randrange(4) == 0 else f"cols#{draw.randrange(count // 2)}"
        text, at, kind = block(draw.randrange(count // 2), what), draw.randrange(max(blocks, 1)), draw.randrange(6)
        if kind == 0 and blocks:
            edits.append(replaced(at, text))
        elif kind == 1 and blocks:
            edits.append(f"d {at}\n")
            blocks -= 1
        elif kind == 2 and blocks:
            edits.append(f"m {at} {draw.randrange(blocks)}\n")
        else:
            edits.append(put(at, text))
            blocks += 1
    return edits


def lists():
    """Sources of many blocks, which are compiled whole; and the edits that are made one by one."""
    last = MANY - 1
    yield "a chain whose owners come last", "tic", "".join(
        block(number, f"use=b{number + 1}" if number < last else "cols#1") for number in range(MANY))
    half = MANY // 2
    yield "users, and then the owners", "tic", "".join(
        [block(half + number, f"use=b{number}") for number in range(half)] + [block(number, "cols#1") for number in range(half)])
    yield "random insertions, replacements, removals and moves", "session", "".join(at_random(MANY))


def taken(words, given):
    """The median of the seconds of CPU time of some runs, and the most bytes that one held."""
    seconds, most = [], 0
    for _ in range(RUNS):
        with open(given, "rb") as file, subprocess.Popen(words, stdin=file, stdout=subprocess.DEVNULL) as one:
            _, status, used = os.wait4(one.pid, 0)
            one.returncode = os.waitstatus_to_exitcode(status)
        seconds.append(used.ru_utime + used.ru_stime)
        most = max(most, used.ru_maxrss * 1024)
    return statistics.median(seconds), most


def show(room):
    """Prints a row for each kind of edit, and one for each list."""
    words = [PROGRAM, "session"]
    for script in scripts():
        before = room.write("before", "".join(script.before).encode())
        whole = room.write("whole", "".join(script.before + script.edits).encode())
        count = len(script.edits)
        counted = [instructions(room, words, given) for given in (before, whole)]
        (less, _), (seconds, most) = taken(words, before), taken(words, whole)
        each = "not counted" if None in counted else f"{(counted[1] - counted[0]) // count:,}"
        print(f"| {script.blocks:,} | {script.name} | {each} | {(seconds - less) / count * 1e6:,.1f} | {most / 1e6:.0f} |", flush=True)
    for name, tool, text in lists():
        given = room.write("list", text.encode())
        words = [PROGRAM, tool, *(("-c", given) if tool == "tic" else ())]
        counted = instructions(room, words, given)
        seconds, most = taken(words, given)
        print(f"| {MANY:,} | {name} | {'not counted' if counted is None else f'{counted:,}'} | {seconds * 1e6:,.0f} | {most / 1e6:.0f} |", flush=True)
