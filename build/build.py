#!/usr/bin/env python3
"""Builds a program of the repository, if anything that it is made from has changed: proves the
libraries that it depends on, several at a time, and then itself, and says on standard error which
crate of how many is proved.

    build/build.py [PROGRAM]            `ti`, if none is named; of a static library its archive
    build/build.py --built [PROGRAM]    notes that the program that is in its place was built from
                                        what is there now, as the gate has built it; one that has a
                                        part in C, which the gate leaves out, is linked again with it
    build/build.py --proved [PROGRAM]   takes the libraries below it as the gate has just proved
                                        them from what is there now, and then builds it

What of a program is in C (build/border.py) is compiled by the C compiler that CC names, or cc.

If a crate is not proved, what the prover said is shown, and the status is 1. It uses as many
processors as TI_JOBS says; if that is not set, as many as there are, as far as there are so many
times MEMORY_OF_ONE of memory.

A library is begun once those that it depends on are proved, first the one with the most code above
it, on the processors that no other one waits for. It is proved from nothing, as the gate proves it,
and what is stored for the crates above it is what it states, without its proofs: that is read in a
fraction of the time. A library that was proved before is left as it is while its files, those below
it and the toolchain are the same.
"""
import fcntl
import hashlib
import os
import re
import shutil
import sys
import tempfile
from concurrent.futures import FIRST_COMPLETED, ThreadPoolExecutor, wait

import toolchain
from border import compile_objects, files_in_c
from crates import all_below, direct_needs, files_of, read_crates
from repository import TOP

# The one directory of this crate in which rt expects built libraries and looks for no sources.
LIBRARIES = f"{TOP}/crates/ti/out/rlib"
FIRST_BUILD = "the first build proves each crate; README.md says how long that takes"
# More do not shorten the proof of one crate.
JOBS_OF_ONE = 4
MEMORY_OF_ONE = 2 << 30


def read(file):
    with open(file, "rb") as opened:
        return opened.read()


def lines_above(crates, libraries):
    """For each library the lines of the longest chain of libraries that begins with it."""
    above = {}
    for name in reversed(libraries):
        chains = [above[user] for user in libraries if name in crates[user].needs]
        own = sum(read(file).count(b"\n") for file in files_of(name))
        above[name] = own + max(chains, default=0)
    return above


def digest(*parts):
    """One digest of several pieces of bytes."""
    return hashlib.sha256(b"".join(hashlib.sha256(part).digest() for part in parts)).hexdigest()


def digest_of(crates, name, known):
    """A digest of all that a crate is made from: its files, those in C too, the crates below it, the
    toolchain.

    What is known already, by name, is not read again, and what is found is added to it.
    """
    if name not in known:
        made_from = [read(toolchain.IDENTITY), repr(crates[name].needs).encode()]
        for need in direct_needs(crates, name):
            made_from.append(digest_of(crates, need, known).encode())
        for file in [*files_of(name), *files_in_c(name)]:
            made_from += [os.path.relpath(file, TOP).encode(), read(file)]
        known[name] = digest(*made_from)
    return known[name]


def take_proved(crates, digests, program):
    """Takes the libraries below a program as the gate has just proved them."""
    os.makedirs(LIBRARIES, exist_ok=True)
    for name in all_below(crates, program):
        proved, place = f"{TOP}/crates/{name}/out/rlib/{name}.rlib", f"{LIBRARIES}/{name}.rlib"
        shutil.rmtree(place, ignore_errors=True)
        # they are large
        shutil.copytree(proved, place, copy_function=os.link)
        mark_proved(digests, name)


def mark_of(name):
    """The file that says what a crate was proved from, once it is."""
    return f"{LIBRARIES}/{name}.sum"


def mark_proved(digests, name):
    """Says that a crate was proved from what is there now."""
    with open(mark_of(name), "w", encoding="utf-8") as file:
        file.write(digests[name])


def is_proved(digests, name):
    """Whether a crate was proved, and nothing that it is made from has changed since."""
    try:
        return read(mark_of(name)).decode() == digests[name]
    except OSError:
        return False


def prove(crates, name, jobs, root, *more):
    """Proves a crate, by further words makes something of it. Gives whether that went well, and
    what was said."""
    own = direct_needs(crates, name)
    kept = [need for need in crates[name].needs if need not in own]
    return toolchain.prove(f"{TOP}/crates/{name}", name, root, own, kept, LIBRARIES, jobs, *more)


def prove_marked(crates, digests, name, make):
    """Calls what proves a crate. Gives whether it is proved, and what was said."""
    if os.path.exists(mark_of(name)):
        os.remove(mark_of(name))
    proved, said = make()
    # If a file was edited since the build began, nothing says which text was proved.
    if proved and digest_of(crates, name, {}) == digests[name]:
        mark_proved(digests, name)
    return proved, said


def prove_library(crates, digests, name, jobs):
    """Proves a library and stores what it states. Gives whether it is proved, and what was said."""
    words = toolchain.library_words(f"{LIBRARIES}/{name}.rlib")
    return prove_marked(crates, digests, name, lambda: prove(crates, name, jobs, "lib", *words))


def prove_all(crates, digests, libraries, jobs, log):
    """Proves the libraries, and gives whether all are proved. What is said is added to the log."""
    above = lines_above(crates, libraries)
    proved = [name for name in libraries if is_proved(digests, name)]
    left = sorted((name for name in libraries if name not in proved), key=lambda name: -above[name])
    running, idle = {}, jobs
    with ThreadPoolExecutor(jobs) as pool:
        while left or running:
            ready = [name for name in left if set(all_below(crates, name)) <= set(proved)]
            while ready and idle:
                name, share = ready[0], min(max(idle // len(ready), 1), JOBS_OF_ONE)
                left.remove(name)
                ready.remove(name)
                idle -= share
                running[pool.submit(prove_library, crates, digests, name, share)] = name, share
            for done in wait(running, return_when=FIRST_COMPLETED).done:
                name, share = running.pop(done)
                idle += share
                try:
                    succeeded, said = done.result()
                except Exception as error:  # a full disk, say: the others still end
                    succeeded, said = False, f"{error}\n"
                log.append(f"== {name}\n{said}")
                if succeeded:
                    proved.append(name)
                    tell(f"proved, crate {len(proved)} of {len(libraries) + 1}: {name}")
                else:
                    # those that run still end, and no other is begun
                    left = []
                    tell(f"not proved: {name}")
    return len(proved) == len(libraries)


def link_program(crates, name, jobs):
    """Proves a program, compiles and links it. Gives whether that went well, and what was said."""
    program = f"{LIBRARIES}/{name}"
    proved, said = prove(crates, name, jobs, "main", *toolchain.object_words(f"{program}.o"))
    if not proved:
        return False, said
    linked, more = link_with_c(name, program, f"{program}.o")
    return linked, said + more


def link_with_c(name, program, made):
    """Links the object of a program with what of it is in C. Gives whether that went well, and what
    was said."""
    with tempfile.TemporaryDirectory() as room:
        objects, said = compile_objects(name, room)
        if objects is None:
            return False, said
        linked, more = toolchain.link(program, made, objects)
        return linked, said + more


def make_archive(crates, name, jobs):
    """Proves a static library and compiles it. Gives whether that went well, and what was said."""
    words = toolchain.archive_words(f"{LIBRARIES}/{file_of(crates[name])}")
    return prove(crates, name, jobs, "lib", *words)


def file_of(crate):
    """The file that is made of a program or of a static library."""
    return f"lib{crate.name}.a" if crate.is_static else crate.name


def place_of(crate):
    """Where the program or the archive of a crate is."""
    return f"{TOP}/crates/{crate.name}/out/{file_of(crate)}"


def built_from(digests, crate):
    """What the file next to a program says if that program was built from what is there now."""
    return f"{digests[crate.name]} {digest(read(place_of(crate)))}"


def mark_built(digests, crate):
    """Says next to a program that it was built from what is there now."""
    with open(f"{place_of(crate)}.sum", "w", encoding="utf-8") as file:
        file.write(built_from(digests, crate))


def is_built(digests, crate):
    """Whether the program that is in its place was built from what is there now."""
    try:
        return read(f"{place_of(crate)}.sum").decode() == built_from(digests, crate)
    except OSError:
        return False


def link_again(crate):
    """Links the program that the gate has built again, with what of it is in C. Gives whether the
    object from which it was built is still there, and that went well."""
    place = place_of(crate)
    with tempfile.TemporaryDirectory() as room:
        alone, whole = f"{room}/alone", f"{room}/whole"
        if not os.path.exists(f"{place}.o") or not toolchain.link(alone, f"{place}.o")[0] or read(alone) != read(place):
            return False
        linked, _ = link_with_c(crate.name, whole, f"{place}.o")
        if linked:
            shutil.copy(whole, f"{place}.new")
            os.replace(f"{place}.new", place)
        return linked


def take_built(crates, digests, program):
    """Takes a program as the gate has just built it. Gives the exit status."""
    if not files_in_c(program) or link_again(crates[program]):
        mark_built(digests, crates[program])
        return 0
    take_proved(crates, digests, program)
    return build_if_changed(program)


def place_program(digests, crate):
    """Puts a program that was just built in its place, whole, since an older one may be running."""
    place = place_of(crate)
    os.makedirs(os.path.dirname(place), exist_ok=True)
    shutil.copy(f"{LIBRARIES}/{file_of(crate)}", f"{place}.new")
    os.replace(f"{place}.new", place)
    if is_proved(digests, crate.name):
        mark_built(digests, crate)


def tell(what):
    print(f"ti: {what}", file=sys.stderr, flush=True)


def count_jobs():
    """How many processors to use; none if TI_JOBS is not a number from 1 on."""
    said = os.environ.get("TI_JOBS", "")
    if said:
        return int(said) if re.fullmatch("[1-9][0-9]{0,5}", said) else 0
    try:
        memory = int(re.search(rb"^MemAvailable: *(\d+) kB", read("/proc/meminfo"), re.M)[1]) * 1024
    except (OSError, TypeError):
        memory = 0
    return max(min(len(os.sched_getaffinity(0)), memory // MEMORY_OF_ONE), 1)


def build(crates, program, digests, jobs, log):
    """Builds a program, and gives whether it was built. What is said is added to the log."""
    libraries = all_below(crates, program)
    if not any(os.path.exists(mark_of(name)) for name in libraries):
        tell(FIRST_BUILD)
    os.makedirs(LIBRARIES, exist_ok=True)
    if not prove_all(crates, digests, libraries, jobs, log):
        return False
    if not is_proved(digests, program):
        tell(f"proving and building crate {len(libraries) + 1} of {len(libraries) + 1}: {program}")
        make_it = make_archive if crates[program].is_static else link_program
        make = lambda: make_it(crates, program, min(jobs, JOBS_OF_ONE))
        is_made, said = prove_marked(crates, digests, program, make)
        log.append(f"== {program}\n{said}")
        if not is_made:
            return False
    place_program(digests, crates[program])
    return True


def hold_checkout():
    """Waits until no other build of this checkout runs; others wait while this process lives."""
    held = os.open(os.path.dirname(os.path.abspath(__file__)), os.O_RDONLY)
    try:
        fcntl.flock(held, fcntl.LOCK_EX | fcntl.LOCK_NB)
    except BlockingIOError:
        tell("waiting for another build of this checkout to end")
        fcntl.flock(held, fcntl.LOCK_EX)


def build_if_changed(program):
    """Builds a program unless it was built from what is there now. Gives the exit status."""
    crates, digests, log = read_crates(), {}, []
    digest_of(crates, program, digests)
    if is_built(digests, crates[program]):
        return 0
    jobs = count_jobs()
    if not jobs:
        tell("cannot be built: TI_JOBS is not a number from 1 on")
        return 1
    hold_checkout()
    digests.clear()
    digest_of(crates, program, digests)
    if is_built(digests, crates[program]) or build(crates, program, digests, jobs, log):
        return 0
    print(*log, sep="", end="", file=sys.stderr, flush=True)
    tell("the build failed")
    return 1


def main():
    words = [word for word in sys.argv[1:] if word not in ("--built", "--proved")]
    program = words[0] if words else "ti"
    crates = read_crates()
    if program not in crates:
        tell(f"no crate is called {program}")
        return 1
    if not shutil.which("rt"):
        if os.path.exists(place_of(crates[program])):
            return 0
        tell("cannot be built: the command rt of the Rattle toolchain is not on PATH")
        return 1
    digests = {}
    digest_of(crates, program, digests)
    if "--built" in sys.argv[1:]:
        return take_built(crates, digests, program)
    if "--proved" in sys.argv[1:]:
        take_proved(crates, digests, program)
    return build_if_changed(program)


if __name__ == "__main__":
    try:
        sys.exit(main())
    except KeyboardInterrupt:
        sys.exit(130)
