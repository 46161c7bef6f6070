"""How ./ti builds, and what the tarball of `make dist` holds."""

import contextlib
import os
import shutil
import subprocess
import tarfile
import tempfile

from shared import TOP, Skipped, need, output

from crates import all_below, read_crates, read_lines  # of build/, which shared has put on the path


def unpacked(directory):
    """Makes the tarball and unpacks it; gives the directory that it holds."""
    need("git")
    copy = os.path.join(directory, "copy")
    if subprocess.run(["git", "clone", "-q", "--no-hardlinks", TOP, copy], stderr=subprocess.DEVNULL).returncode:
        raise Skipped("this is no repository of git")
    name = output(["make", "-s", "dist"], cwd=copy).strip()
    with tarfile.open(os.path.join(copy, name)) as packed:
        packed.extractall(directory)
    return os.path.join(directory, name[: -len(".tar.gz")]), copy


def check_tarball():
    """Whether the tarball of `make dist` has every file of the commit."""
    with tempfile.TemporaryDirectory(prefix="ti-package-") as directory:
        made, copy = unpacked(directory)
        tracked = output(["git", "ls-files"], cwd=copy).split("\n")[:-1]
        packed = sorted(name for name in tracked if os.path.lexists(os.path.join(made, name)))
        if sorted(tracked) != packed:
            yield f"the tarball lacks {sorted(set(tracked) - set(packed))[:5]}"
        if not os.access(os.path.join(made, "ti"), os.X_OK):
            yield "the tarball's ti cannot be run"


def check_tarball_builds():
    """Whether README's first command works in the unpacked tarball."""
    need("rt")
    with tempfile.TemporaryDirectory(prefix="ti-package-") as directory:
        made, _ = unpacked(directory)
        subprocess.run(["./ti", "tic", "-o", "out", "examples/dumb.ti"], cwd=made, check=True)
        size = os.path.getsize(os.path.join(made, "out", "d", "dumb"))
        if size != 308:
            yield f"out/d/dumb has {size} bytes"


# What takes the place of the toolchain if only the order of a build is tried: its prover needs what
# a crate depends on, notes in the file PROVED what it proves, refuses the crate REFUSED and edits
# `ti_text` while it proves the crate EDITS; its linker makes a program that prints `built`.
SUBSTITUTE = {
    "rt": "exit 1\n",
    "rattle": """
for word in "$@"; do
    [ "$before" != --crate-name ] || name=$word
    [ "$before" != -o ] || made=$word
    [ "$before" != --extern ] || [ -e "${word#*=}" ] || {
        echo "${word#*=} is not there"
        exit 1
    }
    before=$word
done
[ "$name" != "$REFUSED" ] || {
    echo "refused $name"
    exit 1
}
[ "$name" != "$EDITS" ] || echo "// edited" >>../ti_text/src/lib.rt
sleep 0.1
mkdir -p "${made%/*}"
echo "$name" >>"$PROVED"
rm -rf "$made"
echo "$name" >"$made"
""",
    "rattle-link": """
for word in "$@"; do
    [ "$before" != -o ] || made=$word
    before=$word
done
printf '#!/bin/sh\\necho built\\n' >"$made"
chmod +x "$made"
""",
}


def make_substitute(directory):
    """Puts the substitute for the toolchain into a directory; gives that of its commands."""
    kit = os.path.join(directory, "kit")
    os.makedirs(os.path.join(kit, "bin"))
    for library in ("std", "arrayvec", "byteorder", "clap", "indexmap", "itoa", "memchr", "thiserror"):
        os.makedirs(os.path.join(kit, "rlibs", f"{library}.rlib"))
    with open(os.path.join(kit, "WHAT"), "w") as file:
        file.write("a substitute\n")
    for name, text in SUBSTITUTE.items():
        with open(os.path.join(kit, "bin", name), "w") as file:
            file.write(f"#!/bin/sh\n{text}")
        os.chmod(file.name, 0o755)
    return os.path.join(kit, "bin")


class Checkout:
    """A checkout that is built with the substitute for the toolchain."""

    def __init__(self, directory):
        self.made, _ = unpacked(directory)
        self.crates = read_crates(self.made)
        self.tools = make_substitute(directory)
        self.log = os.path.join(directory, "proved")

    def build(self, jobs="2", refused="", edits="", words=("./ti",)):
        """What ./ti, or another command, came to: its status, what it printed and said, and which
        crates were proved, in order.

        The crate `refused` is not proved; while the crate `edits` is proved, `ti_text` is edited.
        """
        with contextlib.suppress(FileNotFoundError):
            os.remove(self.log)
        path = f"{self.tools}:{os.environ['PATH']}"
        given = {**os.environ, "PATH": path, "PROVED": self.log, "TI_JOBS": jobs, "REFUSED": refused, "EDITS": edits}
        ran = subprocess.run(words, cwd=self.made, env=given, capture_output=True, text=True, check=False)
        proved = []
        with contextlib.suppress(FileNotFoundError), open(self.log, encoding="utf-8") as file:
            proved = file.read().split()
        return ran.returncode, ran.stdout, ran.stderr, proved

    def built(self, what, wanted, **how):
        """Builds; gives what is wrong unless just the crates wanted were proved, in some order."""
        status, printed, said, proved = self.build(**how)
        if status or printed != "built\n" or sorted(proved) != sorted(wanted):
            yield f"{what}: status {status}, printed {printed!r}, said {said!r}, proved {proved}"

    def edit(self, crate, *place):
        with open(os.path.join(self.made, "crates", crate, *place), "a", encoding="utf-8") as file:
            file.write("// edited\n")

    def reached(self, name):
        """The crates of the program that an edit of one reaches."""
        everything = [*all_below(self.crates, "ti"), "ti"]
        return [crate for crate in everything if crate == name or name in all_below(self.crates, crate)]


def check_build():
    """Whether ./ti proves what it must, in order, with a substitute for the toolchain."""
    with tempfile.TemporaryDirectory(prefix="ti-package-") as directory:
        checkout = Checkout(directory)
        yield from first_build_faults(checkout)
        yield from edit_faults(checkout)
        yield from refusal_faults(checkout)
        yield from jobs_faults(checkout)
    with tempfile.TemporaryDirectory(prefix="ti-package-") as directory:
        yield from library_faults(Checkout(directory))


def first_build_faults(checkout):
    """Each crate is proved after those that it depends on, and each is said."""
    status, printed, said, proved = checkout.build("3")
    lines = said.split("\n")
    told = [line.split(": ")[2] for line in lines if line.startswith("ti: proved, crate ")]
    wanted = [*all_below(checkout.crates, "ti"), "ti"]
    last = f"ti: proving and building crate {len(wanted)} of {len(wanted)}: ti"
    if status or printed != "built\n" or last not in lines:
        yield f"status {status}, printed {printed!r}, said {said!r}"
    if sorted([*told, "ti"]) != sorted(proved) or sorted(proved) != sorted(wanted):
        yield f"proved {proved}, said {told}"
    for place, name in enumerate(proved):
        early = set(all_below(checkout.crates, name)) - set(proved[:place])
        if early:
            yield f"{name} was proved before {sorted(early)}"
    yield from checkout.built("a second time", [])


def edit_faults(checkout):
    """What an edit reaches is proved again, and nothing else."""
    checkout.edit("ti_tools", "src", "lib.rt")
    yield from checkout.built("after an edit of ti_tools", ["ti_tools", "ti"])
    os.utime(os.path.join(checkout.made, "crates", "ti_text", "src", "lib.rt"))
    yield from checkout.built("if a file only became newer", [])
    checkout.edit("ti_tools", "src", "another.rt")
    yield from checkout.built("after a file came", ["ti_tools", "ti"])
    os.remove(os.path.join(checkout.made, "crates", "ti_tools", "src", "another.rt"))
    yield from checkout.built("after a file went", ["ti_tools", "ti"])
    with open(os.path.join(checkout.tools, "..", "WHAT"), "a", encoding="utf-8") as file:
        file.write("a newer one\n")
    yield from checkout.built("with another toolchain", checkout.reached("ti_text") + ["ti_caps"])


def refusal_faults(checkout):
    """A build ends if a crate is refused, and goes on from there; an edit meanwhile is seen."""
    checkout.edit("ti_layout", "src", "lib.rt")
    status, printed, said, proved = checkout.build(refused="ti_compiled")
    told = "ti: not proved: ti_compiled\n" in said and "refused ti_compiled" in said
    if status != 1 or printed or not told or "building crate" in said:
        yield f"if one is refused: status {status}, printed {printed!r}, said {said!r}"
    if "ti_layout" not in proved or set(proved) & set(checkout.reached("ti_compiled")):
        yield f"if ti_compiled is refused, {proved} were proved"
    rest = [name for name in checkout.reached("ti_layout") if name not in proved]
    yield from checkout.built("after a refusal", rest)
    checkout.edit("ti_source", "src", "lib.rt")
    yield from checkout.built("with an edit meanwhile", checkout.reached("ti_source"), edits="ti_source")
    yield from checkout.built("after an edit meanwhile", checkout.reached("ti_text"))


def jobs_faults(checkout):
    """TI_JOBS is a number from 1 on."""
    for jobs in ("0", "x", "-1"):
        checkout.edit("ti_text", "src", "lib.rt")
        if checkout.build(jobs)[0] != 1:
            yield f"TI_JOBS={jobs} is taken"
    for jobs in ("1", "1000"):
        checkout.edit("ti_text", "src", "lib.rt")
        yield from checkout.built(f"TI_JOBS={jobs}", checkout.reached("ti_text"), jobs=jobs)


def library_faults(checkout):
    """What the gate has proved below the C library is proved again only after an edit."""
    for name in all_below(checkout.crates, "ti_c"):
        place = os.path.join(checkout.made, "crates", name, "out", "rlib", f"{name}.rlib")
        os.makedirs(place)
        with open(os.path.join(place, "format"), "w", encoding="utf-8") as file:
            file.write("proved\n")
    for words, wanted in ((["--proved"], ["ti_c"]), ([], [])):
        proved = checkout.build(words=["build/build.py", *words, "ti_c"])[3]
        if proved != wanted:
            yield f"build.py {words} ti_c proves {proved}"
    checkout.edit("tools_tput", "src", "lib.rt")
    proved = checkout.build(words=["build/build.py", "ti_c"])[3]
    if proved != ["tools_tput", "ti_c"]:
        yield f"after an edit of tools_tput, build.py ti_c proves {proved}"


# A program above one library of the repository.
SMALL_PROGRAM = """#![tactic(auto)]

use std::io;

fn main(rt: HostRuntime) -> io::Result<()> {
    let lines = ti_text::count_lines(b"one\\ntwo\\n");
    println!(rt; "{lines} lines")
}
"""


def leans(*lines):
    """Whether the reader of crates.txt refuses these lines, since a crate depends on one below it."""
    try:
        read_lines(lines)
    except SystemExit as refusal:
        return "is not above it" in str(refusal)
    return False


def check_layers():
    """Whether a crate of crates.txt may depend only on crates above it."""
    low, high = ("# low: what others use", "a_low: memchr"), ("# high: what uses it", "b_high: a_low")
    if leans(*low, *high):
        yield "a crate that depends on one above it is refused"
    if not leans(*high, *low):
        yield "a crate that depends on one of a lower layer is not refused"
    if not leans("# one: a layer", "a_first: a_second", "a_second:"):
        yield "a crate that depends on one below it in its own layer is not refused"
    if any(not crate.layer for crate in read_crates().values()):
        yield "a crate of crates.txt is in no layer"


def check_small_build():
    """Whether ./ti proves a library with the toolchain itself, and proves, compiles and links a
    program above it."""
    need("rt")
    with tempfile.TemporaryDirectory(prefix="ti-package-") as directory:
        shutil.copy(os.path.join(TOP, "ti"), directory)
        for part in ("build", os.path.join("crates", "ti_text")):
            shutil.copytree(os.path.join(TOP, part), os.path.join(directory, part), ignore=shutil.ignore_patterns("out"))
        os.makedirs(os.path.join(directory, "crates", "ti", "src"))
        with open(os.path.join(directory, "crates", "ti", "src", "main.rt"), "w") as file:
            file.write(SMALL_PROGRAM)
        with open(os.path.join(directory, "crates.txt"), "w") as file:
            file.write("ti_text:\nti: ti_text\n")
        ran = subprocess.run(["./ti"], cwd=directory, env={**os.environ, "TI_JOBS": "1"}, capture_output=True, text=True)
        if ran.returncode or ran.stdout != "2 lines\n" or "ti: proved, crate 1 of 2: ti_text\n" not in ran.stderr:
            yield f"status {ran.returncode}, printed {ran.stdout!r}, said {ran.stderr!r}"
