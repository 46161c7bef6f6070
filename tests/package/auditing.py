"""How tests/audit tries wrong bodies, with a substitute for the toolchain."""

import os
import re
import shutil
import subprocess
import sys
import tempfile

from shared import TOP, need

SCRIPTS = ["tests/audit", "tests/edits.py", "tests/common.py"]
SCRIPTS += [f"build/{name}.py" for name in ("border", "build", "crates", "repository", "toolchain")]
# What takes the place of the toolchain: it does not compile a text with BROKEN. It does not prove a
# function with WRONG, nor one that calls such a one, and none if a constant or a definition has it.
SUBSTITUTE = r"""#!/usr/bin/env python3
import pathlib
import re
import sys

code = pathlib.Path("src/lib.rt").read_text()
if "BROKEN" in code:
    print("src/lib.rt:1:1: error[unknown-name]: no item `BROKEN`")
    sys.exit(1)
around = code.partition("fn ")[0] + pathlib.Path("specs/Lib.antt").read_text()
bodies = dict(re.findall("fn (\w+)(.*?)\n}", code, re.S))
wrong = [name for name, body in bodies.items() if "WRONG" in body or "WRONG" in around]
for name, body in bodies.items():
    causes = ["`search` did not prove `returns`"] * (name in wrong)
    causes += [f"it calls `low::{other}`, which is not proved" for other in wrong if f"{other}()" in body]
    verdict = "no proof: " if name in wrong else "not proved; "
    print(f"fn low::{name}:", verdict + "; ".join(causes) if causes else "no holes")
sys.exit(1 if wrong else 0)
"""
CODE = "const ONE: u8 = 1;\n" + "".join(
    f"\nfn {name}() -> u8 {{\n    {body}\n}}\n"
    for name, body in (("first", "1"), ("second", "2"), ("third", "3"), ("fourth", "4 + first()"), ("fifth", "5"))
)
# the place of each edit of the crate `low`, what it puts into the place of what, and what is said
EDITS = {
    "must-fail/first": ("src/lib.rt", "    1", "    WRONG", None),
    "wrong-bodies/second": ("src/lib.rt", "    2", "    WRONG", None),
    "wrong-bodies/third": ("src/lib.rt", "    3", "    2 + 1", "proved: third proved; no function refused"),
    "wrong-bodies/fourth": ("src/lib.rt", "4 + first()", "first() + 4", "proved: fourth proved; no function refused"),
    "wrong-bodies/fifth": ("src/lib.rt", "    5", "    BROKEN", "cannot be applied: it cannot be compiled: src"),
    "wrong-bodies/sixth": ("src/lib.rt", "    6", "    WRONG", "cannot be applied: an old text occurs 0 times"),
    "wrong-bodies/constant": ("src/lib.rt", "u8 = 1", "u8 = WRONG", None),
    "wrong-definitions/one": ("specs/Lib.antt", "one", "WRONG", None),
}


def put(text, *place):
    os.makedirs(os.path.dirname(os.path.join(*place)), exist_ok=True)
    with open(os.path.join(*place), "w", encoding="utf-8") as file:
        file.write(text)


def edit_text(name):
    """The text of an edit."""
    file, old, new, _ = EDITS[name]
    return f"file: {file}\nold: {old}\nnew: {new}\n"


def make_repository(directory):
    """Makes a repository of two crates with edits, and the substitute for the toolchain."""
    for script in SCRIPTS:
        os.makedirs(os.path.dirname(os.path.join(directory, script)), exist_ok=True)
        shutil.copy(os.path.join(TOP, script), os.path.join(directory, script))
    put("low:\nhigh: low\n", directory, "crates.txt")
    put("Handles allowed: none.\n", directory, "HANDLES")
    for crate in ("low", "high"):
        put(CODE, directory, "crates", crate, "src/lib.rt")
        put("one\n", directory, "crates", crate, "specs/Lib.antt")
    for name in EDITS:
        put(edit_text(name), directory, "crates/low", f"{name}.edit")
    put(edit_text("wrong-bodies/second"), directory, "crates/high/wrong-bodies/second.edit")
    put(SUBSTITUTE, directory, "bin/rt")
    os.chmod(os.path.join(directory, "bin/rt"), 0o755)


def audit(directory, *words):
    """What the audit of the repository prints, and its status."""
    given = {**os.environ, "PATH": f"{directory}/bin:{os.environ['PATH']}", "TI_JOBS": "2"}
    ran = subprocess.run(["tests/audit", *words], cwd=directory, env=given, capture_output=True, text=True, check=False)
    return ran.stdout + ran.stderr, ran.returncode


def said_faults(said):
    """What the audit of all does not say of an edit, or says though the edit is refused."""
    for name, (_, _, _, wanted) in EDITS.items():
        line = re.search(rf"^    crates/low/{name}\.edit: (.*)$", said, re.M)
        if bool(line) != bool(wanted) or line and not line[1].startswith(wanted):
            yield f"{name}: {line and line[1]}, and not {wanted}: {said}"


def count_faults(directory, *words, ends, status, crates):
    """How the audit of some crates ends otherwise than it must."""
    said, ended = audit(directory, *words)
    tried = sorted(re.findall(r"^crate \d of \d: (\w+)", said, re.M))
    if not said.endswith(f"{ends}\n") or ended != status or tried != sorted(crates):
        yield f"{words}: status {ended}, crates {tried}: {said}"


def check_audit():
    """Whether tests/audit finds the edits that are proved or cannot be applied, and chooses crates."""
    need("git")
    with tempfile.TemporaryDirectory(prefix="ti-package-") as directory:
        make_repository(directory)
        yield from said_faults(audit(directory)[0])
        all_of_them = "9 wrong bodies, 2 proved, 2 that cannot be applied"
        yield from count_faults(directory, ends=all_of_them, status=1, crates=["low", "high"])
        one = "1 wrong bodies, 0 proved, 0 that cannot be applied"
        yield from count_faults(directory, "high", ends=one, status=0, crates=["high"])
        git = ["git", "-c", "user.name=ti", "-c", "user.email=ti"]
        for words in (["init", "-q"], ["add", "-A"], ["commit", "-q", "-m", "first"]):
            subprocess.run([*git, *words], cwd=directory, check=True)
        put(f"# more\n{edit_text('must-fail/first')}", directory, "crates/low/must-fail/first.edit")
        low = "8 wrong bodies, 2 proved, 2 that cannot be applied"
        yield from count_faults(directory, "--since", "HEAD", ends=low, status=1, crates=["low"])
        put(f"{CODE}\n", directory, "crates/low/src/lib.rt")
        yield from count_faults(directory, "--since", "HEAD", ends=all_of_them, status=1, crates=["low", "high"])
