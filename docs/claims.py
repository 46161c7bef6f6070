#!/usr/bin/env python3
"""Compares docs/CLAIMS.md with the code: what it names is there, and the program uses it.

    docs/claims.py [--check] [PAGE]     PAGE in its place; nothing is written either way

Each row of the table of "What is proved" has a promise, the calls and laws that carry it, and the
programs that use it. Of each name in the second column:

- it is a public function, type or method: of the crate that is written before it, as in
  `ti_list::list`, or of any crate that is no test;
- a call is reached from each program of the row, by the names that functions use of their own crate
  and of those that it depends on, and by the methods of traits. A type counts if a method of it is
  reached;
- a law speaks of a definition that the contract of a reached call names: of what the program does.

The reading is by names, so it reaches too much rather than too little. The status is 1 if a row
names something of which this is not so. The last line counts the names.
"""

import os
import re
import sys

sys.path.append(os.path.join(os.path.dirname(os.path.dirname(os.path.abspath(__file__))), "tests"))
from common import TOP, Tally, files_below, text_of  # noqa: E402
from crates import all_below, read_crates  # noqa: E402

PAGE = os.path.join("docs", "CLAIMS.md")
# the crate of each program; an export of the C library counts as one
ROOT_OF = {
    "ti": "ti", "ti-tic": "ti_everyday", "ti-infocmp": "ti_everyday", "ti-tput": "ti_everyday",
    "ti-clear": "ti_everyday", "ti-toe": "ti_everyday", "ti-tabs": "ti_everyday", "ti-tset": "ti_everyday",
    "ti-reset": "ti_everyday", "ti-fmt": "ti_everyday", "ti-lint": "ti_everyday",
    "ti-lsp": "ti_lsp", "libti": "ti_c",
}
ROW = re.compile(r"^\| ([^|]*) \| ([^|]*) \| ([^|]*) \|$", re.M)
PROGRAM = re.compile(r"`([\w-]+)`")
QUOTED = re.compile(r"`([A-Za-z_][\w:]*)`")
FUNCTION = re.compile(r"^( *)((?:pub(?:\(\w+\))? )?(?:const )?(?:unsafe )?(?:extern \"C?\" )?)fn (\w+)", re.M)
TYPE = re.compile(r"^ *pub (?:struct|enum|trait|type) (\w+)", re.M)
OWNER = re.compile(r"^(?:unsafe )?(?:impl|(?:pub )?trait)\b(?:<[^{]*?>)? ?(.* for )?(?:\w+::)*(\w+)", re.M)
WORD = re.compile(r"\b[A-Za-z_]\w*\b")
STATEMENT = re.compile(r"^(?:(?:abbrev |unfoldable )?pub(?: abbrev| unfoldable| record| data)?) (?!use\b|mod\b)(\w\S*)(?= )", re.M)


class Function:
    """A function of a crate: its name, whether it is public or a law, its owner, its words."""

    def __init__(self, crate, owner, found, text):
        self.crate, self.name = crate, found[3]
        self.is_of_trait, self.owner = owner
        self.is_public = "pub " in found[2]
        self.is_law = re.match(r" *[^\n]*fn \w+\(\)\s+ensures", text) is not None
        clauses, _, body = text.partition("\n{") if "\n{" in text else text.partition("\n    {")
        self.contract = set(WORD.findall(clauses))
        self.uses = set(WORD.findall(body)) | (set(WORD.findall(clauses)) if not body else set())


def without_comments(text):
    """A source without its comments and the texts between quotes."""
    return re.sub(r'"(?:\\.|[^"\\\n])*"', '""', re.sub(r"//[^\n]*", "", text))


def functions_of(crate):
    """The functions of a crate, and the names of its public types."""
    functions, types = [], set()
    directory = os.path.join("crates", crate, "src")
    for path in files_below(os.path.join(TOP, directory)):
        text = without_comments(text_of(directory, path))
        types |= set(TYPE.findall(text))
        owners = [(match.start(), (bool(match[1]), match[2])) for match in OWNER.finditer(text)]
        matches = list(FUNCTION.finditer(text))
        for match, after in zip(matches, [*matches[1:], None]):
            owner = next((it for start, it in reversed(owners) if start < match.start()), (False, None))
            body = text[match.start() : after.start() if after else len(text)]
            functions.append(Function(crate, owner if match[1] else (False, None), match, body))
    return functions, types


def reached(crates, functions, root):
    """The functions that a program or an export of the library leads to."""
    found, todo = set(), list(functions[root])
    by_name, of_traits = {}, {}
    for crate, own in functions.items():
        for function in own:
            by_name.setdefault((crate, function.name), []).append(function)
            if function.is_of_trait:
                of_traits.setdefault(function.name, []).append(function)
    below = {crate: [crate, *all_below(crates, crate)] for crate in functions}
    while todo:
        function = todo.pop()
        if function in found:
            continue
        found.add(function)
        for word in function.uses:
            todo += of_traits.get(word, ())
            for crate in below[function.crate]:
                todo += by_name.get((crate, word), ())
    return found


def statements(crate):
    """The definitions of a crate, each with the words of its own text."""
    found = {}
    directory = os.path.join("crates", crate, "specs")
    for path in files_below(os.path.join(TOP, directory)):
        text = re.sub(r"^ *--.*$", "", text_of(directory, path), flags=re.M)
        starts = list(STATEMENT.finditer(text))
        for start, after in zip(starts, [*starts[1:], None]):
            found[start[1]] = set(re.findall(r"[^\s(){}.,:;]+", text[start.end() : after.start() if after else len(text)]))
    return found


def definitions_of(law, told, cited):
    """The words of a law's statement and of the definitions that it names, down to what is cited."""
    seen, todo = set(), set(law.contract)
    while todo:
        name = todo.pop()
        if name in seen:
            continue
        seen.add(name)
        if name in told and name not in cited:
            todo |= told[name]
    return seen


def candidates(functions, types, name):
    """The functions that a name of the page means; a type means its methods."""
    *before, last = name.split("::")
    crates = [before.pop(0)] if before and before[0] in functions else list(functions)
    of = [function for crate in crates for function in functions[crate] if function.is_public or function.owner]
    if last[0].isupper():
        return [function for function in of if function.owner == last and last in types[function.crate]]
    of = [function for function in of if function.name == last]
    return [function for function in of if not before or before[-1][0].islower() or function.owner == before[-1]]


def faults_of_page(page):
    """Each name of the page of which something is not so, and how many names there are."""
    crates = {name: crate for name, crate in read_crates().items() if crate.group not in ("test_", "dev_")}
    read = {name: functions_of(name) for name in crates}
    functions, types = {name: it[0] for name, it in read.items()}, {name: it[1] for name, it in read.items()}
    told = {name: words for crate in crates for name, words in statements(crate).items()}
    ways = {root: reached(crates, functions, root) for root in set(ROOT_OF.values())}
    cited = {
        root: {word for function in way if not function.is_law for word in function.contract if word in told}
        for root, way in ways.items()
    }
    faults, count = [], 0
    part = page.split("\n## What is proved\n")[1].split("\n## ")[0]
    for promise, by, programs in ROW.findall(part)[1:]:
        users = PROGRAM.findall(programs)
        if not users or not ROOT_OF.keys() >= set(users):
            faults.append(f"the row {promise}: {programs} are not programs")
            continue
        for name in QUOTED.findall(by):
            count += 1
            means = candidates(functions, types, name)
            if not means:
                faults.append(f"`{name}`: no public function or type of this name")
            for user in users:
                root = ROOT_OF[user]
                laws = [law for law in means if law.is_law]
                is_used = any(function in ways[root] for function in means)
                if means and not is_used and not any(definitions_of(law, told, cited[root]) & cited[root] for law in laws):
                    faults.append(f"`{name}`: {user} does not reach it")
    if not count:
        faults.append("nothing was compared")
    return faults, count


def main():
    page = next((word for word in sys.argv[1:] if word != "--check"), PAGE)
    faults, count = faults_of_page(text_of(page))
    tally = Tally("claims")
    tally.add(page, faults)
    print(f"    {count} calls and laws of {page}")
    return tally.close()


sys.exit(main())
