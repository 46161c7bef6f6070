"""The names of the capabilities: the literal lists of the definitions."""

import os
import re

HERE = os.path.dirname(os.path.abspath(__file__))
TOP = os.path.dirname(os.path.dirname(os.path.dirname(HERE)))
NAMES = os.path.join(TOP, "crates", "ti_caps", "specs", "Names.antt")
DESCRIPTIONS = os.path.join(TOP, "crates", "source_descriptions", "src", "descriptions.rt")

FLAG, NUMBER, TEXT = "flag", "number", "text"
KINDS = (FLAG, NUMBER, TEXT)
COUNTS = {FLAG: 44, NUMBER: 39, TEXT: 414}


def lists_of_names():
    """For each kind the names of its capabilities, in their order."""
    with open(NAMES, encoding="utf-8") as file:
        text = file.read()
    found = {}
    for kind in KINDS:
        rows = re.search(rf"^{kind}_names =\n(.*?)\[\]", text, re.S | re.M)[1]
        found[kind] = [name.encode() for name in re.findall(r'"([^"]*)"', rows)]
        assert len(found[kind]) == COUNTS[kind], kind
    return found


NAMES_OF = lists_of_names()
# a capability is its kind and its place
FIND = {name: (kind, at) for kind in KINDS for at, name in enumerate(NAMES_OF[kind])}
assert len(FIND) == sum(COUNTS.values())


def lists_of_descriptions():
    """For each kind what is said of its capabilities, in their order: the variable, the sentence and the
    parameters."""
    with open(DESCRIPTIONS, encoding="utf-8") as file:
        text = file.read()
    rows = re.findall(r'^    "([^"]*)",\s+"([^"]*)"(?:,\s+"([^"]*)")?;$', text, re.M)
    assert len(rows) == sum(COUNTS.values())
    flags, numbers = COUNTS[FLAG], COUNTS[FLAG] + COUNTS[NUMBER]
    return {FLAG: rows[:flags], NUMBER: rows[flags:numbers], TEXT: rows[numbers:]}


DESCRIPTIONS_OF = lists_of_descriptions()


def described(kind, name):
    """What is said of a capability."""
    return DESCRIPTIONS_OF[kind][FIND[name][1]]


def name(cap):
    """The name of a capability."""
    return NAMES_OF[cap[0]][cap[1]]
