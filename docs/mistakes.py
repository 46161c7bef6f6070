#!/usr/bin/env python3
"""The table of named mistakes, from the edits that make them.

    docs/mistakes.py            prints the table, as docs/contracts.py puts it into CONTRACTS.md
    docs/mistakes.py --check    fails if an edit of must-fail/, or one with a line `# clause:`, lacks
                                one of the lines that tests/edits.py names

An edit of crates/*/must-fail, wrong-bodies or wrong-definitions is in the table if it has a line
`# clause:`.
"""

import os
import sys

sys.path.append(os.path.join(os.path.dirname(os.path.dirname(os.path.abspath(__file__))), "tests"))
from common import Tally  # noqa: E402
from crates import read_crates  # noqa: E402
from edits import CLAUSE, GATE, NOTES, edit_paths, read_edit  # noqa: E402

HEAD_OF_TABLE = """Each edit makes one mistake in the code or in a definition, and the prover refuses it at the clause
that is named. Each run of the gate tries those in `must-fail/`, and `make audit` all of them. The
last column has an input, what the edited program does with it, and what is right. Blocks are written
without their newlines.
"""
COLUMNS = "| Mistake | What refuses it | Edit | Row that it breaks |\n|---|---|---|---|\n"


def edits_in_order():
    """All edits, in the order of their crates."""
    order = list(read_crates())
    return sorted((read_edit(path) for path in edit_paths()), key=lambda edit: order.index(edit.crate))


def row_of(edit):
    """The row of an edit."""
    notes = {name: note.replace("|", "\\|") for name, note in edit.notes.items()}
    path = edit.path.removeprefix("crates/")
    broken = f"{notes['input']}: {notes['wrong']}; right: {notes['right']}"
    return f"| {notes['mistake']} | {notes[CLAUSE]} | `{path}` | {broken} |\n"


def lacking(edit):
    """The lines that an edit lacks, if it has to have them."""
    has_to = edit.place == GATE or CLAUSE in edit.notes
    return [name for name in (*NOTES, CLAUSE) if has_to and name not in edit.notes]


def table():
    """The table of the edits with a line `# clause:`."""
    return COLUMNS + "".join(row_of(edit) for edit in edits_in_order() if CLAUSE in edit.notes and not lacking(edit))


def main():
    if "--check" not in sys.argv[1:]:
        print(table(), end="")
        return 0
    edits = edits_in_order()
    faults = [f"{edit.path}: it has no line `# {name}:`" for edit in edits for name in lacking(edit)]
    if not any(CLAUSE in edit.notes for edit in edits):
        faults.append("no edit has a line `# clause:`")
    tally = Tally("mistakes")
    tally.add("edits", faults)
    return tally.close()


if __name__ == "__main__":
    sys.exit(main())
