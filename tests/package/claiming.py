"""What docs/claims.py finds in a page that claims too much."""

import os
import subprocess
import sys
import tempfile

from shared import TOP, text_of

PAGE = os.path.join("docs", "CLAIMS.md")
# a row, what is put into the place of its call, and what is said of that
CLAIMS = (
    ("`ti_caps::find`", "`ti_caps::seek`", "`ti_caps::seek`: no public function or type of this name"),
    ("`frames_have_one_reading`", "`write_frame`", "`write_frame`: ti-lsp does not reach it"),
    ("infocmp` | `ti-infocmp`", "infocmp` | `ti`", "`everyday_infocmp::infocmp`: ti does not reach it"),
)


def check_claims():
    """A name that is not there is found, and a call that only tests make."""
    faults = []
    for old, new, wanted in CLAIMS:
        page = text_of(PAGE).replace(old, new)
        with tempfile.NamedTemporaryFile("w", suffix=".md", encoding="utf-8") as file:
            file.write(page)
            file.flush()
            ran = subprocess.run(
                [sys.executable, os.path.join(TOP, "docs", "claims.py"), "--check", file.name], capture_output=True, text=True
            )
        said = [line.strip() for line in ran.stdout.split("\n") if line.startswith("    `")]
        if ran.returncode != 1 or said != [wanted]:
            faults.append(f"{new} in the place of {old}: status {ran.returncode}, {said}, and not {wanted}")
    return faults
