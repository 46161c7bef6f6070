#!/usr/bin/env python3
"""Black-box cases on the built program: each directory below cases/ is one, as tests/cases.py says.

With names of cases as arguments only those are run. The last line is
`cli: N passed, M failed`.
"""

import os
import sys

HERE = os.path.dirname(os.path.abspath(__file__))
sys.path.insert(0, os.path.dirname(HERE))
from cases import run_cases  # noqa: E402

if __name__ == "__main__":
    sys.exit(run_cases("cli", os.path.join(HERE, "cases")))
