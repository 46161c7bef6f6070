#!/usr/bin/env python3
"""The program together with others: editors that read its report, programs that use its entries in
a terminal. Each directory below cases/ is one case (tests/cases.py says how).

With names of cases as arguments only those are run. The last line is
`integration: N passed, M failed`.
"""

import os
import sys

HERE = os.path.dirname(os.path.abspath(__file__))
sys.path.insert(0, os.path.dirname(HERE))
from cases import run_cases  # noqa: E402

if __name__ == "__main__":
    sys.exit(run_cases("integration", os.path.join(HERE, "cases")))
