#!/usr/bin/env python3
"""Hostile use of the built program: malicious inputs, and random ones compared with a model.

    run.py [--all] [--seed N] [--only WORD]

Without --all the short part alone: what takes long is run on a smaller scale. Each input is run
within 2 GB of memory and 120 seconds of CPU time; what it took is printed. The inputs made at
random are compared with a model that is written from the definitions alone (the directory model/);
their seed is printed, and --seed repeats them. With --only, only the parts and inputs whose name
begins with the word are run. The last line is `hostile: N passed, M failed`.
"""

import argparse
import multiprocessing
import os
import random
import sys
import time

import files  # noqa: F401, adds its inputs
import inputs
import limits
import randoms
import server  # noqa: F401, adds its inputs
import squares  # noqa: F401, adds its inputs
import user_defined  # noqa: F401, adds its inputs

# how many of each kind are made at random: short, and with --all. A session of `edits` has 20
# edits, so these are 2,000; a run of `documents` too.
COUNTS = {
    "edits": (100, 100), "scripts": (1_000, 12_000), "sources": (600, 8_000), "documents": (100, 1_000),
    "messages": (200, 2_000), "layouts": (400, 4_000),
}
# how many of the faults of a kind are printed
FAULTS_SHOWN = 10


def run_randoms(kind, seed, count):
    """Whether all of a kind passed; prints those that did not."""
    started = time.monotonic()
    with multiprocessing.Pool(min(os.cpu_count() or 1, 4)) as pool:
        found = pool.imap_unordered(randoms.one, ((kind, seed, number) for number in range(count)), chunksize=8)
        faults = [fault for fault in found if fault is not None]
    for fault in faults[:FAULTS_SHOWN]:
        print(f"FAILED {fault}")
    print(f"{kind}: {count} made at random, {len(faults)} of them wrong, {time.monotonic() - started:.0f} s")
    return not faults


def run_input(case):
    """Whether an input passed; prints what it took, or what is wrong."""
    try:
        fault = case.run()
    except Exception as error:
        fault = repr(error)[:400]
    took = f"{case.seconds:7.2f} s {case.memory / 1e6:6.0f} MB"
    print(f"{took}  {case.name}" + ("" if fault is None else f"\nFAILED {case.name}: {fault}"), flush=True)
    return fault is None


def main():
    words = argparse.ArgumentParser(description="hostile use of the built program")
    words.add_argument("--all", action="store_true", help="the long part too")
    words.add_argument("--seed", type=int, default=None)
    words.add_argument("--only", default="")
    words = words.parse_args()
    for program in (limits.PROGRAM, limits.PROBE, limits.LSP, limits.EVERYDAY):
        if not os.access(program, os.X_OK):
            print(f"{program} is not built")
            print("hostile: 0 passed, 1 failed")
            return 1
    seed = random.SystemRandom().randrange(1_000_000_000) if words.seed is None else words.seed
    print(f"seed {seed}")
    outcomes = [run_input(one) for one in inputs.cases(words.all) if one.name.startswith(words.only)]
    for kind, (short, long) in COUNTS.items():
        if kind.startswith(words.only):
            outcomes.append(run_randoms(kind, seed, long if words.all else short))
    print(f"hostile: {outcomes.count(True)} passed, {outcomes.count(False)} failed")
    return 0 if outcomes and all(outcomes) else 1


if __name__ == "__main__":
    sys.exit(main())
