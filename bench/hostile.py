#!/usr/bin/env python3
"""Measures how time and memory of `check` and `canon` grow on hostile streams; prints Markdown for docs/BENCHMARKS.md.

Usage: bench/hostile.py [--quick]
Each stream has many of one thing, and all of them are accepted sequences. It is measured at a size and at twice that size.
The program is $IAMF_TOOL, or the proved one that the launcher built. --quick takes streams of some hundred OBUs.
It ends with 1 where a run fails or its answer is wrong, and with 0 else, whatever was measured.
"""

import os
from collections import namedtuple

import streams
from run import PROGRAM, best_of, head, met, row, run_script
from sequences import expect_accepted

GROWTH_LIMIT = 2.5
MEMORY_LIMIT = 400
QUICK = 1000

Case = namedtuple("Case", "name write number")
Cost = namedtuple("Cost", "seconds cpu above")

# The longest OBU has 2^21 bytes, which leaves no room for a million substream ids: that case ends at 500,000.
CASES = [
    Case("mix presentations, and a copy of each", streams.mixes, 200_000),
    Case("substreams of one element, a frame of each", streams.substreams, 250_000),
    Case("parameter blocks of one id", streams.blocks, 1_000_000),
    Case("empty reserved OBUs", streams.reserved, 1 << 20),
]


def measure(folder, case, number):
    """The costs of `check` and `canon`: seconds, and bytes an OBU above the input."""
    path = os.path.join(folder, "hostile.iamf")
    stream = case.write(path, number)
    expect_accepted(folder, path, stream)
    length = os.path.getsize(path)
    checking, writing = best_of([[PROGRAM, "check"], [PROGRAM, "canon"]], path)
    os.remove(path)
    return (Cost(checking.seconds, checking.cpu, (checking.peak - length) / stream.obus),
            Cost(writing.seconds, writing.cpu, (writing.peak - length) / stream.obus))


def report(folder, quick):
    head("command", "many", "number", "CPU time, s", "twice as many, s", "growth", f"below {GROWTH_LIMIT}", "growth by the clock",
         "bytes an OBU", "twice as many", f"at most {MEMORY_LIMIT}")
    for case in CASES:
        number = case.number // QUICK if quick else case.number
        costs = measure(folder, case, number), measure(folder, case, 2 * number)
        for command, once, twice in zip(("check", "canon"), *costs):
            growth = twice.cpu / max(once.cpu, 1e-6)
            row(command, case.name, str(number), f"{once.cpu:.3f}", f"{twice.cpu:.3f}", f"{growth:.2f}", met(growth < GROWTH_LIMIT),
                f"{twice.seconds / once.seconds:.2f}", f"{once.above:.0f}", f"{twice.above:.0f}",
                met(max(once.above, twice.above) <= MEMORY_LIMIT))


if __name__ == "__main__":
    run_script("bench/hostile.py", report)
