#!/usr/bin/env python3
"""Counts how often `check` asks for memory on sequences that differ in their number of temporal units alone, and refuses it.

Usage: bench/allocations.py
The streams are LPCM, one stereo element, frames of 8 samples. Of the first the descriptors and a temporal delimiter stand once, and
a mix gain's block and a frame for each unit: its requests are counted. The second is the first 66 bytes of samples/one_unit.iamf and
its last 36 for each unit: of it one request after the other gets no memory, up to the first whose run ends with 0, as it does
where there are no more requests. All runs before have to end with 3. The program is $IAMF_TOOL, or the proved one that the
launcher built. It ends with 1 where a run ends otherwise, or where a figure is another for another number of units.
"""

import os

from inside import Inside
from run import TOP, Fails, head, row, run_script
from streams import BLOCK, GAIN, STEREO, descriptors, frame, leb, obu

UNITS = (2000, 9000)
OUT_OF_MEMORY = 3
MOST_REQUESTS = 10_000


def with_blocks(units):
    block = obu(BLOCK, leb(GAIN) + b"\x08\x08\x00\x00\x00")
    return descriptors(8, 16, STEREO) + (block + frame(0, 32)) * units


def with_delimiters(units):
    with open(os.path.join(TOP, "samples", "one_unit.iamf"), "rb") as sample:
        data = sample.read()
    return data[:66] + data[-36:] * units


def write(folder, data):
    path = os.path.join(folder, "stream.iamf")
    with open(path, "wb") as out:
        out.write(data)
    return path


def count(inside, path):
    told = inside.run(["check"], path)
    if told.status != 0:
        raise Fails(f"check ended with {told.status}")
    return told.requests


def first_without_effect(inside, path):
    """The least number of a request that may be refused while the run ends with 0."""
    for number in range(1, MOST_REQUESTS):
        status = inside.run(["check"], path, refused=number).status
        if status == 0:
            return number
        if status != OUT_OF_MEMORY:
            raise Fails(f"check ended with {status} where request {number} got no memory")
    raise Fails(f"check made {MOST_REQUESTS} requests")


def report(folder, _):
    inside = Inside(folder)
    head("units", "requests for memory", "first request that may be refused while the status is 0")
    figures = []
    for units in UNITS:
        counted = count(inside, write(folder, with_blocks(units)))
        figures.append((counted, first_without_effect(inside, write(folder, with_delimiters(units)))))
        row(str(units), *map(str, figures[-1]))
    if len(set(figures)) != 1:
        raise Fails("the figures differ")


if __name__ == "__main__":
    run_script("bench/allocations.py", report)
