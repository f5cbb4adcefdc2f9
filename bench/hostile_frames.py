#!/usr/bin/env python3
"""Measures how the time of `check` grows on hostile FLAC frames; prints a Markdown table for docs/BENCHMARKS.md.

Usage: bench/hostile_frames.py [--quick]
Some small frames claim more than they hold, and have to be refused at once. The others are long runs of the same bits in one
frame, and many short frames of very many samples: they are measured at a size and at twice that size, and have to be refused
by code 44 or accepted. All are mono, 16 bits. The program is $IAMF_TOOL, or the proved one that the launcher built. --quick
takes smaller sizes. It ends with 1 where an answer is wrong, and with 0 else, whatever was measured.
"""

import os
import subprocess
import time
from collections import namedtuple

import streams
from run import MIB, NO_RUN, PROGRAM, Fails, Run, better, figure, heads_of_figures, run_script

RUNS = 5
GROWTH_LIMIT = 2.5
AT_ONCE = 0.05
LONGEST = 65535
DIVISIBLE = 32768
QUICK = 16
REFUSED = "44"

# Of a case's number the frames are made, so many times over; `length` is how many samples they have, or claim.
Case = namedtuple("Case", "name make number times accepted length", defaults=(LONGEST,))


def checksum(data, polynomial, width):
    """The remainder of the bytes, most significant bit first, as FLAC has it."""
    top, mask = 1 << (width - 1), (1 << width) - 1
    table = []
    for byte in range(256):
        value = byte << (width - 8)
        for _ in range(8):
            value = (value << 1 ^ (polynomial if value & top else 0)) & mask
        table.append(value)
    value = 0
    for byte in data:
        value = (value << 8 & mask) ^ table[value >> (width - 8) ^ byte]
    return value.to_bytes(width // 8, "big")


def head(length):
    fields = b"\xff\xf8\x70\x08\x00" + (length - 1).to_bytes(2, "big")
    return fields + checksum(fields, 0x07, 8)


def packed(bits):
    """Characters 0 and 1 as bytes, with zero bits up to a byte."""
    bits += "0" * (-len(bits) % 8)
    return int(bits, 2).to_bytes(len(bits) // 8, "big")


def frame(bits, length=LONGEST):
    """A whole frame of one subframe."""
    body = head(length) + packed(bits)
    return body + checksum(body, 0x8005, 16)


def residual(bits, order, partitions):
    """A fixed subframe of order 0, whose residual has 2^`partitions` partitions, and these bits."""
    return "0" + f"{8 + order:06b}" + "0" + "00" + f"{partitions:04b}" + bits


def constant(value=1):
    return "00000000" + f"{value:016b}"


def quotients(number):
    """A residual for each sample, so that the frame has about so many bytes."""
    each = number * 8 // LONGEST
    return residual("0000" + ("0" * (each - 1) + "1") * LONGEST, 0, 0)


SMALL = [
    Case("65535 samples in ten bytes", lambda n: head(LONGEST) + b"\x12\x00", 1, 1, False),
    Case("a predictor of order 32 in ten bytes", lambda n: head(LONGEST) + b"\x7e\x00", 1, 1, False),
    Case("partitions that do not divide the block", lambda n: frame(residual("0" * 64, 0, 15)), 1, 1, False),
    Case("partitions that are shorter than the order",
         lambda n: frame("0" + f"{8 + 4:06b}" + "0" + "0" * 64 + "00" + "1111", DIVISIBLE), 1, 1, False, DIVISIBLE),
    Case("a quotient too large", lambda n: frame(residual("1110" + "0" * 200_000 + "1", 0, 0)), 1, 1, False),
]
CASES = [
    Case("zeros of a quotient to the end", lambda n: frame(residual("0000" + "0" * (8 * n), 0, 0)), MIB - 64, 1, False),
    Case("zeros of wasted bits to the end", lambda n: frame("00000001" + "0" * (8 * n)), MIB - 64, 1, False),
    Case("zeros after the frame", lambda n: frame(constant()) + bytes(n), MIB - 64, 1, False),
    Case("a long quotient for each sample", lambda n: frame(quotients(n)), MIB - 8192, 1, True),
    Case("frames of a constant, 65535 samples each", lambda n: frame(constant()), 1, 1000, True),
    Case("frames of a partition for each sample",
         lambda n: frame(residual("00000001" * DIVISIBLE, 0, 15), DIVISIBLE), 1, 50, True, DIVISIBLE),
    Case("frames of an escape of no bits for each sample",
         lambda n: frame(residual("111100000" * DIVISIBLE, 0, 15), DIVISIBLE), 1, 50, True, DIVISIBLE),
]


def descriptors(length):
    info = length.to_bytes(2, "big") * 2 + bytes(6) + bytes.fromhex("0bb800f000000000") + bytes(16)
    config = streams.obu(streams.CODEC, b"\x00fLaC" + streams.leb(length) + b"\x00\x00" + b"\x80\x00\x00\x22" + info)
    return (streams.header() + config + streams.scalable(1, [0], streams.MONO)
            + streams.obu(streams.MIX, streams.mix_payload(1, 1)))


def run_check(path):
    """How `check` ends on a file, with what it says, and what it takes."""
    with open(path, "rb") as source:
        begun = time.perf_counter()
        child = subprocess.Popen([PROGRAM, "check"], stdin=source, stdout=subprocess.PIPE, stderr=subprocess.STDOUT)
        said = child.stdout.read().decode("utf-8", "replace")
        _, status, usage = os.wait4(child.pid, 0)
        seconds = time.perf_counter() - begun
    child.stdout.close()
    child.returncode = os.waitstatus_to_exitcode(status)
    return child.returncode, said, Run(seconds, usage.ru_utime + usage.ru_stime, 0)


def measure(folder, case, number, times):
    """The best run, and how many bytes the frames have."""
    first = descriptors(case.length)
    unit = streams.obu(streams.FIRST_FRAME, case.make(number))
    path = os.path.join(folder, "hostile.iamf")
    with open(path, "wb") as out:
        out.write(first + unit * times)
    best = NO_RUN
    for _ in range(RUNS):
        status, said, run = run_check(path)
        best = better(best, run)
    answer = f"\nunits {times}\n" in said if case.accepted else status == 1 and said == f"refused {len(first)} {REFUSED}\n"
    if not answer or (status == 0) != case.accepted:
        raise Fails(f"{case.name}: status {status}, {said}")
    return best, len(unit) * times


def report(folder, quick):
    heads_of_figures()
    for case in SMALL:
        best, length = measure(folder, case, case.number, case.times)
        figure(f"{case.name}, {length} bytes", f"{best.cpu:.3f} s", f"below {AT_ONCE} s", best.cpu < AT_ONCE)
    for case in CASES:
        less = QUICK if quick else 1
        numbers = [(case.number, case.times // less), (case.number, 2 * case.times // less)]
        if case.times == 1:
            numbers = [(case.number // less, 1), (2 * case.number // less, 1)]
        (once, length), (twice, longer) = (measure(folder, case, *number) for number in numbers)
        growth = twice.cpu / max(once.cpu, 1e-6)
        figure(f"{case.name}, {length} and {longer} bytes: growth", f"{once.cpu:.3f} s, {twice.cpu:.3f} s, {growth:.2f} times",
               f"below {GROWTH_LIMIT}", growth < GROWTH_LIMIT)


if __name__ == "__main__":
    run_script("bench/hostile_frames.py", report)
