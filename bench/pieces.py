#!/usr/bin/env python3
"""Measures `check` on streams that come in small pieces; prints a Markdown table for docs/BENCHMARKS.md.

Usage: bench/pieces.py [--quick]
First one long OBU comes byte by byte, of 0.5, 1 and 2 MiB; then the streams of hostile.py, at a size and at twice that size, in
pieces of 1, of 1000 and of 65536 bytes. Pieces up to 4096 bytes go through a pipe that keeps each write apart, so that each
read gives one; the longest go through an ordinary pipe. Time is the processor's for the program and its reads, the least of
some runs. The program is $IAMF_TOOL, or the proved one that the launcher built. --quick takes smaller streams.
It ends with 1 where a run fails or its answer is wrong, and with 0 else, whatever was measured.
"""

import fcntl
import os
import subprocess
import time

import streams
from hostile import CASES, GROWTH_LIMIT, MEMORY_LIMIT
from memory import peak_of, wait_until_read
from run import MIB, NO_RUN, PROGRAM, Fails, Run, better, figure, heads_of_figures, run_script
from sequences import last_lines

RUNS = 3
PACKET = 4096
# So many times fewer of the many things come byte by byte.
FEWER_OF_SINGLE_BYTES = 10
QUICK = 1000


def pipe_of(piece):
    """A pipe that gives pieces as they were written, where it can."""
    reading, writing = os.pipe2(os.O_CLOEXEC | (os.O_DIRECT if piece <= PACKET else 0))
    fcntl.fcntl(writing, fcntl.F_SETPIPE_SZ, MIB)
    return reading, writing


def run_pieces(data, piece, out):
    """What `check` takes of so many bytes at a time."""
    reading, writing = pipe_of(piece)
    begun = time.perf_counter()
    child = subprocess.Popen([PROGRAM, "check"], stdin=reading, stdout=out)
    os.close(reading)
    view = memoryview(data)
    try:
        for at in range(0, len(data), piece):
            os.write(writing, view[at:at + piece])
        wait_until_read(child, writing)
        peak = peak_of(child)
    finally:
        os.close(writing)
    _, status, usage = os.wait4(child.pid, 0)
    seconds = time.perf_counter() - begun
    child.returncode = os.waitstatus_to_exitcode(status)
    if child.returncode != 0:
        raise Fails(f"check ended with {child.returncode} on pieces of {piece} bytes")
    return Run(seconds, usage.ru_utime + usage.ru_stime, peak)


def best_of_pieces(folder, data, piece, stream):
    """The best of some runs, whose reports have to end with the numbers of the stream."""
    path = os.path.join(folder, "report")
    best = NO_RUN
    for _ in range(RUNS):
        with open(path, "wb") as out:
            best = better(best, run_pieces(data, piece, out))
        if not last_lines(path).endswith(f"\nunits {stream.units}\nsamples {stream.samples}\n"):
            raise Fails(f"check counts other units or samples in pieces of {piece} bytes")
    return best


def long_obu(size):
    """The descriptors and one reserved OBU of so many bytes in all."""
    payload = size - 1 - len(streams.leb(size - 4))
    data = streams.descriptors(8, 16, streams.STEREO) + streams.obu(streams.RESERVED, bytes(payload))
    return data, streams.Stream(streams.DESCRIPTORS + 1, 0, 0)


def report_long_obu(folder, quick):
    sizes = [MIB // 16, MIB // 8] if quick else [MIB // 2, MIB, 2 * MIB]
    before = None
    for size in sizes:
        data, stream = long_obu(size)
        best = best_of_pieces(folder, data, 1, stream)
        rate = best.cpu / size * 1e9
        if before:
            growth = best.cpu / before
            figure(f"an OBU of {size / MIB} MiB byte by byte, over half of it",
                   f"{best.cpu:.2f} s, {growth:.2f} times, {rate:.0f} ns a byte", f"below {GROWTH_LIMIT}", growth < GROWTH_LIMIT)
        before = best.cpu


def made(folder, case, number):
    path = os.path.join(folder, "hostile.iamf")
    stream = case.write(path, number)
    with open(path, "rb") as source:
        data = source.read()
    os.remove(path)
    return data, stream


def report_hostile(folder, quick, empty):
    for case in CASES:
        for piece in (1, 1000, 65536):
            number = case.number // (QUICK if quick else FEWER_OF_SINGLE_BYTES if piece == 1 else 1)
            bests, above = [], []
            for many in (number, 2 * number):
                data, stream = made(folder, case, many)
                bests.append(best_of_pieces(folder, data, piece, stream))
                above.append((bests[-1].peak - empty) / stream.obus)
            growth = bests[1].cpu / bests[0].cpu
            name = f"{case.name}, {number} and twice as many, in pieces of {piece}"
            figure(f"{name}: growth", f"{bests[0].cpu:.2f} s, {bests[1].cpu:.2f} s, {growth:.2f} times", f"below {GROWTH_LIMIT}",
                   growth < GROWTH_LIMIT)
            figure(f"{name}: memory", f"{above[0]:.0f} and {above[1]:.0f} bytes an OBU", f"at most {MEMORY_LIMIT}",
                   max(above) <= MEMORY_LIMIT)


def report(folder, quick):
    heads_of_figures()
    report_long_obu(folder, quick)
    with open(os.devnull, "wb") as out:
        empty = run_pieces(streams.descriptors(8, 16, streams.STEREO), 1000, out).peak
    report_hostile(folder, quick, empty)


if __name__ == "__main__":
    run_script("bench/pieces.py", report)
