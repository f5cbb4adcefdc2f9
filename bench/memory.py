#!/usr/bin/env python3
"""Measures how much memory `check` needs of long inputs, and prints Markdown for docs/BENCHMARKS.md.

Usage: bench/memory.py [--quick]
Each input comes from a pipe that this script writes: in blocks, and once its first 100 kB byte by byte. When all is read and
the pipe is still open, the system is asked for the greatest resident size; then the pipe is closed, and the report has to be
of all units. FLAC is two seconds of sound by the stock encoder `flac`, again and again; where it is not there, those lines are
left out. The program is $IAMF_TOOL, or the proved one that the launcher built. --quick takes a hundredth of the sizes.
It ends with 1 where a run fails, its answer is wrong or it needs more than its limit, and with 0 else.
"""

import array
import fcntl
import shutil
import subprocess
import sys
import tempfile
import termios
import time

import flac
import streams
from run import MB, MIB, PROGRAM, Fails, head, met, row

ABOVE_EMPTY = 12 * MIB
SIZES = [50 * MB, 500 * MB, 1000 * MB]
SINGLE_BYTES = 100_000
BLOCK = MIB
FLAC_BLOCK = 1024
QUICK = 100


def peak_of(process):
    """The greatest resident size of a process that still runs, in bytes."""
    with open(f"/proc/{process.pid}/status") as status:
        for line in status:
            if line.startswith("VmHWM:"):
                return int(line.split()[1]) * 1024
    raise Fails("the system tells no greatest resident size")


def wait_until_read(process, pipe):
    """Waits until nothing is left in the pipe that a process reads."""
    left = array.array("i", [1])
    fcntl.ioctl(pipe, termios.FIONREAD, left)
    while left[0] != 0:
        if process.poll() is not None:
            raise Fails(f"the program ended with {process.returncode} before it had read all")
        time.sleep(0.01)
        fcntl.ioctl(pipe, termios.FIONREAD, left)
    time.sleep(0.05)


def write_units(pipe, first, unit, units, single):
    """Writes the descriptors and so many units, the first `single` bytes one by one."""
    block = unit * max(1, BLOCK // len(unit))
    begun = first + unit * min(units, single // len(unit) + 1)
    left = units - min(units, single // len(unit) + 1)
    for at in range(min(single, len(begun))):
        pipe.write(begun[at:at + 1])
    pipe.write(begun[single:])
    per_block = len(block) // len(unit)
    for _ in range(left // per_block):
        pipe.write(block)
    pipe.write(unit * (left % per_block))


def measure(first, unit, units, single=0):
    """The peak of `check` on the descriptors and so many units, and what it wrote."""
    # The empty input is refused, which is no matter here.
    process = subprocess.Popen([PROGRAM, "check"], stdin=subprocess.PIPE, stdout=subprocess.PIPE, stderr=subprocess.DEVNULL, bufsize=0)
    write_units(process.stdin, first, unit, units, single)
    wait_until_read(process, process.stdin)
    peak = peak_of(process)
    written, _ = process.communicate()
    return peak, written, process.returncode


def flac_parts():
    """Of stereo FLAC, 24 bits: the descriptors, and a piece of some units with their number."""
    with tempfile.TemporaryDirectory() as folder:
        _, metadata, frames = flac.coded(folder, "sound", flac.sound(0, 2), 2, FLAC_BLOCK)
    first, units = flac.parts_of(streams.STEREO, FLAC_BLOCK, metadata, [frames])
    return first, b"".join(units), len(units)


def report(quick):
    layered, layered_unit, _ = streams.layered_parts()
    sources = [("7.1.4 LPCM", layered, layered_unit, 1)]
    if shutil.which("flac"):
        sources.append(("stereo FLAC", *flac_parts()))
    else:
        print("skipped: there is no flac here")
    empty, _, _ = measure(b"", b"\0", 0)
    missed = False
    head("stream", "MB", "written", "peak, MiB", "above an empty input, MiB", f"at most {ABOVE_EMPTY // MIB}")
    for name, first, piece, of_piece in sources:
        cases = [(size // QUICK if quick else size, 0) for size in SIZES]
        for size, single in [*cases, (cases[0][0], SINGLE_BYTES)]:
            pieces = max(1, (size - len(first)) // len(piece))
            peak, written, status = measure(first, piece, pieces, single)
            if status != 0 or f"\nunits {pieces * of_piece}\n".encode() not in written:
                raise Fails(f"check ended with {status} on {name} of {pieces * of_piece} units")
            within = peak - empty <= ABOVE_EMPTY
            missed = missed or not within
            row(name, f"{len(piece) * pieces / MB:.0f}", f"its first {single} bytes one by one" if single else "in blocks",
                f"{peak / MIB:.1f}", f"{(peak - empty) / MIB:.1f}", met(within))
    return missed


if __name__ == "__main__":
    try:
        sys.exit(1 if report("--quick" in sys.argv[1:]) else 0)
    except Fails as fault:
        print(fault, file=sys.stderr)
        sys.exit(1)
