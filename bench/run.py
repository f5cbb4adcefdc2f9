#!/usr/bin/env python3
"""Measures `list` against a loop in C, and prints Markdown tables for docs/BENCHMARKS.md.

Usage: bench/run.py [--quick]
The program is $IAMF_TOOL, or the proved one that the launcher built. --quick takes smaller streams.
It ends with 1 where a program fails or the two listings differ, and with 0 else, whatever was measured.
"""

import os
import re
import shutil
import subprocess
import sys
import tempfile
import time
from collections import namedtuple

HERE = os.path.dirname(os.path.abspath(__file__))
TOP = os.path.dirname(HERE)
PROGRAM = os.environ.get("IAMF_TOOL", os.path.join(TOP, "crates/iamf_tool/out/iamf_tool"))

# As the launcher has it: with large pages for all commands but `check`. What they are compared with runs with large pages too.
LARGE_PAGES = {"GLIBC_TUNABLES": "glibc.malloc.hugetlb=1"}

MB = 1_000_000
MIB = 1 << 20
RUNS = 5
# Reserved OBUs of type 24: a whole of 1000 bytes, whose size takes two bytes and says 997, and a whole of 2 bytes.
LONG_OBU = bytes([0xC0, 0xE5, 0x07]) + bytes(997)
SHORT_OBU = bytes([0xC0, 0x00])


# The seconds that a run took by the clock, those of the processor for it and the system together, and its peak memory in bytes.
Run = namedtuple("Run", "seconds cpu peak")
NO_RUN = Run(float("inf"), float("inf"), 0)


class Fails(Exception):
    """A program failed, or two listings differ."""


def make_stream(path, obu, size):
    block = obu * (MB // len(obu))
    with open(path, "wb") as stream:
        for _ in range(size // len(block)):
            stream.write(block)
    return path


def compiled(folder, name, source, *flags):
    """The command of a C program of this folder."""
    path = os.path.join(folder, name)
    subprocess.run(["cc", "-O2", *flags, "-o", path, os.path.join(HERE, source)], check=True)
    return [path]


def compile_loop(folder, name, *flags):
    return compiled(folder, name, "list.c", *flags)


def environment(command):
    """The variables that a command runs with; those that are set already stay."""
    return dict(os.environ) if command[-1] == "check" else {**LARGE_PAGES, **os.environ}


def run_once(command, stream, out):
    """Runs a command on a stream, and answers what the run took."""
    variables = environment(command)
    with open(stream, "rb") as source:
        begun = time.perf_counter()
        child = subprocess.Popen(command, stdin=source, stdout=out, env=variables)
        _, status, usage = os.wait4(child.pid, 0)
        seconds = time.perf_counter() - begun
    child.returncode = os.waitstatus_to_exitcode(status)
    if child.returncode != 0:
        raise Fails(f"{command[0]} ended with {child.returncode} on {os.path.basename(stream)}")
    return Run(seconds, usage.ru_utime + usage.ru_stime, usage.ru_maxrss * 1024)


def compare(folder, commands, stream):
    """The two commands have to write the same bytes."""
    paths = [os.path.join(folder, f"listing{i}") for i in range(len(commands))]
    for command, path in zip(commands, paths):
        with open(path, "wb") as out:
            run_once(command, stream, out)
    if subprocess.run(["cmp", *paths], check=False).returncode != 0:
        raise Fails(f"the listings of {os.path.basename(stream)} differ")
    for path in paths:
        os.remove(path)


def better(best, run):
    """The least seconds and the greatest peak of two."""
    return Run(min(best.seconds, run.seconds), min(best.cpu, run.cpu), max(best.peak, run.peak))


def best_of(commands, stream, runs=RUNS, into=os.devnull):
    """For each command the least of its seconds, and its peak memory. The commands take turns."""
    best = [NO_RUN] * len(commands)
    for _ in range(runs):
        for i, command in enumerate(commands):
            with open(into, "wb") as out:
                best[i] = better(best[i], run_once(command, stream, out))
    return best


def count_with_perf(command, stream):
    with open(stream, "rb") as source:
        result = subprocess.run(
            ["perf", "stat", "-x,", "-e", "instructions:u", *command],
            stdin=source, stdout=subprocess.DEVNULL, stderr=subprocess.PIPE, text=True, check=True)
    count = re.search(r"^(\d+),.*instructions", result.stderr, re.M)
    return int(count.group(1)) if count else None


# The C library fills and copies large blocks by one instruction that repeats itself. A processor counts it once, and valgrind
# once a byte; so the library is told to take its loops.
WITHOUT_REPEATS = "glibc.cpu.x86_rep_stosb_threshold=1073741824:glibc.cpu.x86_rep_movsb_threshold=1073741824"


def count_with_callgrind(command, stream):
    with open(stream, "rb") as source:
        result = subprocess.run(
            ["valgrind", "--tool=callgrind", "--callgrind-out-file=/dev/null", *command],
            stdin=source, stdout=subprocess.DEVNULL, stderr=subprocess.PIPE, text=True, check=False,
            env={**os.environ, "GLIBC_TUNABLES": WITHOUT_REPEATS})
    count = re.search(r"Collected : (\d+)", result.stderr)
    if result.returncode != 0 or not count:
        raise Fails(f"valgrind counted nothing for {command[0]}")
    return int(count.group(1))


def counter(stream, command):
    """What counts instructions on this machine, with its name; None where nothing does."""
    if shutil.which("perf"):
        try:
            if count_with_perf(command, stream) is not None:
                return count_with_perf, "perf"
        except subprocess.CalledProcessError:
            pass
    if shutil.which("valgrind"):
        return count_with_callgrind, "callgrind"
    return None


def row(*cells):
    print("| " + " | ".join(cells) + " |")


def head(*cells):
    row(*cells)
    row(*(["---"] * len(cells)))


def met(holds):
    return "met" if holds else "NOT MET"


def heads_of_figures():
    head("what", "figure", "limit", "")


def figure(what, value, limit, holds):
    """A line for one figure, which stands as it is to be read, and its limit."""
    row(what, value, limit, met(holds))


def ratios(what, run, other, limit):
    """Lines for the time of a run over that of another: by the clock and by the processor."""
    for name, one, two in (("by the clock", run.seconds, other.seconds), ("CPU time", run.cpu, other.cpu)):
        figure(f"{what}, {name}", f"{one:.3f} s / {two:.3f} s = {one / two:.2f}", f"at most {limit}", one / two <= limit)


def ffmpeg():
    """The ffmpeg on the path where it reads IAMF, as those from 7.0 on do, and else None, with a line about it."""
    found = shutil.which("ffmpeg")
    if found:
        listing = subprocess.run([found, "-hide_banner", "-demuxers"], capture_output=True, text=True, check=False).stdout
        if re.search(r"^ *D +iamf ", listing, re.M):
            return found
    print("skipped: there is no ffmpeg here that reads IAMF")
    return None


def report_streams(folder, program, loop, sizes):
    head("input", "program, s", "C loop, s", "ratio", "at most 1.5", "ratio of CPU time", "ns a byte",
         "peak memory, MiB", "above the input, MiB", "at most 32")
    rates = []
    for size in sizes:
        stream = make_stream(os.path.join(folder, f"{size}.iamf"), LONG_OBU, size * MB)
        compare(folder, [program, loop], stream)
        run, loop_run = best_of([program, loop], stream)
        ratio = run.seconds / loop_run.seconds
        over = (run.peak - size * MB) / MIB
        rates.append(run.seconds / (size * MB) * 1e9)
        row(f"{size} MB of 1000-byte OBUs", f"{run.seconds:.4f}", f"{loop_run.seconds:.4f}", f"{ratio:.2f}",
            met(ratio <= 1.5), f"{run.cpu / loop_run.cpu:.2f}", f"{rates[-1]:.3f}", f"{run.peak / MIB:.1f}", f"{over:.1f}",
            met(over <= 32))
        os.remove(stream)
    print(f"\nTime a byte, the largest input over the smallest: {rates[-1] / rates[0]:.2f} (1 is the same).\n")


def report_short(folder, program, printf_loop, loop, size):
    stream = make_stream(os.path.join(folder, "short.iamf"), SHORT_OBU, size * MB)
    compare(folder, [program, printf_loop], stream)
    run, printf_run, loop_run = best_of([program, printf_loop, loop], stream)
    ratio = run.seconds / printf_run.seconds
    head("input", "program, s", "printf loop, s", "ratio", "at most 0.6", "C loop, s")
    row(f"{size} MB of 2-byte OBUs", f"{run.seconds:.3f}", f"{printf_run.seconds:.3f}", f"{ratio:.2f}",
        met(ratio <= 0.6), f"{loop_run.seconds:.3f}")
    print()
    os.remove(stream)


def report_instructions(folder, program, loop, sizes):
    probe = make_stream(os.path.join(folder, "probe.iamf"), LONG_OBU, MB)
    found = counter(probe, loop)
    if found is None:
        print("Instructions were not counted: neither perf nor valgrind counts them here.")
        return
    count, name = found
    head("input", f"program, instructions a byte ({name})", "C loop", "at most 2.5")
    for size in sizes if name == "perf" else [5, 50]:
        stream = make_stream(os.path.join(folder, f"{size}.iamf"), LONG_OBU, size * MB)
        rate, loop_rate = (count(command, stream) / (size * MB) for command in (program, loop))
        row(f"{size} MB of 1000-byte OBUs", f"{rate:.3f}", f"{loop_rate:.3f}", met(rate <= 2.5))
        os.remove(stream)


def run_script(name, report):
    """Calls a script's report with a folder for temporary files, and whether `--quick`, its one option, was given."""
    quick = sys.argv[1:] == ["--quick"]
    if sys.argv[1:] and not quick:
        sys.exit(f"usage: {name} [--quick]")
    if not os.access(PROGRAM, os.X_OK):
        sys.exit(f"{name}: no program at {PROGRAM}: run ./iamf_tool once, or set IAMF_TOOL")
    with tempfile.TemporaryDirectory() as folder:
        try:
            report(folder, quick)
        except Fails as fault:
            sys.exit(f"{name}: {fault}")


def report(folder, quick):
    sizes = [5, 50] if quick else [50, 500]
    program = [PROGRAM, "list"]
    loop = compile_loop(folder, "list")
    printf_loop = compile_loop(folder, "list_printf", "-DWITH_PRINTF")
    report_streams(folder, program, loop, sizes)
    report_short(folder, program, printf_loop, loop, 2 if quick else 20)
    report_instructions(folder, program, loop, sizes)


if __name__ == "__main__":
    run_script("bench/run.py", report)
