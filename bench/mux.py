#!/usr/bin/env python3
"""Measures `mux` and `demux` against `ffmpeg -c copy`; prints a Markdown table for docs/BENCHMARKS.md.

Usage: bench/mux.py [--quick]
The stream is LPCM of 7.1.4 in three layers, 24 bits and 1024 samples a frame, 500 MB; the file is that which `mux` writes of it.
Both programs read from the disk's cache and write a file. Beside them stands what it takes to copy the same bytes by `cat`, and to
hold them whole before they are written (hold.c). What `demux` writes has to have the report of the stream, and `mux`
has to write the same file of it. The program is $IAMF_TOOL, or the proved one that the launcher built; instructions are
counted by valgrind on 20 MB. --quick takes smaller streams. It ends with 1 where a run fails or its answer is wrong, and with
0 else, whatever was measured.
"""

import os
import shutil

import streams
from run import (MB, MIB, NO_RUN, PROGRAM, Fails, better, compiled, count_with_callgrind, ffmpeg, figure, heads_of_figures, ratios, row,
                 run_once, run_script)
from sequences import last_lines, same_files

RUNS = 5
TIME_LIMIT = 0.33
INSTRUCTIONS_LIMIT = 2.2
ABOVE = 4


def write_by(command, source, path):
    """Runs a command into a file, and answers what it took."""
    with open(path, "wb") as out:
        return run_once(command, source, out)


def write(command, source, path):
    return write_by([PROGRAM, command], source, path)


def expect_both_ways(folder, stream_of, stream, file):
    """`demux` has to give the units back, and `mux` to write the file of that again."""
    back, again = os.path.join(folder, "back.iamf"), os.path.join(folder, "again")
    write("mux", stream_of, file)
    write("demux", file, back)
    write("check", back, again)
    if not last_lines(again).endswith(f"\nunits {stream.units}\nsamples {stream.samples}\n"):
        raise Fails("what demux writes has other units or samples")
    write("mux", back, again)
    if not same_files(file, again):
        raise Fails("mux writes another file of what demux writes")
    os.remove(back)
    os.remove(again)


def copy_command(program, source, path, kind):
    """The command by which ffmpeg writes the same streams and groups into a file of another kind."""
    substreams = range(sum(count for _, count, _ in streams.THREE_LAYERS))
    numbers = [word for i in substreams for word in ("-streamid", f"{i}:{i}")]
    element = "map=0=0" + "".join(f":st={i}" for i in substreams)
    return [program, "-nostdin", "-v", "error", "-y", "-i", source, "-map", "0", "-c", "copy", *numbers, "-stream_group", element,
            "-stream_group", "map=0=1:stg=0", "-f", kind, path]


def measure(folder, command, source, floors, copy):
    """The best runs of the program, of the commands that only copy, and of ffmpeg, in turns, and how long the program's output is."""
    out = os.path.join(folder, "written")
    ours, *least = [NO_RUN] * (1 + len(floors))
    theirs = NO_RUN
    for _ in range(RUNS):
        ours = better(ours, write(command, source, out))
        length = os.path.getsize(out)
        os.remove(out)
        for i, floor in enumerate(floors):
            least[i] = better(least[i], write_by(floor, source, out))
            os.remove(out)
        if copy:
            with open(os.devnull, "wb") as nowhere:
                theirs = better(theirs, run_once(copy, os.devnull, nowhere))
            os.remove(copy[-1])
    return ours, least, theirs, length


def report_instructions(folder, size):
    path, file = os.path.join(folder, "small.iamf"), os.path.join(folder, "small.mp4")
    streams.layered(path, size * MB)
    write("mux", path, file)
    for command, source in (("mux", path), ("demux", file)):
        each = count_with_callgrind([PROGRAM, command], source) / os.path.getsize(source)
        figure(f"{command}: instructions a byte, {size} MB", f"{each:.3f}", f"at most {INSTRUCTIONS_LIMIT}",
               each <= INSTRUCTIONS_LIMIT)


def report(folder, quick):
    size = 5 if quick else 500
    path, file = os.path.join(folder, "layered.iamf"), os.path.join(folder, "layered.mp4")
    stream = streams.layered(path, size * MB)
    expect_both_ways(folder, path, stream, file)
    program = ffmpeg()
    floors = [["cat"], compiled(folder, "hold", "hold.c")]
    heads_of_figures()
    for command, source, kind in (("mux", path, "mp4"), ("demux", file, "iamf")):
        copy = copy_command(program, source, os.path.join(folder, f"copied.{kind}"), kind) if program else None
        ours, least, theirs, written = measure(folder, command, source, floors, copy)
        if program:
            ratios(f"{command} of {size} MB / ffmpeg -c copy", ours, theirs, TIME_LIMIT)
        for name, run in zip(("cat", "a C program that holds it whole"), least):
            row(f"the input of {command} written by {name}", f"{run.seconds:.3f} s, CPU {run.cpu:.3f} s", "", "")
        above, limit = (ours.peak - os.path.getsize(source)) / MIB, written / MIB + ABOVE
        figure(f"{command}: peak memory above the input", f"{above:.1f} MiB", f"the output and {ABOVE}: {limit:.1f}", above <= limit)
    if shutil.which("valgrind"):
        report_instructions(folder, 2 if quick else 20)


if __name__ == "__main__":
    run_script("bench/mux.py", report)
