#!/usr/bin/env python3
"""Measures `check` and `canon` against `list`, and prints a Markdown table for docs/BENCHMARKS.md.

Usage: bench/sequences.py [--quick]
The stream is LPCM of 7.1.4 in three layers, 24 bits and 1024 samples a frame, 500 MB. All three commands read the same file
and take turns. `check` is measured too against `ffmpeg`, which copies the packets of the same stream to nowhere. The program is
$IAMF_TOOL, or the proved one that the launcher built; each command is measured against $IAMF_EARLIER, an earlier program, where
that is set. --quick takes a smaller stream.
It ends with 1 where a run fails or its answer is wrong, and with 0 else, whatever was measured.
"""

import os

import streams
from run import MB, MIB, PROGRAM, Fails, best_of, ffmpeg, figure, heads_of_figures, ratios, row, run_once, run_script

CHECK_LIMIT = 1.5
CANON_LIMIT = 1.8
# How many times as fast as ffmpeg `check` has to be.
FFMPEG_LIMIT = 4
EARLIER = os.environ.get("IAMF_EARLIER")


def last_lines(path):
    """The last two lines of a file, and the end of the one before them; the rest is not read."""
    with open(path, "rb") as lines:
        lines.seek(max(0, os.path.getsize(path) - 100))
        return lines.read().decode()


def same_files(one, other):
    with open(one, "rb") as a, open(other, "rb") as b:
        while True:
            piece = a.read(65536)
            if piece != b.read(65536):
                return False
            if not piece:
                return True


def expect_accepted(folder, path, stream):
    """`check` has to count the stream's units and samples, and `canon` to write the stream, which is canonical."""
    name = os.path.basename(path)
    written = os.path.join(folder, "written")
    with open(written, "wb") as out:
        run_once([PROGRAM, "check"], path, out)
    if not last_lines(written).endswith(f"\nunits {stream.units}\nsamples {stream.samples}\n"):
        raise Fails(f"check counts other units or samples in {name}")
    with open(written, "wb") as out:
        run_once([PROGRAM, "canon"], path, out)
    if not same_files(path, written):
        raise Fails(f"canon writes other bytes than {name}, which is canonical")
    os.remove(written)


def report_ffmpeg(path, size):
    """The time that `ffmpeg` takes to part the stream into packets, over that of `check`, and over a mere read in the same pieces."""
    program = ffmpeg()
    if not program:
        return
    copy = [program, "-nostdin", "-v", "error", "-f", "iamf", "-i", "-", "-c", "copy", "-f", "null", "-"]
    read = ["dd", "bs=65536", f"of={os.devnull}", "status=none"]
    checking, copying, reading = best_of([[PROGRAM, "check"], copy, read], path)
    print()
    heads_of_figures()
    for name, one, two in (("by the clock", checking.seconds, copying.seconds), ("CPU time", checking.cpu, copying.cpu)):
        figure(f"check of {size} MB over ffmpeg -c copy, throughput, {name}", f"{two:.3f} s / {one:.3f} s = {two / one:.2f}",
               f"at least {FFMPEG_LIMIT}", two / one >= FFMPEG_LIMIT)
    row(f"a read of the {size} MB alone, by dd, over ffmpeg -c copy", f"{copying.seconds:.3f} s / {reading.seconds:.3f} s = "
        f"{copying.seconds / reading.seconds:.2f}", "", "")


def report_earlier(path, size):
    """The times of the commands, over those of an earlier program."""
    for command in ("list", "check", "canon"):
        now, earlier = best_of([[PROGRAM, command], [EARLIER, command]], path)
        ratios(f"{command} / {command} of the earlier program, {size} MB", now, earlier, 1)


def report(folder, quick):
    size = 5 if quick else 500
    path = os.path.join(folder, "layered.iamf")
    stream = streams.layered(path, size * MB)
    expect_accepted(folder, path, stream)
    length = os.path.getsize(path)
    listing, checking, writing = best_of([[PROGRAM, command] for command in ("list", "check", "canon")], path)
    heads_of_figures()
    ratios(f"check / list, {size} MB of 7.1.4, {stream.obus} OBUs", checking, listing, CHECK_LIMIT)
    ratios(f"canon / list, {size} MB of 7.1.4, {stream.obus} OBUs", writing, listing, CANON_LIMIT)
    row("check: peak memory", f"{checking.peak / MIB:.1f} MiB", "", "")
    row("canon: peak memory above the input", f"{(writing.peak - length) / MIB:.1f} MiB", "", "")
    if EARLIER:
        report_earlier(path, size)
    report_ffmpeg(path, size)


if __name__ == "__main__":
    run_script("bench/sequences.py", report)
