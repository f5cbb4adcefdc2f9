#!/usr/bin/env python3
"""Measures how time and memory of `demux` grow on hostile MP4 files; prints a Markdown table for docs/BENCHMARKS.md.

Usage: bench/hostile_files.py [--quick]
Some small files have tables that claim up to 2^32 - 1 entries: they have to be refused at once, by the right code. The others
have very many of one thing. Each is measured at a size and at twice that size, and has to be accepted with all of its units,
or refused by the right code. The program is $IAMF_TOOL, or the proved one that the launcher built; it needs `cc`. --quick takes
a thousandth of the sizes. It ends with 1 where an answer is wrong, and with 0 else, whatever was measured.
"""

import os
from collections import namedtuple

import files
from files import UNIT, box, numbers, repeated, table, with_boxes, with_tables
from inside import Inside
from run import MIB, NO_RUN, Fails, better, figure, heads_of_figures, run_script

RUNS = 5
GROWTH_LIMIT = 2.5
ABOVE = 4
AT_ONCE = 0.05
MANY = 1_000_000
MOST = 2 ** 32 - 1
SILENT = box(b"mdia", box(b"minf", box(b"stbl", table(b"stsd", 0, b""))))
PATH = [b"moov", b"trak", b"mdia", b"minf", b"stbl", b"stsd"]

# A file of its number; `code` refuses it, or it has `units` of them, or as many as the number where that is None. Where the sequence
# is refused that is rebuilt out of the file, so many bytes of it for each thing count as output.
Case = namedtuple("Case", "name make code units rebuilt", defaults=(0, None, 0))

CLAIMS = [
    Case("stsz", lambda n: with_tables(1, files.full(b"stsz", numbers(0, MOST))), 74),
    Case("stsz of one size for all", lambda n: with_tables(
        1, files.full(b"stsz", numbers(1, MOST)), table(b"stts", 1, numbers(MOST, 1)), table(b"stsc", 1, numbers(1, MOST, 1))), 76),
    Case("stco", lambda n: with_tables(1, table(b"stco", MOST, b"")), 74),
    Case("stts", lambda n: with_tables(1, table(b"stts", MOST, b"")), 74),
    Case("stts with sums beyond 32 bits", lambda n: with_tables(1, table(b"stts", 2, repeated(2, MOST, 1))), 74),
    Case("stsc", lambda n: with_tables(1, table(b"stsc", MOST, b"")), 74),
    Case("stsc of many samples", lambda n: with_tables(1, table(b"stsc", 1, numbers(1, MOST, 1))), 74),
    Case("stsd", lambda n: with_tables(1, table(b"stsd", MOST, files.entry())), 75),
    Case("elst", lambda n: with_tables(1, before=box(b"edts", table(b"elst", MOST, b""))), 74),
    Case("sgpd", lambda n: with_tables(1, more=files.full(b"sgpd", b"roll", numbers(2, MOST), version=1)), 78),
    Case("sgpd of lengths", lambda n: with_tables(1, more=files.full(b"sgpd", b"roll", numbers(0, MOST), version=1)), 78),
    Case("sbgp", lambda n: with_tables(1, more=files.full(b"sbgp", b"roll", numbers(MOST))), 78),
    Case("sbgp of many samples", lambda n: with_tables(1, more=files.full(b"sbgp", b"roll", numbers(1, MOST, 1))), 78),
]

CASES = [
    Case("empty boxes and no moov", lambda n: files.first_data(b"")[0] + box(b"free") * n, 71),
    Case("empty boxes at the top", with_boxes, units=2),
    Case("empty boxes in moov", lambda n: with_boxes(n, within="moov"), units=2),
    Case("empty tracks", lambda n: with_boxes(n, b"trak", within="moov"), units=2),
    Case("tracks of no sound", lambda n: with_boxes(n, b"trak", SILENT, "moov"), units=2),
    Case("empty boxes in trak", lambda n: with_boxes(n, within="trak"), units=2),
    Case("empty boxes in stbl", lambda n: with_boxes(n, within="stbl"), units=2),
    Case("roll groups without entries", lambda n: with_boxes(n, b"sbgp", bytes(4) + b"roll" + bytes(4), "stbl"), units=2),
    Case("empty boxes in the sample entry", lambda n: with_boxes(n, within="entry"), units=2),
    Case("edits without entries", lambda n: with_boxes(n, b"elst", bytes(8), "edts"), units=2),
    Case("boxes in boxes, each to the end", lambda n: files.nested(n, PATH), 71),
    Case("moov in moov, each to the end", lambda n: files.nested(n, [b"moov"]), 71),
    Case("tracks in tracks, each to the end", lambda n: files.nested(n, [b"moov", b"trak"]), 71),
    Case("samples of one byte, a chunk each", lambda n: files.chunks_of(b"\x30" * n, n, 1, 1), 79),
    Case("empty samples, a chunk each", lambda n: files.chunks_of(b"", n, 0, 0), 39, rebuilt=2),
    Case("units of four bytes, a chunk each", lambda n: files.chunks_of(UNIT * n, n, 4, 4)),
    Case("chunks in one place", lambda n: files.chunks_of(UNIT, n, 4, 0)),
    Case("a run of stsc for each chunk", lambda n: with_tables(
        n, table(b"stsc", n, b"".join(numbers(1 + i, 1, 1) for i in range(n))))),
    Case("a run of stts for each sample", lambda n: with_tables(n, table(b"stts", n, repeated(n, 1, 1)))),
    Case("runs of stts without samples", lambda n: with_tables(2, table(b"stts", n + 1, repeated(n, 0, 1) + numbers(2, 1))), units=2),
    Case("a group of sbgp for each sample", lambda n: with_tables(
        n, more=files.full(b"sbgp", b"roll", numbers(n), repeated(n, 1, 0)))),
    Case("entries of sgpd", lambda n: with_tables(
        2, more=files.full(b"sgpd", b"roll", numbers(0, n), (numbers(2) + bytes(2)) * n, version=1)), units=2),
]


def expect_answer(inside, folder, case, number, told, written):
    """The status and the code have to be those of the case, and the output has to have its units."""
    wanted = f"code {case.code}" if case.code else "acceptance"
    if case.code and (told.status != 1 or told.notes.split()[-1] != str(case.code)) or not case.code and told.status != 0:
        raise Fails(f"demux of {case.name}: status {told.status}, {told.notes}, and not {wanted}")
    if case.code:
        return
    path = os.path.join(folder, "report")
    inside.run(["check"], written, path)
    with open(path, encoding="ascii") as lines:
        units = number if case.units is None else case.units
        if f"\nunits {units}\n" not in lines.read():
            raise Fails(f"demux of {case.name} gives other units than {units}")


def measure(inside, folder, case, number):
    """The best run, and the peak memory above the file and the output."""
    path, written = os.path.join(folder, "hostile.mp4"), os.path.join(folder, "written.iamf")
    with open(path, "wb") as out:
        out.write(case.make(number))
    best = NO_RUN
    for _ in range(RUNS):
        told = inside.run(["demux"], path, written)
        best = better(best, told.run)
    expect_answer(inside, folder, case, number, told, written)
    return best, (best.peak - os.path.getsize(path) - os.path.getsize(written) - number * case.rebuilt) / MIB


def report(folder, quick):
    inside = Inside(folder)
    heads_of_figures()
    for case in CLAIMS:
        best, above = measure(inside, folder, case, 1)
        figure(f"a claim of too much: {case.name}", f"{best.cpu:.3f} s, {above:.1f} MiB", f"below {AT_ONCE} s, {ABOVE} MiB",
               best.cpu < AT_ONCE and above < ABOVE)
    for case in CASES:
        number = MANY // 1000 if quick else MANY
        (once, above), (twice, more) = (measure(inside, folder, case, many) for many in (number, 2 * number))
        growth = twice.cpu / max(once.cpu, 1e-6)
        figure(f"{number} {case.name}: growth", f"{once.cpu:.3f} s, {twice.cpu:.3f} s, {growth:.2f} times", f"below {GROWTH_LIMIT}",
               growth < GROWTH_LIMIT)
        figure(f"{number} {case.name}: memory above file and output", f"{above:.1f} and {more:.1f} MiB", f"at most {ABOVE}",
               max(above, more) <= ABOVE)


if __name__ == "__main__":
    run_script("bench/hostile_files.py", report)
