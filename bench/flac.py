#!/usr/bin/env python3
"""Measures `check` on FLAC against `flac -t` on the same frames, and prints Markdown tables for docs/BENCHMARKS.md.

Usage: bench/flac.py [--quick]
Sound of several tones and noise is coded by the stock encoder `flac` at 24 bits, one stream for each substream: stereo, and 7.1.4 in
three layers. Its frames become one sequence. `check` reads the sequence, and `flac -t` the streams one after the other.
The program is $IAMF_TOOL, or the proved one that the launcher built. It needs `flac`, and counts instructions by valgrind.
It ends with 1 where a run fails or its answer is wrong, and with 0 else, whatever was measured.
"""

import math
import os
import random
import re
import shutil
import struct
import subprocess
import sys
import time

import streams
from run import (NO_RUN, PROGRAM, RUNS, Fails, Run, better, count_with_callgrind, figure, heads_of_figures, ratios, row, run_once,
                 run_script)

DEPTH = 24
LEVEL = "-5"
RATIO_LIMIT = 0.7
INSTRUCTIONS_LIMIT = 75
BLOCK_SIZES = (1024, 4096)
CASES = [("stereo", streams.STEREO), ("7.1.4 in three layers", streams.THREE_LAYERS)]
# The seconds of sound that are made; longer streams have it several times.
PERIOD = 2


def channels_of(layers):
    """The channels of each substream."""
    return [2 if i < coupled else 1 for _, count, coupled in layers for i in range(count)]


def sound(seed, channels):
    """The bytes of PERIOD seconds: some partials that differ by channel, under noise that is 60 dB lower."""
    noise = random.Random(seed)
    half = 1 << (DEPTH - 1)
    rows = []
    for channel in range(channels):
        base = 110 * (1 + seed / 7) * (1 + channel / 90)
        partials = [(base * k, 0.3 / k ** 1.3, noise.uniform(0, 6)) for k in (1, 2, 3, 5, 8, 13)]
        row_of = []
        for n in range(PERIOD * streams.RATE):
            swell = 0.6 + 0.4 * math.sin(n / 9000 + seed)
            value = swell * sum(a * math.sin(2 * math.pi * f * n / streams.RATE + p) for f, a, p in partials) + noise.gauss(0, 0.001)
            row_of.append(max(-half, min(half - 1, int(value * half * 0.7))))
        rows.append(row_of)
    return b"".join(rows[c][n].to_bytes(3, "little", signed=True) for n in range(len(rows[0])) for c in range(channels))


def wave(data, channels):
    size = DEPTH // 8
    head_of = struct.pack("<IHHIIHH", 16, 1, channels, streams.RATE, streams.RATE * channels * size, channels * size, DEPTH)
    return b"RIFF" + struct.pack("<I", 36 + len(data)) + b"WAVEfmt " + head_of + b"data" + struct.pack("<I", len(data)) + data


def coded(folder, name, data, channels, block):
    """A coded stream: its path, its metadata blocks and its frames."""
    source, stream, analysis = (os.path.join(folder, name + end) for end in (".wav", ".flac", ".txt"))
    with open(source, "wb") as file:
        file.write(wave(data, channels))
    quiet = {"stdout": subprocess.DEVNULL, "stderr": subprocess.DEVNULL, "check": True}
    subprocess.run(["flac", "-f", "-s", LEVEL, "-b", str(block), "--no-padding", "--no-seektable", "-o", stream, source], **quiet)
    subprocess.run(["flac", "-a", "-f", "-s", "-o", analysis, stream], **quiet)
    with open(stream, "rb") as file:
        whole = file.read()
    with open(analysis, encoding="ascii") as lines:
        found = re.findall(r"^frame=\d+\toffset=(\d+)\tbits=(\d+)\tblocksize=(\d+)", lines.read(), re.M)
    os.remove(source)
    os.remove(analysis)
    places = [(int(at), int(bits) // 8, int(size)) for at, bits, size in found]
    return stream, whole[4:places[0][0]], [whole[at:at + size] for at, size, length in places if length == block]


def parts_of(layers, block, metadata, substreams):
    """The descriptors of a sequence, and its units, each with a frame of each substream."""
    codec = streams.obu(streams.CODEC, b"\x00fLaC" + streams.leb(block) + b"\x00\x00" + metadata)
    first = (streams.header() + codec + streams.scalable(1, list(range(len(substreams))), layers)
             + streams.obu(streams.MIX, streams.mix_payload(1, 1)))
    units = [b"".join(streams.obu(streams.FIRST_FRAME + i, frame) for i, frame in enumerate(unit)) for unit in zip(*substreams)]
    return first, units


def made(folder, name, layers, block, sounds, periods):
    """A sequence, the streams of its substreams, and how many samples it has."""
    parts = [coded(folder, f"{name}{i}", data * periods, channels, block) for i, (data, channels) in enumerate(sounds)]
    path = os.path.join(folder, name + ".iamf")
    first, each = parts_of(layers, block, parts[0][1], [frames for _, _, frames in parts])
    with open(path, "wb") as out:
        out.write(first)
        out.writelines(each)
    units = len(each)
    samples = units * block * sum(channels for _, channels in sounds)
    with open(os.path.join(folder, "report"), "wb+") as report_of:
        run_once([PROGRAM, "check"], path, report_of)
        report_of.seek(0)
        if not report_of.read().decode().endswith(f"\nunits {units}\nsamples {units * block}\n"):
            raise Fails(f"check counts other units or samples in {name}")
    return path, [stream for stream, _, _ in parts], samples


def run_flac(option, paths):
    """What `flac` takes for all streams, one after the other; what it writes goes nowhere."""
    seconds = cpu = peak = 0
    for path in paths:
        begun = time.perf_counter()
        child = subprocess.Popen(["flac", option, "-c", "-s", path] if option == "-d" else ["flac", option, "-s", path],
                                 stdout=subprocess.DEVNULL, stderr=subprocess.DEVNULL)
        _, status, usage = os.wait4(child.pid, 0)
        seconds += time.perf_counter() - begun
        cpu += usage.ru_utime + usage.ru_stime
        peak = max(peak, usage.ru_maxrss * 1024)
        child.returncode = os.waitstatus_to_exitcode(status)
        if child.returncode != 0:
            raise Fails(f"flac {option} ended with {child.returncode}")
    return Run(seconds, cpu, peak)


def measure(path, parts):
    """The best runs of `check` and of `flac -t`, in turns."""
    checking = testing = NO_RUN
    for _ in range(RUNS):
        with open(os.devnull, "wb") as out:
            checking = better(checking, run_once([PROGRAM, "check"], path, out))
        testing = better(testing, run_flac("-t", parts))
    return checking, testing


def report(folder, quick):
    if not shutil.which("flac"):
        sys.exit("bench/flac.py: there is no flac here")
    sizes = [2, 4] if quick else [20, 60]
    heads_of_figures()
    for name, layers in CASES:
        sounds = [(sound(i, channels), channels) for i, channels in enumerate(channels_of(layers))]
        for block in BLOCK_SIZES:
            for seconds in sizes:
                what = f"{name}, {block} samples a frame, {seconds} s"
                path, parts, samples = made(folder, "sound", layers, block, sounds, seconds // PERIOD)
                checking, testing = measure(path, parts)
                ratios(f"{what}: check / flac -t", checking, testing, RATIO_LIMIT)
                row(f"{what}: CPU time", f"{checking.cpu / samples * 1e9:.2f} ns a sample", "", "")
                if shutil.which("valgrind") and (seconds == sizes[0] or quick):
                    each = count_with_callgrind([PROGRAM, "check"], path) / samples
                    figure(f"{what}: instructions a sample", f"{each:.1f}", f"at most {INSTRUCTIONS_LIMIT}",
                           each <= INSTRUCTIONS_LIMIT)
                for made_file in [path, *parts]:
                    os.remove(made_file)


if __name__ == "__main__":
    run_script("bench/flac.py", report)
