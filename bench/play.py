#!/usr/bin/env python3
"""Measures `play`; prints a Markdown table for docs/BENCHMARKS.md.

Usage: bench/play.py [--quick]
The sound is 7.1.4 in three layers (stereo, 5.1.2, 7.1.4), 24 bits, 1024 samples a frame, with a demixing block in each unit: two
seconds of it again and again, in LPCM, and in FLAC by the stock encoder `flac`. It is played for each of the three layouts, one
minute and ten minutes long. The time for FLAC is compared with that of `flac -d` for the frames of all substreams, as one stream
for each. The program is $IAMF_TOOL, or the proved one that the launcher built; instructions are counted by valgrind on two
seconds. --quick takes some seconds. It ends with 1 where a run fails or its answer is wrong, and with 0 else.
"""

import os
import shutil
import struct
import sys

import flac
import streams
from inside import Inside
from run import (MIB, NO_RUN, PROGRAM, Fails, better, count_with_callgrind, figure, heads_of_figures, ratios, row, run_once,
                 run_script)

RUNS = 3
DEPTH = 24
FRAME = 1024
PARAMETER = 102
MODES = (0, 4, 1, 5, 2, 6)
TARGETS = [("stereo", 2), ("5.1.2", 8), ("7.1.4", 12)]
# Instructions a sample that is written.
LIMITS = {"LPCM": 110, "FLAC": 190}
TIME_LIMIT = 1.3
ABOVE = 4


def head_of(config):
    substreams = list(range(sum(count for _, count, _ in streams.THREE_LAYERS)))
    element = streams.scalable(1, substreams, streams.THREE_LAYERS, [streams.demixing(PARAMETER, FRAME)])
    return streams.header() + config + element + streams.obu(streams.MIX, streams.mix_payload(1, 1))


def units_of(substreams):
    """The units of frames of each substream, each with a block of demixing first."""
    found = []
    for i, frames in enumerate(zip(*substreams)):
        block = streams.obu(streams.BLOCK, streams.leb(PARAMETER) + bytes([MODES[i % len(MODES)] << 5]))
        found.append(block + b"".join(streams.obu(streams.FIRST_FRAME + k, frame) for k, frame in enumerate(frames)))
    return found


def again(parts, count):
    """So many parts, of which each comes again after the last."""
    whole = b"".join(parts)
    for _ in range(count // len(parts)):
        yield whole
    yield b"".join(parts[:count % len(parts)])


class Lpcm:
    name = "LPCM"

    def __init__(self, sounds):
        frames = []
        for data, channels in sounds:
            size = FRAME * channels * DEPTH // 8
            frames.append([data[at:at + size] for at in range(0, len(data) - size + 1, size)])
        self.head, self.units = head_of(streams.codec(FRAME, DEPTH)), units_of(frames)


class Flac:
    name = "FLAC"

    def __init__(self, folder, sounds):
        self.parts = [flac.coded(folder, f"sound{i}", data, channels, FRAME)[1:] for i, (data, channels) in enumerate(sounds)]
        config = b"\x00fLaC" + streams.leb(FRAME) + b"\x00\x00" + self.parts[0][0]
        self.head = head_of(streams.obu(streams.CODEC, config))
        self.units = units_of([frames for _, frames in self.parts])

    def streams(self, folder, count):
        """The frames of each substream as a stream of its own, without number of samples and checksum."""
        paths = []
        for i, (metadata, frames) in enumerate(self.parts):
            info = bytearray(metadata)
            info[17] &= 0xF0
            info[18:38] = bytes(20)
            paths.append(os.path.join(folder, f"substream{i}.flac"))
            with open(paths[-1], "wb") as out:
                out.write(b"fLaC" + info)
                out.writelines(again(frames, count))
        return paths


def write(folder, source, count):
    path = os.path.join(folder, "played.iamf")
    with open(path, "wb") as out:
        out.write(source.head)
        out.writelines(again(source.units, count))
    return path


def expect_played(folder, path, word, channels, count):
    """The WAV file has to have the right sizes."""
    written = os.path.join(folder, "played.wav")
    with open(written, "wb") as out:
        run_once([PROGRAM, "play", "1", word], path, out)
    length = count * FRAME * channels * DEPTH // 8
    with open(written, "rb") as wave:
        start = wave.read(68)
    if start[22:24] != struct.pack("<H", channels) or start[64:] != struct.pack("<I", length):
        raise Fails(f"play for {word} writes another head")
    if os.path.getsize(written) != 68 + length + length % 2:
        raise Fails(f"play for {word} writes {os.path.getsize(written)} bytes")
    os.remove(written)


def measure(path, word, paths):
    """The best runs of `play`, and of `flac -d` where there are streams for it, in turns."""
    playing = decoding = NO_RUN
    for _ in range(RUNS):
        with open(os.devnull, "wb") as out:
            playing = better(playing, run_once([PROGRAM, "play", "1", word], path, out))
        if paths:
            decoding = better(decoding, flac.run_flac("-d", paths))
    return playing, decoding


def report_instructions(folder, source):
    count = len(source.units)
    path = write(folder, source, count)
    for word, channels in TARGETS:
        each = count_with_callgrind([PROGRAM, "play", "1", word], path) / (count * FRAME * channels)
        limit = LIMITS[source.name]
        figure(f"{source.name} for {word}: instructions a sample written", f"{each:.1f}", f"at most {limit}", each <= limit)


def report_times(folder, source, seconds, inside):
    count = seconds * streams.RATE // FRAME
    path = write(folder, source, count)
    paths = source.streams(folder, count) if source.name == "FLAC" else []
    for word, channels in TARGETS:
        what = f"{source.name} for {word}, {seconds} s"
        expect_played(folder, path, word, channels, count)
        playing, decoding = measure(path, word, paths)
        row(f"{what}: time", f"{playing.seconds:.2f} s, CPU {playing.cpu:.2f} s", "", "")
        if paths:
            ratios(f"{what}: play / flac -d of all substreams", playing, decoding, TIME_LIMIT)
        if inside:
            above = (inside.run(["play", "1", word], path).run.peak - os.path.getsize(path)) / MIB
            figure(f"{what}: peak memory above the input", f"{above:.1f} MiB", f"at most {ABOVE}", above <= ABOVE)
    for made in [path, *paths]:
        os.remove(made)


def report(folder, quick):
    sounds = [(flac.sound(i, channels), channels) for i, channels in enumerate(flac.channels_of(streams.THREE_LAYERS))]
    sources = [Lpcm(sounds)]
    if shutil.which("flac"):
        sources.append(Flac(folder, sounds))
    else:
        print("skipped: there is no flac here", file=sys.stderr)
    inside = Inside(folder) if shutil.which("cc") else None
    heads_of_figures()
    for source in sources:
        if shutil.which("valgrind"):
            report_instructions(folder, source)
        for seconds in [3, 6] if quick else [60, 600]:
            report_times(folder, source, seconds, inside)


if __name__ == "__main__":
    run_script("bench/play.py", report)
