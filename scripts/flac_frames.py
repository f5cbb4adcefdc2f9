"""Frames of a stock FLAC encoder as IAMF sequences. Run by scripts/flac_frames.sh.

frames.bin has, for each frame: its length in bytes (4 bytes, big-endian as all), channels (1), bits of a sample (1), samples of a
channel (4), samples of a channel in a second (4), two zero bytes, the frame, and each sample of the first channel and
then of the second (4 bytes in two's complement).
"""

import math
import os
import random
import re
import struct
import subprocess
import sys
import tempfile

RATE = 48000
SOUNDS = ("tone", "noise", "quiet", "silence", "opposite", "square", "coarse", "resonance")
OPTIONS = [["-%d" % level] for level in range(9)] + [
    ["-8", "-l", "32", "-r", "8", "-b", "1024"],
    ["-5", "-b", "256", "-r", "3"],
    ["-8", "-e", "-p", "-l", "20"],
    ["-5", "-b", "100"],
]


def sound(kind, depth, length, channels):
    """Rows of samples, the same at each run."""
    noise = random.Random("%s %d %d" % (kind, depth, channels))
    half = 1 << (depth - 1)
    partials = [(220, 0.3), (440.7, 0.2), (1234.5, 0.1), (3000, 0.03)]
    base = [sum(a * math.sin(2 * math.pi * f * n / RATE) for f, a in partials) for n in range(length)]
    rows = []
    for channel in range(channels):
        row = []
        state = [0.0] * 8
        for n in range(length):
            if kind == "tone":
                value = base[n] * (1 if channel == 0 else 0.8) + noise.gauss(0, 0.0005)
            elif kind == "noise":
                value = noise.uniform(-1, 1)
            elif kind == "quiet":
                value = base[n] * 0.001
            elif kind == "silence":
                value = 0
            elif kind == "opposite":
                value = base[n] * 0.9 * (1 if channel == 0 else -1)
            elif kind == "square":
                value = 1 if n // 50 % 2 else -1
            elif kind == "coarse":
                value = math.floor(base[n] * 64) / 64
            else:
                value = 1.6 * state[-1] - 0.95 * state[-2] + 0.2 * state[-5] - 0.1 * state[-7] + noise.gauss(0, 0.02)
                state = state[1:] + [max(-1.0, min(1.0, value))]
            row.append(max(-half, min(half - 1, int(value * half))))
        rows.append(row)
    return rows


def wave(rows, depth):
    """The rows as a WAV file."""
    size = depth // 8
    data = b"".join(row[n].to_bytes(size, "little", signed=True) for n in range(len(rows[0])) for row in rows)
    channels = len(rows)
    head = struct.pack("<IHHIIHH", 16, 1, channels, RATE, RATE * channels * size, channels * size, depth)
    return b"RIFF" + struct.pack("<I", 36 + len(data)) + b"WAVEfmt " + head + b"data" + struct.pack("<I", len(data)) + data


def encoded(folder, rows, depth, options):
    """The metadata blocks of a stream, and its frames with their block sizes."""
    source, stream, analysis = (os.path.join(folder, name) for name in ("in.wav", "out.flac", "out.txt"))
    with open(source, "wb") as file:
        file.write(wave(rows, depth))
    quiet = {"stdout": subprocess.DEVNULL, "stderr": subprocess.DEVNULL, "check": True}
    subprocess.run(["flac", "-f", "-s", "--lax", "--no-padding", "--no-seektable"] + options + ["-o", stream, source], **quiet)
    subprocess.run(["flac", "-a", "-f", "-s", "-o", analysis, stream], **quiet)
    with open(stream, "rb") as file:
        data = file.read()
    places = []
    with open(analysis) as file:
        for line in file:
            found = re.match(r"frame=\d+\toffset=(\d+)\tbits=(\d+)\tblocksize=(\d+)", line)
            if found:
                places.append((int(found[1]), int(found[2]) // 8, int(found[3])))
    return data[4 : places[0][0]], [(data[at : at + size], block) for at, size, block in places]


def leb(number):
    out = b""
    while number >= 128:
        out += bytes([number % 128 + 128])
        number //= 128
    return out + bytes([number])


def obu(kind, payload):
    return bytes([kind * 8]) + leb(len(payload)) + payload


def sequence(blocks, frames, length, channels):
    """A sequence of one element with one layer, and where its last frame begins."""
    header = obu(31, b"iamf\0\0")
    codec = obu(0, leb(0) + b"fLaC" + leb(length) + b"\0\0" + blocks)
    layer = bytes([0x00 if channels == 1 else 0x10, 1, channels - 1])
    element = obu(1, leb(1) + b"\0" + leb(0) + leb(1) + leb(0) + leb(0) + b"\x20" + layer)
    gain = leb(100) + leb(RATE) + b"\x80" + b"\0\0"
    layouts = leb(1) + b"\x80\0" + b"\0\0\0\0"
    mix = obu(2, leb(2) + leb(0) + leb(1) + leb(1) + leb(1) + b"\0" + leb(0) + gain + gain + layouts)
    out = header + codec + element + mix
    at = 0
    for frame, _ in frames:
        at = len(out)
        out += obu(6, frame)
    return out, at


def answer(tool, data):
    done = subprocess.run([tool, "check"], input=data, capture_output=True)
    return done.returncode, (done.stdout + done.stderr).decode()


def main():
    tool = sys.argv[1]
    record = open(os.path.join(sys.argv[2], "frames.bin"), "wb") if len(sys.argv) > 2 else None
    passed = failed = 0

    def expect(good, *words):
        nonlocal passed, failed
        if good:
            passed += 1
        else:
            failed += 1
            print("failed:", *words)

    with tempfile.TemporaryDirectory() as folder:
        for depth in (16, 24, 32):
            for channels in (1, 2):
                for kind in SOUNDS:
                    rows = sound(kind, depth, 5000, channels)
                    for options in OPTIONS:
                        blocks, frames = encoded(folder, rows, depth, options)
                        length = frames[0][1]
                        at = 0
                        for frame, block in frames:
                            if record:
                                record.write(struct.pack(">IBBIIH", len(frame), channels, depth, block, RATE, 0) + frame)
                                for row in rows:
                                    record.write(b"".join(struct.pack(">i", sample) for sample in row[at : at + block]))
                            at += block
                        whole = [frame for frame in frames if frame[1] == length]
                        data, last = sequence(blocks, whole, length, channels)
                        name = "%s, %d bits, %d channels, %s" % (kind, depth, channels, " ".join(options))
                        status, lines = answer(tool, data)
                        wanted = "units %d\nsamples %d\n" % (len(whole), len(whole) * length)
                        expect(status == 0 and wanted in lines, name, status, lines)
                        status, lines = answer(tool, data[:-1] + bytes([data[-1] ^ 1]))
                        expect(status == 1 and lines == "refused %d 44\n" % last, name, "changed", status, lines)
    print("%d passed, %d failed" % (passed, failed))
    sys.exit(1 if failed else 0)


main()
