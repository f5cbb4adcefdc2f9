"""Writes the streams of the other scripts: sequences in canonical spelling, and the OBUs of which they are made.

A function that writes a file does so piece by piece, since the memory of the script counts in the measured peaks, and answers what
the stream is: how many OBUs it has, and the last two lines of its report. docs/FORMAT_DESCRIPTORS.md has the fields.
"""

from collections import namedtuple
from math import gcd

Stream = namedtuple("Stream", "obus units samples")

RATE = 48000
HEADER, CODEC, ELEMENT, MIX, BLOCK, FRAME, FIRST_FRAME, RESERVED = 31, 0, 1, 2, 3, 5, 6, 24
DESCRIPTORS = 4
GAIN = 100

STEREO = [(1, 1, 1)]
MONO = [(0, 1, 0)]
# Layout, substreams and coupled substreams of each layer: stereo, 5.1.2 and 7.1.4.
THREE_LAYERS = [(1, 1, 1), (3, 4, 2), (7, 2, 2)]


def leb(number):
    out = bytearray()
    while number >= 128:
        out.append(number % 128 + 128)
        number //= 128
    out.append(number)
    return bytes(out)


def obu(kind, payload, redundant=False):
    return bytes([kind * 8 + redundant * 4]) + leb(len(payload)) + payload


def header():
    return obu(HEADER, b"iamf\x00\x00")


def codec(frame_length, depth):
    return obu(CODEC, b"\x00ipcm" + leb(frame_length) + b"\x00\x00\x01" + bytes([depth]) + RATE.to_bytes(4, "big"))


def scalable(number, substreams, layers, parameters=()):
    ids = b"".join(map(leb, substreams))
    config = b"".join(bytes([layout * 16, count, coupled]) for layout, count, coupled in layers)
    definitions = leb(len(parameters)) + b"".join(parameters)
    return obu(ELEMENT, leb(number) + b"\x00\x00" + leb(len(substreams)) + ids + definitions + bytes([len(layers) * 32]) + config)


def demixing(parameter, frame_length):
    """The definition of a demixing parameter, whose defaults are mode 1 and weight 0."""
    return leb(1) + leb(parameter) + leb(RATE) + b"\x00" + leb(frame_length) * 2 + b"\x20\x00"


def gain(parameter):
    """A mix gain of 0 dB, whose blocks say how long they last."""
    return leb(parameter) + leb(RATE) + b"\x80\x00\x00"


def mix_payload(number, element):
    """A mix of one element for one layout, stereo."""
    return leb(number) + b"\x00\x01\x01" + leb(element) + b"\x00\x00" + gain(GAIN) + gain(GAIN + 1) + b"\x01\x80" + bytes(5)


def descriptors(frame_length, depth, layers):
    substreams = list(range(sum(count for _, count, _ in layers)))
    return header() + codec(frame_length, depth) + scalable(1, substreams, layers) + obu(MIX, mix_payload(1, 1))


def frame(substream, length):
    """A frame of silence of a substream below 18."""
    return obu(FIRST_FRAME + substream, bytes(length))


def layered_parts():
    """Of 7.1.4 in three layers, 24 bits and 1024 samples a frame: the descriptors, a unit, and how many frames it has."""
    unit = b""
    substream = 0
    for _, count, coupled in THREE_LAYERS:
        for i in range(count):
            unit += frame(substream, 1024 * 3 * (2 if i < coupled else 1))
            substream += 1
    return descriptors(1024, 24, THREE_LAYERS), unit, substream


def layered(path, size):
    """As many units of `layered_parts` as fit into the size."""
    first, unit, substream = layered_parts()
    units = (size - len(first)) // len(unit)
    with open(path, "wb") as out:
        out.write(first)
        for _ in range(units):
            out.write(unit)
    return Stream(DESCRIPTORS + substream * units, units, 1024 * units)


def flac_parts():
    """Of FLAC, mono, 16 bits and 16 samples a frame: the descriptors and a unit, whose frame is 16 times -32768."""
    info = bytes.fromhex("00100010 000000000000 0bb800f0 00000010") + bytes(16)
    config = obu(CODEC, b"\x00fLaC" + leb(16) + b"\x00\x00" + b"\x80\x00\x00\x22" + info)
    first = header() + config + scalable(1, [0], MONO) + obu(MIX, mix_payload(1, 1))
    return first, obu(FIRST_FRAME, bytes.fromhex("fff86a08000f0a010003be9d"))


def mixes(path, number):
    """So many mix presentations, then a redundant copy of each in the opposite order, then one unit."""
    after_id = mix_payload(0, 1)[1:]
    with open(path, "wb") as out:
        out.write(header() + codec(8, 16) + scalable(1, [0], STEREO))
        for i in range(number):
            out.write(obu(MIX, leb(i) + after_id))
        for i in reversed(range(number)):
            out.write(obu(MIX, leb(i) + after_id, redundant=True))
        out.write(frame(0, 32))
    return Stream(3 + 2 * number + 1, 1, 8)


def scattered(number):
    """The numbers from 1 to `number`, in an order far from both ways of counting."""
    step = 7919
    while gcd(step, number) != 1:
        step += 1
    for i in range(number):
        yield i * step % number + 1


def substreams(path, number):
    """An element of a kind that is kept unread, with so many substreams, and one unit, which has a frame of each.

    A stereo element stands beside it, for the mix that has to fit.
    """
    with open(path, "wb") as out:
        out.write(header() + codec(8, 16) + scalable(1, [0], STEREO))
        payload = bytearray(b"\x02\x40\x00" + leb(number))
        for i in range(1, number + 1):
            payload += leb(i)
        out.write(obu(ELEMENT, payload + b"\x00\x00"))
        out.write(obu(MIX, mix_payload(1, 1)))
        for i in scattered(number):
            out.write(obu(FRAME, leb(i)))
        out.write(frame(0, 32))
    return Stream(5 + number + 1, 1, 8)


BLOCKS_IN_UNIT = 62_500
LONGEST_FRAME = 65535


def blocks(path, number):
    """So many parameter blocks of one mix gain, each of one tick, 62,500 in each unit but the last."""
    block = obu(BLOCK, leb(GAIN) + b"\x01\x01\x00\x00\x00")
    units = -(-number // BLOCKS_IN_UNIT)
    with open(path, "wb") as out:
        out.write(descriptors(LONGEST_FRAME, 16, MONO))
        for unit in range(units):
            for _ in range(min(BLOCKS_IN_UNIT, number - unit * BLOCKS_IN_UNIT)):
                out.write(block)
            out.write(frame(0, LONGEST_FRAME * 2))
    return Stream(DESCRIPTORS + number + units, units, LONGEST_FRAME * units)


def reserved(path, number):
    """So many empty reserved OBUs between the descriptors and one unit."""
    with open(path, "wb") as out:
        out.write(descriptors(8, 16, STEREO))
        one = obu(RESERVED, b"")
        for _ in range(number):
            out.write(one)
        out.write(frame(0, 32))
    return Stream(DESCRIPTORS + number + 1, 1, 8)
