"""Reads accepted IAMF sequences for scripts/played.py, by the pages on the format and without regard for faults."""

import os
import struct
import subprocess
import tempfile
from collections import namedtuple

# Surround channels, height channels, and the channels in the order of a WAV file.
Layout = namedtuple("Layout", "word surround height channels")
SIDES_AND_BACKS = "L R C Lfe Lrs Rrs Lss Rss"
LAYOUTS = [Layout(word, surround, height, channels.split()) for word, surround, height, channels in (
    ("mono", 1, 0, "M"), ("stereo", 2, 0, "L R"), ("5.1", 5, 0, "L R C Lfe Ls Rs"), ("5.1.2", 5, 2, "L R C Lfe Ls Rs Ltf Rtf"),
    ("5.1.4", 5, 4, "L R C Lfe Ls Rs Ltf Rtf Ltb Rtb"), ("7.1", 7, 0, SIDES_AND_BACKS), ("7.1.2", 7, 2, SIDES_AND_BACKS + " Ltf Rtf"),
    ("7.1.4", 7, 4, SIDES_AND_BACKS + " Ltf Rtf Ltb Rtb"), ("3.1.2", 3, 2, "L R C Lfe Ltf Rtf"), ("binaural", 0, 0, "L R"))]

Timing = namedtuple("Timing", "id rate fixed")
Gain = namedtuple("Gain", "timing default")
Codec = namedtuple("Codec", "id name length little depth rate blocks")
Layer = namedtuple("Layer", "layout gain recon substreams coupled")
Demix = namedtuple("Demix", "timing mode weight")
Scene = namedtuple("Scene", "outputs matrix")
Element = namedtuple("Element", "id kind substreams demix layers scene")
Mix = namedtuple("Mix", "id sub_mixes")
SubMix = namedtuple("SubMix", "elements output")
# Of a block: its length in ticks, and the parts of a gain: how long, animation, start, end; or the mode of demixing.
Block = namedtuple("Block", "id length parts mode")


class Fields:
    """The fields of a payload, one after the other."""

    def __init__(self, data):
        self.data, self.at = data, 0

    def take(self, count):
        self.at += count
        return self.data[self.at - count:self.at]

    def byte(self):
        return self.take(1)[0]

    def signed(self):
        return int.from_bytes(self.take(2), "big", signed=True)

    def leb(self):
        value = shift = 0
        while True:
            byte = self.byte()
            value += (byte & 127) << shift
            shift += 7
            if byte < 128:
                return value

    def lebs(self, count):
        return [self.leb() for _ in range(count)]

    def text(self):
        self.at = self.data.index(0, self.at) + 1

    def durations(self):
        """The length and the parts of it that a definition or a block says."""
        length, constant = self.leb(), self.leb()
        if constant == 0:
            return length, self.lebs(self.leb())
        return length, [min(constant, length - at) for at in range(0, length, constant)]

    def timing(self):
        number, rate, mode = self.leb(), self.leb(), self.byte() >> 7
        return Timing(number, rate, None if mode else self.durations())

    def gain(self):
        return Gain(self.timing(), self.signed())


def obus(data):
    """Type, redundant flag, trims (end and start) and payload of each OBU."""
    fields = Fields(data)
    while fields.at < len(data):
        first = fields.byte()
        size = fields.leb()
        end = fields.at + size
        trims = (fields.leb(), fields.leb()) if first & 2 else (0, 0)
        if first & 1:
            fields.take(fields.leb())
        yield first >> 3, first >> 2 & 1, trims, fields.take(end - fields.at)


def codec_of(fields):
    number, name, length, _ = fields.leb(), fields.take(4), fields.leb(), fields.signed()
    if name == b"ipcm":
        little, depth = fields.byte(), fields.byte()
        return Codec(number, name, length, little == 1, depth, int.from_bytes(fields.take(4), "big"), b"")
    blocks = fields.data[fields.at:]
    rate_and_depth = int.from_bytes(blocks[14:18], "big")
    return Codec(number, name, length, False, (rate_and_depth >> 4 & 31) + 1, rate_and_depth >> 12, blocks)


def layers_of(fields):
    layers = []
    for _ in range(fields.byte() >> 5):
        first, substreams, coupled = fields.byte(), fields.byte(), fields.byte()
        gain = (fields.byte() >> 2, fields.signed()) if first & 8 else None
        layers.append(Layer(LAYOUTS[first >> 4], gain, first >> 2 & 1, substreams, coupled))
    return layers


def scene_of(fields):
    """How many coded channels each substream has, and the matrix: for each output and coded channel a coefficient over 32768."""
    mode, outputs, substreams = fields.leb(), fields.byte(), fields.byte()
    if mode == 0:
        mapping = fields.take(outputs)
        return substreams, Scene(outputs, [[32768 * (mapping[c] == k) for k in range(substreams)] for c in range(outputs)])
    coded = substreams + fields.byte()
    numbers = [[fields.signed() for _ in range(outputs)] for _ in range(coded)]
    return substreams, Scene(outputs, [[numbers[k][c] for k in range(coded)] for c in range(outputs)])


def channels_of(layers):
    """The channels of each substream."""
    return [2 if i < layer.coupled else 1 for layer in layers for i in range(layer.substreams)]


def element_of(fields):
    number, kind, _, demix = fields.leb(), fields.byte() >> 5, fields.leb(), None
    ids = fields.lebs(fields.leb())
    for _ in range(fields.leb()):
        parameter = fields.leb()
        if parameter == 1:
            demix = Demix(fields.timing(), fields.byte() >> 5, fields.byte() >> 4)
        elif parameter == 2:
            fields.timing()
        else:
            fields.take(fields.leb())
    if kind == 0:
        layers = layers_of(fields)
        return Element(number, kind, list(zip(ids, channels_of(layers))), demix, layers, None)
    if kind != 1:
        return Element(number, kind, [], demix, [], None)
    substreams, scene = scene_of(fields)
    coupled = len(scene.matrix[0]) - substreams
    return Element(number, kind, [(one, 2 if i < coupled else 1) for i, one in enumerate(ids)], demix, [], scene)


def mix_element_of(fields, labels):
    number = fields.leb()
    for _ in range(labels):
        fields.text()
    fields.byte()
    fields.take(fields.leb())
    return number, fields.gain()


def skip_loudness(fields):
    fields.byte()
    kind = fields.byte()
    fields.take(4 + 2 * (kind & 1))
    if kind & 2:
        fields.take(3 * fields.byte())
    if kind & 0xFC:
        fields.take(fields.leb())


def mix_of(fields):
    number, labels = fields.leb(), fields.leb()
    for _ in range(2 * labels):
        fields.text()
    sub_mixes = []
    for _ in range(fields.leb()):
        elements = [mix_element_of(fields, labels) for _ in range(fields.leb())]
        sub_mixes.append(SubMix(elements, fields.gain()))
        for _ in range(fields.leb()):
            skip_loudness(fields)
    return Mix(number, sub_mixes)


class Sequence:
    """The descriptors, and the units: trims, blocks, and the payload of each substream's frame."""

    def __init__(self, data):
        self.elements, self.mixes, self.units = {}, [], []
        self.blocks, self.frames, self.trims, self.delimited = [], {}, (0, 0), False
        for kind, redundant, trims, payload in obus(data):
            fields = Fields(payload)
            if redundant or 24 <= kind <= 31:
                continue
            if kind == 0:
                self.codec = codec_of(fields)
            elif kind == 1:
                element = element_of(fields)
                self.elements[element.id] = element
            elif kind == 2:
                self.mixes.append(mix_of(fields))
            elif kind == 3:
                self.blocks.append(self.block_of(fields))
            elif kind == 4:
                self.end_unit()
                self.delimited = True
            else:
                substream = fields.leb() if kind == 5 else kind - 6
                self.frames[substream] = payload[fields.at:]
                self.trims = trims
                # Without delimiters a unit ends with its last frame.
                if not self.delimited and len(self.frames) == sum(len(element.substreams) for element in self.elements.values()):
                    self.end_unit()
        self.end_unit()

    def end_unit(self):
        if self.frames:
            self.units.append((self.trims, self.blocks, self.frames))
            self.blocks, self.frames, self.trims = [], {}, (0, 0)

    def definitions(self):
        gains = {}
        for mix in self.mixes:
            for sub_mix in mix.sub_mixes:
                for gain in [gain for _, gain in sub_mix.elements] + [sub_mix.output]:
                    gains[gain.timing.id] = gain.timing
        demixes = {element.demix.timing.id for element in self.elements.values() if element.demix}
        return gains, demixes

    def block_of(self, fields):
        gains, demixes = self.definitions()
        number = fields.leb()
        if number in demixes:
            return Block(number, self.codec.length, [], fields.byte() >> 5)
        if number not in gains:
            return Block(number, 0, [], None)
        fixed = gains[number].fixed
        if fixed:
            return Block(number, fixed[0], [self.part_of(fields, length) for length in fixed[1]], None)
        length, constant = fields.leb(), fields.leb()
        if constant:
            parts = [self.part_of(fields, min(constant, length - at)) for at in range(0, length, constant)]
        else:
            parts = [self.part_of(fields, fields.leb()) for _ in range(fields.leb())]
        return Block(number, length, parts, None)

    @staticmethod
    def part_of(fields, length):
        animation, start = fields.leb(), fields.signed()
        end = fields.signed() if animation else start
        if animation == 2:
            fields.take(3)
        return length, animation, start, end

    def samples(self, substream, channels):
        """The samples of a substream: for each channel those of all units, trims not taken off."""
        frames = [frames[substream] for _, _, frames in self.units]
        if self.codec.name == b"fLaC":
            data, little, size = decoded(self.codec, frames, channels), True, self.codec.depth // 8
        else:
            data, little, size = b"".join(frames), self.codec.little, self.codec.depth // 8
        order = "little" if little else "big"
        values = [int.from_bytes(data[at:at + size], order, signed=True) for at in range(0, len(data), size)]
        return [values[c::channels] for c in range(channels)]


def decoded(codec, frames, channels):
    """What the stock decoder gives for the frames of one substream, as a stream of its own."""
    info = bytearray(codec.blocks[4:38])
    kept = int.from_bytes(info[10:18], "big")
    # The channels of this substream, no number of samples, and no checksum of them.
    kept = kept >> 44 << 44 | channels - 1 << 41 | (codec.depth - 1) << 36
    info[4:] = bytes(6) + kept.to_bytes(8, "big") + bytes(16)
    with tempfile.TemporaryDirectory() as folder:
        path = os.path.join(folder, "substream.flac")
        with open(path, "wb") as out:
            out.write(b"fLaC\x80" + struct.pack(">I", 34)[1:] + info + b"".join(frames))
        raw = ["--force-raw-format", "--endian=little", "--sign=signed"]
        return subprocess.run(["flac", "-d", "-c", "-s", *raw, path], capture_output=True, check=True).stdout
