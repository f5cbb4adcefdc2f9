"""Makes short LPCM sequences with chains of layers, gains, blocks and trims at random, for scripts/played.py."""

import random

from exact_mix import transmitted
from sequence_of import LAYOUTS

RATE = 48000
LENGTH = 8
UNITS = 6
PLAYED = [layout for layout in LAYOUTS if layout.word != "binaural"]
PAIRS = {"L": "R", "Ls": "Rs", "Lss": "Rss", "Lrs": "Rrs", "Ltf": "Rtf", "Ltb": "Rtb"}
MODES = (0, 1, 2, 4, 5, 6)


def leb(number):
    out = b""
    while number >= 128:
        out += bytes([number % 128 + 128])
        number //= 128
    return out + bytes([number])


def signed(number):
    return number.to_bytes(2, "big", signed=True)


def obu(kind, payload, trims=None):
    fields = leb(trims[0]) + leb(trims[1]) if trims else b""
    return bytes([kind * 8 + 2 * bool(trims)]) + leb(len(fields + payload)) + fields + payload


def rises(before, now):
    steps = now.surround - before.surround, now.height - before.height
    return min(steps) >= 0 and max(steps) > 0


def chain_to(chance, layout):
    """Layouts that rise up to one."""
    chain = [layout]
    while chance.random() < 0.7:
        below = [one for one in PLAYED if rises(one, chain[0])]
        if not below:
            break
        chain.insert(0, chance.choice(below))
    return chain


class Maker:
    """One sequence."""

    def __init__(self, seed):
        self.chance = random.Random(seed)
        self.depth = self.chance.choice((16, 24, 32))
        self.little = self.chance.random() < 0.5
        self.parameter, self.substream = 100, self.chance.choice((0, 1000))
        self.gains, self.demixes, self.substreams = [], [], []

    def name(self):
        self.parameter += 1
        return self.parameter

    def gain(self):
        """A mix gain; most have the length of their blocks in the blocks."""
        number, chance = self.name(), self.chance
        self.gains.append(number)
        return leb(number) + leb(RATE) + b"\x80" + signed(chance.choice((0, 0, -1536, 1536, chance.randint(-9000, 2000))))

    def add_substreams(self, counts):
        ids = range(self.substream, self.substream + len(counts))
        self.substream += len(counts)
        self.substreams += zip(ids, counts)
        return leb(len(counts)) + b"".join(map(leb, ids))

    def layer(self, before, layout):
        """A layer's fields, and the channels of its substreams."""
        channels = transmitted(before, layout)
        pairs = sum(one in PAIRS and PAIRS[one] in channels for one in channels)
        singles = len(channels) - 2 * pairs
        gain = self.chance.random() < 0.4
        fields = bytes([LAYOUTS.index(layout) * 16 + 8 * gain, pairs + singles, pairs])
        if gain:
            fields += bytes([self.chance.randrange(64) * 4]) + signed(self.chance.randint(-3000, 1500))
        return fields, [2] * pairs + [1] * singles

    def scalable(self, number, chain):
        layers = [self.layer(before, layout) for before, layout in zip([None] + chain, chain)]
        ids = self.add_substreams([count for _, counts in layers for count in counts])
        demix = self.name()
        self.demixes.append(demix)
        parameter = leb(1) + leb(demix) + leb(RATE) + b"\x00" + leb(LENGTH) + leb(LENGTH)
        parameter += bytes([self.chance.choice(MODES) << 5, self.chance.randrange(16) << 4])
        config = bytes([len(layers) << 5]) + b"".join(fields for fields, _ in layers)
        return obu(1, leb(number) + b"\x00\x00" + ids + b"\x01" + parameter + config)

    def scene(self, number, outputs):
        coupled = None
        substreams = self.chance.randint(1, min(4, outputs))
        if self.chance.random() < 0.6:
            substreams = self.chance.randint(1, 4)
            coupled = self.chance.randint(0, substreams)
        if coupled is None:
            ids = self.add_substreams([1] * substreams)
            mapping = bytes(self.chance.choice([255, *range(substreams)]) for _ in range(outputs))
            config = b"\x00" + bytes([outputs, substreams]) + mapping
        else:
            ids = self.add_substreams([2] * coupled + [1] * (substreams - coupled))
            matrix = [signed(self.chance.randint(-32768, 32767)) for _ in range(outputs * (substreams + coupled))]
            config = b"\x01" + bytes([outputs, substreams, coupled]) + b"".join(matrix)
        return obu(1, leb(number) + b"\x20\x00" + ids + b"\x00" + config)

    def elements(self):
        count = self.chance.choice((1, 1, 2, 3))
        if self.chance.random() < 0.2:
            outputs = self.chance.choice((1, 4, 9))
            return [self.scene(1 + i, outputs) for i in range(count)]
        layout = self.chance.choice(PLAYED)
        if len(layout.channels) * count > 28:
            count = 2
        return [self.scalable(1 + i, chain_to(self.chance, layout)) for i in range(count)]

    def gain_block(self, number, start, unit):
        """A block of a gain, and where it ends."""
        parts = [self.chance.randint(1, 9) for _ in range(self.chance.randint(1, 3))]
        payload = leb(number) + leb(sum(parts)) + b"\x00" + leb(len(parts))
        for ticks in parts:
            linear = self.chance.random() < 0.6
            values = [self.chance.randint(-6000, 1500) for _ in range(1 + linear)]
            payload += leb(ticks) + bytes([linear]) + b"".join(map(signed, values))
        return obu(3, payload), max(start, unit * LENGTH) + sum(parts)

    def sample(self):
        half = 1 << (self.depth - 1)
        value = self.chance.choice((self.chance.randint(-half, half - 1), self.chance.randint(-half // 8, half // 8), 0))
        return value.to_bytes(self.depth // 8, "little" if self.little else "big", signed=True)

    def unit(self, unit, ends):
        blocks = [obu(3, leb(one) + bytes([self.chance.choice(MODES) << 5])) for one in self.demixes if self.chance.random() < 0.6]
        for number in self.gains:
            if ends[number] < (unit + 1) * LENGTH and self.chance.random() < 0.4:
                block, ends[number] = self.gain_block(number, ends[number], unit)
                blocks.append(block)
        trims = (0, 3) if unit == 0 else (2, 0) if unit == UNITS - 1 else None
        frames = []
        for number, channels in self.substreams:
            data = b"".join(self.sample() for _ in range(LENGTH * channels))
            frames.append(obu(6 + number, data, trims) if number < 18 else obu(5, leb(number) + data, trims))
        return b"".join(blocks + frames)

    def sequence(self):
        """The bytes of the sequence, of the wide profile, with one mix of all elements."""
        elements = self.elements()
        mix = leb(7) + b"\x00\x01" + leb(len(elements))
        mix += b"".join(leb(1 + i) + b"\x00\x00" + self.gain() for i in range(len(elements)))
        mix += self.gain() + b"\x01\x80" + bytes(5)
        codec = b"\x00ipcm" + leb(LENGTH) + bytes([0, 0, self.little, self.depth]) + RATE.to_bytes(4, "big")
        ends = dict.fromkeys(self.gains, 0)
        head = obu(31, b"iamf\x02\x00") + obu(0, codec) + b"".join(elements) + obu(2, mix)
        return head + b"".join(self.unit(unit, ends) for unit in range(UNITS))
