"""The exact samples of a mix, in fractions, for scripts/played.py: demixing and gains as crates/spec_demix and crates/spec_gains have them."""

from fractions import Fraction
from math import lcm

SCALE = 10 ** 12
COARSE = [1000000000000, 1122018454301, 1258925411794, 1412537544622, 1584893192461, 1778279410038, 1995262314968, 2238721138568,
          2511886431509, 2818382931264, 3162277660168, 3548133892335, 3981071705534, 4466835921509, 5011872336272, 5623413251903,
          6309573444801, 7079457843841, 7943282347242, 8912509381337]
# Alpha, beta, gamma and delta in thousandths, and the step of the weight's index.
MODES = {0: (1000, 1000, 707, 707, -1), 1: (707, 707, 707, 707, -1), 2: (1000, 866, 866, 866, -1),
         4: (1000, 1000, 707, 707, 1), 5: (707, 707, 707, 707, 1), 6: (1000, 866, 866, 866, 1)}
WEIGHTS = [0, 179, 391, 658, 1038, 2500, 3962, 4342, 4609, 4821, 5000]
C_IN_STEREO = Fraction(707, 1000)
FLAGS = ["L", "R", "Ls", "Rs", "Ltf", "Rtf"]
FLAG_LAYOUTS = {"L": ("mono", "stereo", "3.1.2"), "R": ("stereo", "3.1.2"), "Ls": ("5.1", "5.1.2", "5.1.4"),
                "Rs": ("5.1", "5.1.2", "5.1.4")}


def powers_of(factor):
    found = [SCALE]
    for _ in range(16):
        found.append(found[-1] * factor // SCALE)
    return found


LOW = powers_of(1000449824792)
HIGH = powers_of(LOW[16])


def gain(value):
    """The gain of 1/256 dB, times 10^12."""
    steps, fine = divmod(value, 256)
    tens, coarse = divmod(steps, 20)
    product = COARSE[coarse] * (HIGH[fine // 16] * LOW[fine % 16] // SCALE) // SCALE
    return product * 10 ** tens if tens >= 0 else product // 10 ** -tens


def transmitted(before, now):
    """The channels of a layer in coded order; `L2` is the single L of stereo."""
    if before is None:
        pairs = ["L", "Ls", "Lss", "Lrs", "Ltf", "Ltb"]
        right = {"L": "R"}
        found = [one for left in pairs if left in now.channels for one in (left, right.get(left, "R" + left[1:]))]
        return found + [one for one in ("C", "Lfe", "M") if one in now.channels]
    found = []
    steps = [("L R", before.surround < 5 <= now.surround), ("Lss Rss", before.surround < 7 <= now.surround),
             ("Ltf Rtf", before.height == 0 < now.height or (before.height, now.height) == (2, 4)),
             ("Ltb Rtb", before.height == 0 and now.height == 4), ("C Lfe", before.surround < 3 <= now.surround),
             ("L2", before.surround < 2 <= now.surround)]
    for channels, here in steps:
        if here:
            found += channels.split()
    return found


class Form(dict):
    """A sum of the target's channels, each times a fraction."""

    def __add__(self, other):
        return Form({key: self.get(key, 0) + other.get(key, 0) for key in {**self, **other}})

    def times(self, factor):
        return Form({key: value * factor for key, value in self.items()})


def surround_forms(target, side, mode):
    """What a side of the target is in the lower kinds of surround: 5, 3 and 2, and its Ls or Rs."""
    alpha, beta, _, delta, _ = mode
    one = Form({side: Fraction(1)})
    if target.surround < 5:
        three = one
        back = None
    else:
        back = Form({side + "s": Fraction(1)})
        if target.surround == 7:
            back = Form({side + "ss": Fraction(alpha, 1000), side + "rs": Fraction(beta, 1000)})
        three = one + back.times(Fraction(delta, 1000))
    two = three + Form({"C": C_IN_STEREO}) if target.surround >= 3 else one
    return {5: one, 7: one, 3: three, 2: two}, back


def height_form(target, layer, side, mode, weight, back):
    """The front height of a side of the target in a layer."""
    front = Form({side + "tf": Fraction(1)})
    if target.height == 4 and layer.height == 2:
        front = front + Form({side + "tb": Fraction(mode[2], 1000)})
    if layer.surround == 3 and target.surround >= 5:
        front = front + back.times(Fraction(weight, 10000) * Fraction(mode[3], 1000))
    return front


def downmixed(target, layer, channel, mode, weight):
    """A channel of the downmix of the target to a layer."""
    if channel == "M":
        if target.surround == 1:
            return Form({"M": Fraction(1)})
        return (surround_forms(target, "L", mode)[0][2] + surround_forms(target, "R", mode)[0][2]).times(Fraction(1, 2))
    side = channel[0]
    if channel == "L2":
        return surround_forms(target, "L", mode)[0][2]
    if channel in ("C", "Lfe") or channel[1:] in ("tb", "ss", "rs"):
        return Form({channel: Fraction(1)})
    forms, back = surround_forms(target, side, mode)
    if channel[1:] == "tf":
        return height_form(target, layer, side, mode, weight, back)
    return back if channel[1:] == "s" else forms[layer.surround]


def solved(rows):
    """The inverse of a square matrix of fractions."""
    count = len(rows)
    rows = [list(row) + [Fraction(int(i == j)) for j in range(count)] for i, row in enumerate(rows)]
    for i in range(count):
        pivot = next(j for j in range(i, count) if rows[j][i])
        rows[i], rows[pivot] = rows[pivot], rows[i]
        rows[i] = [value / rows[i][i] for value in rows[i]]
        for j in range(count):
            if j != i and rows[j][i]:
                factor = rows[j][i]
                rows[j] = [one - factor * two for one, two in zip(rows[j], rows[i])]
    return [row[count:] for row in rows]


def acts(layer, channel):
    """Whether the layer's output gain acts on a channel that it transmits."""
    flag = {"M": "L", "L2": "L"}.get(channel, channel)
    if layer.gain is None or flag not in FLAGS or not layer.gain[0] >> (5 - FLAGS.index(flag)) & 1:
        return False
    if flag in ("Ltf", "Rtf"):
        return layer.layout.height > 0
    return layer.layout.word in FLAG_LAYOUTS[flag]


def matrix_of(layers, mode, weight):
    """For each channel of the last layer the fraction of each coded channel of the layers."""
    target, before, rows, gains = layers[-1].layout, None, [], []
    for layer in layers:
        for channel in transmitted(before, layer.layout):
            form = downmixed(target, layer.layout, channel, mode, weight)
            rows.append([form.get(one, Fraction(0)) for one in target.channels])
            gains.append(Fraction(gain(layer.gain[1]), SCALE) if acts(layer, channel) else 1)
        before = layer.layout
    return [[value * by for value, by in zip(row, gains)] for row in solved(rows)]


def whole(matrix):
    """A matrix of whole numbers, with the number that each is over."""
    bottom = lcm(*(value.denominator for row in matrix for value in row))
    return [[int(value * bottom) for value in row] for row in matrix], bottom


def needs_demix(layers):
    steps = [(one.layout, two.layout) for one, two in zip(layers, layers[1:])]
    return any(a.surround < 5 <= b.surround or a.surround < 7 <= b.surround or (a.height, b.height) == (2, 4) for a, b in steps)


def used_modes(sequence, element):
    """The mode and the index of the weight that each unit uses."""
    index, found = 0, []
    for _, blocks, _ in sequence.units:
        here = [block.mode for block in blocks if element.demix and block.id == element.demix.timing.id]
        if here:
            if here[0] in MODES:
                index = max(0, min(10, index + MODES[here[0]][4]))
            found.append((here[0], index))
        else:
            found.append((element.demix.mode, min(element.demix.weight, 10)) if element.demix else (0, 0))
    return found


def element_rows(sequence, element, target):
    """For each unit the matrix from coded channels to the target's channels, over a number."""
    if element.scene:
        return [(element.scene.matrix, 32768)] * len(sequence.units)
    layers = element.layers[:[layer.layout.word for layer in element.layers].index(target) + 1]
    modes = used_modes(sequence, element) if needs_demix(layers) else [(0, 0)] * len(sequence.units)
    matrices = {key: whole(matrix_of(layers, MODES[key[0]], WEIGHTS[key[1]])) for key in set(modes)}
    return [matrices[key] for key in modes]


def gain_at(sequence, definition):
    """The gain of each tick, times 10^12."""
    length = sequence.codec.length
    gains = [gain(definition.default)] * (length * len(sequence.units))
    end = 0
    for unit, (_, blocks, _) in enumerate(sequence.units):
        for block in blocks:
            if block.id != definition.timing.id:
                continue
            at = max(unit * length, end)
            end = at + block.length
            for ticks, _, start, last in block.parts:
                first, second = gain(start), gain(last)
                for k in range(min(ticks, len(gains) - at)):
                    gains[at + k] = (first * (ticks - k) + second * k) // ticks
                at += ticks
    return gains


def exact(sequence, sub_mix, target):
    """For each kept sample and channel of the target its exact value, as a whole number over another."""
    length = sequence.codec.length
    parts = []
    for number, definition in sub_mix.elements:
        element = sequence.elements[number]
        coded = [row for one, channels in element.substreams for row in sequence.samples(one, channels)]
        parts.append((coded, element_rows(sequence, element, target), gain_at(sequence, definition)))
    output = gain_at(sequence, sub_mix.output)
    for unit, (trims, _, _) in enumerate(sequence.units):
        bottom = lcm(*(rows[unit][1] for _, rows, _ in parts))
        for tick in range(unit * length + trims[1], (unit + 1) * length - trims[0]):
            tops = [0] * len(parts[0][1][unit][0])
            for coded, rows, gains in parts:
                matrix, below = rows[unit]
                factor = gains[tick] * (bottom // below) * output[tick]
                for c, row in enumerate(matrix):
                    tops[c] += factor * sum(by * coded[k][tick] for k, by in enumerate(row) if by)
            for top in tops:
                yield top, bottom * SCALE * SCALE
