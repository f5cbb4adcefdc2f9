"""Plays sequences and compares the samples. Run by scripts/played.sh."""

import os
import shutil
import struct
import subprocess
import sys
import tempfile

from exact_mix import MODES, exact, gain, needs_demix, used_modes
from random_sequences import Maker
from sequence_of import LAYOUTS, Sequence

RANDOM = 60
WORDS = [layout.word for layout in LAYOUTS if layout.word != "binaural"] + ["acn"]
MASKS = {"M": 0x4, "L": 0x1, "R": 0x2, "C": 0x4, "Lfe": 0x8, "Lrs": 0x10, "Rrs": 0x20, "Ls": 0x200, "Rs": 0x400, "Lss": 0x200,
         "Rss": 0x400, "Ltf": 0x1000, "Rtf": 0x4000, "Ltb": 0x8000, "Rtb": 0x20000}
# The names of channels that mediainfo has.
NAMES = {"M": "C", "Lfe": "LFE", "Lss": "Ls", "Rss": "Rs", "Lrs": "Lb", "Rrs": "Rb", "Ltf": "Tfl", "Rtf": "Tfr", "Ltb": "Tbl",
         "Rtb": "Tbr"}
MOST_ELEMENTS = MOST_CHANNELS = 28
MOST_GAIN = 8192


def coded_channels(element):
    return sum(channels for _, channels in element.substreams)


def shape_refusal(elements, word):
    """Of a mix of these elements the code by which the target does not suit them, or None."""
    scenes = [element for element in elements if element.scene]
    outputs = {element.scene.outputs for element in scenes}
    scalables = [element for element in elements if element.kind == 0]
    if word != "acn" and any(word not in [layer.layout.word for layer in element.layers] for element in scalables):
        return 52
    if scenes and word != "acn" or word == "acn" and (scalables or len(outputs) > 1):
        return 53
    return 54 if any(element.kind > 1 for element in elements) else None


def layer_refusal(sequence, elements, word):
    """The code by which the layers up to the target are not played, or None."""
    used = [(element, element.layers[:[layer.layout.word for layer in element.layers].index(word) + 1])
            for element in elements if element.kind == 0]
    if any(layer.recon for _, layers in used for layer in layers[1:]):
        return 55
    demixed = [element for element, layers in used if needs_demix(layers)]
    if any(element.demix is None for element in demixed):
        return 56
    return 57 if any(mode not in MODES for element in demixed for mode, _ in used_modes(sequence, element)) else None


def gain_refusal(sequence, sub_mix, elements, word):
    """The code by which the gains are not played, or None."""
    gains = [one for _, one in sub_mix.elements] + [sub_mix.output]
    ids = {one.timing.id for one in gains}
    blocks = [block for _, unit_blocks, _ in sequence.units for block in unit_blocks if block.id in ids]
    with_blocks = {block.id for block in blocks}
    if any(one.timing.rate != sequence.codec.rate and one.timing.id in with_blocks for one in gains):
        return 58
    parts = [part for block in blocks for part in block.parts]
    if any(animation == 2 for _, animation, _, _ in parts):
        return 59
    values = [one.default for one in gains] + [value for part in parts for value in part[2:]]
    for element in elements:
        for layer in element.layers:
            if layer.gain:
                values.append(layer.gain[1])
            if layer.layout.word == word:
                break
    return 60 if max(values) > MOST_GAIN else None


def refusal(sequence, mix, word):
    """The code by which the mix is not played for the target, or None."""
    if len(mix.sub_mixes) != 1:
        return 51
    elements = [sequence.elements[number] for number, _ in mix.sub_mixes[0].elements]
    if not 1 <= len(elements) <= MOST_ELEMENTS or sum(map(coded_channels, elements)) > MOST_CHANNELS:
        return 51
    return (shape_refusal(elements, word) or layer_refusal(sequence, elements, word)
            or gain_refusal(sequence, mix.sub_mixes[0], elements, word))


def channels_of(sequence, mix, word):
    """The names of the target's channels; those of a scene have none."""
    if word != "acn":
        return next(layout.channels for layout in LAYOUTS if layout.word == word)
    return [""] * sequence.elements[mix.sub_mixes[0].elements[0][0]].scene.outputs


def head_of(codec, channels, length):
    """The first bytes of a WAV file with so many bytes of samples."""
    align = len(channels) * codec.depth // 8
    mask = sum(MASKS.get(channel, 0) for channel in channels)
    fields = struct.pack("<IHHIIHHHHI", 40, 0xFFFE, len(channels), codec.rate, codec.rate * align, align, codec.depth, 22,
                         codec.depth, mask) + bytes.fromhex("0100000000001000800000aa00389b71")
    return b"RIFF" + struct.pack("<I", 60 + length + length % 2) + b"WAVEfmt " + fields + b"data" + struct.pack("<I", length)


def within(sample, top, bottom, half):
    """Whether a sample is a whole number within 9/16 of an exact value, clipped to the depth."""
    off = 16 * (sample * bottom - top)
    return (off <= 9 * bottom or sample == -half) and (off >= -9 * bottom or sample == half - 1)


def sample_problem(sequence, mix, word, channels, wave):
    """The first thing that is wrong with a WAV file, or None."""
    codec = sequence.codec
    size, half = codec.depth // 8, 1 << (codec.depth - 1)
    kept = sum(codec.length - end - start for (end, start), _, _ in sequence.units)
    length = kept * len(channels) * size
    if wave[:68] != head_of(codec, channels, length) or len(wave) != 68 + length + length % 2 or any(wave[68 + length:]):
        return "another head or length"
    for i, (top, bottom) in enumerate(exact(sequence, mix.sub_mixes[0], word)):
        at = 68 + i * size
        sample = int.from_bytes(wave[at:at + size], "little", signed=True)
        if not within(sample, top, bottom, half):
            return f"sample {i // len(channels)} of channel {i % len(channels)} is {sample}, and exactly {top / bottom:.4f}"
    return None


def output(words):
    """What another tool writes."""
    return subprocess.run(words, stdin=subprocess.DEVNULL, capture_output=True, check=True).stdout


def reading_problem(codec, channels, path, samples):
    """What other tools read of a WAV file that is not so, if anything."""
    if shutil.which("soxi"):
        found = [int(output(["soxi", option, path])) for option in ("-c", "-r", "-b", "-s")]
        if found != [len(channels), codec.rate, codec.depth, samples]:
            return f"soxi reads {found}"
    if shutil.which("mediainfo"):
        form = "--Inform=Audio;%Format%,%Channels%,%SamplingRate%,%BitDepth%,%ChannelLayout%"
        names = " ".join(NAMES.get(channel, channel) for channel in channels).strip()
        wanted = f"PCM,{len(channels)},{codec.rate},{codec.depth},{names}"
        found = output(["mediainfo", form, path]).decode().strip()
        if found != wanted:
            return f"mediainfo reads {found}, and not {wanted}"
    return None


def is_plain(sequence, mix):
    """Whether the mix is one layer of one element without gains and trims, so that its samples are those of the substreams."""
    sub_mix = mix.sub_mixes[0]
    element = sequence.elements[sub_mix.elements[0][0]]
    gains = [one for _, one in sub_mix.elements] + [sub_mix.output]
    return (len(sequence.elements) == len(sub_mix.elements) == 1 and len(element.layers) == 1 and not element.layers[0].gain
            and all(gain(one.default) == 10 ** 12 for one in gains)
            and all(trims == (0, 0) and not blocks for trims, blocks, _ in sequence.units))


def stock_problem(ffmpeg, sequence, mix, path, wave):
    """Whether a stock decoder gives other samples for a plain sequence. The coded channels are paired as those of a WAV file."""
    codec = sequence.codec
    size = codec.depth // 8
    element = sequence.elements[mix.sub_mixes[0].elements[0][0]]
    layout = element.layers[0].layout
    # The order in which a layer has its channels: pairs first, then the single ones.
    singles = [channel for channel in ("C", "Lfe", "M") if channel in layout.channels]
    pairs = [one for left in ("L", "Ls", "Lss", "Lrs", "Ltf", "Ltb") if left in layout.channels
             for one in (left, "R" + left[1:])]
    rows = {}
    for stream, (_, channels) in enumerate(element.substreams):
        data = output([ffmpeg, "-v", "error", "-i", path, "-map", f"0:{stream}", "-c:a", f"pcm_s{codec.depth}le", "-f",
                       f"s{codec.depth}le", "-"])
        for c in range(channels):
            rows[(pairs + singles)[len(rows)]] = [data[at:at + size] for at in range(c * size, len(data), channels * size)]
    mixed = b"".join(one for tick in zip(*(rows[channel] for channel in layout.channels)) for one in tick)
    same = mixed == wave[68:68 + len(mixed)] and len(wave) - 68 == len(mixed) + len(mixed) % 2
    return None if same else "ffmpeg gives other samples"


class Trial:
    """Plays each mix of each sequence for each target, and counts."""

    def __init__(self, tool, folder):
        self.tool, self.folder = tool, folder
        self.passed = self.failed = self.stock = 0
        self.ffmpeg = shutil.which("ffmpeg")
        if self.ffmpeg and b" iamf " not in output([self.ffmpeg, "-hide_banner", "-demuxers"]):
            self.ffmpeg = None

    def run(self, words, path):
        with open(path, "rb") as source:
            done = subprocess.run([self.tool, *words], stdin=source, capture_output=True, check=False)
        return done.returncode, done.stdout, done.stderr.decode("utf-8", "replace").strip()

    def judge(self, name, problem):
        if problem:
            self.failed += 1
            print(f"failed: {name}: {problem}")
        else:
            self.passed += 1

    def unplayed(self, answer, code):
        status, wave, notes = answer
        good = status == 1 and not wave and notes == f"unplayable {code}"
        return None if good else f"status {status}, {notes}, and not unplayable {code}"

    def problem(self, sequence, mix, word, path, real):
        """The first thing that is wrong where the mix is played for the target."""
        answer = self.run(["play", str(mix.id), word], path)
        code = refusal(sequence, mix, word)
        if code:
            return self.unplayed(answer, code)
        status, wave, notes = answer
        if status != 0:
            return f"status {status}, {notes}"
        channels = channels_of(sequence, mix, word)
        problem = sample_problem(sequence, mix, word, channels, wave)
        if problem or not real:
            return problem
        written = os.path.join(self.folder, "written.wav")
        with open(written, "wb") as out:
            out.write(wave)
        samples = (len(wave) - 68) // (len(channels) * sequence.codec.depth // 8)
        problem = reading_problem(sequence.codec, channels, written, samples)
        if not problem and self.ffmpeg and word != "acn" and is_plain(sequence, mix):
            self.stock += 1
            problem = stock_problem(self.ffmpeg, sequence, mix, path, wave)
        return problem

    def play(self, name, path, real):
        with open(path, "rb") as source:
            sequence = Sequence(source.read())
        for mix in sequence.mixes:
            for word in WORDS:
                self.judge(f"{name}: play {mix.id} {word}", self.problem(sequence, mix, word, path, real))
        free = max(mix.id for mix in sequence.mixes) + 1
        self.judge(f"{name}: a mix that is not there", self.unplayed(self.run(["play", str(free), "stereo"], path), 50))

    def play_files(self, corpus):
        for name in sorted(os.listdir(corpus)):
            path = os.path.join(corpus, name)
            if not name.endswith(".iamf") or self.run(["check"], path)[0] != 0:
                continue
            with open(path, "rb") as source:
                if b"fLaC" in source.read(100) and not shutil.which("flac"):
                    print(f"skipped: {name}: there is no flac here")
                    continue
            self.play(name, path, True)

    def play_random(self):
        path = os.path.join(self.folder, "random.iamf")
        for seed in range(RANDOM):
            with open(path, "wb") as out:
                out.write(Maker(seed).sequence())
            status, _, notes = self.run(["check"], path)
            if status != 0:
                self.judge(f"random sequence {seed}", f"check: status {status}, {notes}")
            else:
                self.play(f"random sequence {seed}", path, False)


def main():
    tool, folders = sys.argv[1], sys.argv[2:]
    with tempfile.TemporaryDirectory() as folder:
        trial = Trial(tool, folder)
        if trial.run(["play", "0", "stereo"], os.devnull)[0] == 2:
            print("skipped: this program has no command that plays")
            print("0 passed, 0 failed")
            return 0
        for name in ("soxi", "mediainfo"):
            if not shutil.which(name):
                print(f"not there: {name}")
        if not trial.ffmpeg:
            print("not there: an ffmpeg that reads IAMF")
        for corpus in folders:
            trial.play_files(corpus)
        trial.play_random()
    print(f"{trial.stock} compared with ffmpeg too")
    print(f"{trial.passed} passed, {trial.failed} failed")
    return 1 if trial.failed else 0


if __name__ == "__main__":
    sys.exit(main())
