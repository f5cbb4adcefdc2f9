"""Writes the MP4 files of `hostile_files.py`. crates/spec_boxes has the boxes.

All hold LPCM, mono, 16 bits and one sample a frame, so that a unit's one frame is an OBU of four bytes.
"""

import struct

import streams

UNIT = streams.frame(0, 2)


def box(kind, *parts):
    payload = b"".join(parts)
    return struct.pack(">I", 8 + len(payload)) + kind + payload


def full(kind, *parts, version=0):
    return box(kind, bytes([version, 0, 0, 0]), *parts)


def numbers(*values):
    return struct.pack(f">{len(values)}I", *values)


def table(kind, count, entries, version=0):
    """A table that says so many entries, and has the bytes of some."""
    return full(kind, numbers(count), entries, version=version)


def repeated(count, *values):
    """The bytes of so many equal entries."""
    return numbers(*values) * count


def entry(*before):
    """The sample entry, with some boxes before `iacb`."""
    config = streams.descriptors(1, 16, streams.MONO)
    fields = bytes(6) + b"\0\1" + bytes(10) + b"\0\x10" + bytes(8)
    return box(b"iamf", fields, *before, box(b"iacb", b"\1", streams.leb(len(config)), config))


def description(*before):
    return table(b"stsd", 1, entry(*before))


def track(stbl, *before):
    """A track with these boxes in its `stbl`, and some before its `mdia`."""
    return box(b"trak", *before, box(b"mdia", box(b"minf", box(b"stbl", *stbl))))


def sizes(length, count):
    """A table of sizes that are written one by one."""
    return full(b"stsz", numbers(0, count), repeated(count, length))


def places(values):
    return table(b"stco", len(values), struct.pack(f">{len(values)}I", *values))


def tables(length, chunk_places, per_chunk=1):
    """The four tables of chunks with as many samples each."""
    count = len(chunk_places) * per_chunk
    runs = table(b"stsc", 1, numbers(1, per_chunk, 1)) if chunk_places else table(b"stsc", 0, b"")
    return [table(b"stts", 1, numbers(count, 1)), runs, sizes(length, count), places(chunk_places)]


def first_data(data):
    """The media data at the file's front, and where they begin."""
    front = box(b"ftyp", b"iso6", numbers(0), b"iso6iamf") + box(b"mdat", data)
    return front, len(front) - len(data)


def chunks_of(data, number, length, step):
    """A file with so many chunks of one sample, each so many bytes after the last."""
    front, begin = first_data(data)
    return front + box(b"moov", track([description(), *tables(length, [begin + i * step for i in range(number)])]))


def with_boxes(number, kind=b"free", payload=b"", within="top"):
    """A file with two units, and so many small boxes in one of its boxes."""
    many = box(kind, payload) * number
    front, begin = first_data(UNIT * 2)
    stbl = [description(many if within == "entry" else b""), *tables(4, [begin], 2)]
    if within == "stbl":
        stbl.append(many)
    if within == "moov":
        return front + box(b"moov", many, track(stbl))
    if within == "edts":
        return front + box(b"moov", track(stbl, box(b"edts", many)))
    return front + box(b"moov", track(stbl, many if within == "trak" else b"")) + (many if within == "top" else b"")


def nested(number, kinds):
    """Boxes in boxes, each up to the file's end, whose kinds take turns."""
    front, _ = first_data(UNIT)
    heads = [struct.pack(">I", 8 * (number - i)) + kinds[min(i, len(kinds) - 1)] for i in range(number)]
    return front + b"".join(heads)


def with_tables(number, *replaced, before=b"", more=b""):
    """A file of units in one chunk each, where some tables stand in the place of those of their kind."""
    front, begin = first_data(UNIT * number)
    stbl = [description(), *tables(4, [begin + 4 * i for i in range(number)])]
    for new in replaced:
        stbl = [new if old[4:8] == new[4:8] else old for old in stbl]
    return front + box(b"moov", track([*stbl, more], before))
