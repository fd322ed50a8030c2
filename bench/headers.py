#!/usr/bin/env python3
"""Writes 4,096 sampled headers for measurements, 129 bytes for each: a length and 128 bytes, zeros behind the header.

    bench/headers.py made OUT          headers of all kinds, drawn with a fixed seed
    bench/headers.py OUT CAPTURE..     the raw headers of the flow samples of captures, again and again
"""
import random
import struct
import sys

COUNT = 4096


def items(bytes_, at, count):
    """The format and the body of each frame of a list."""
    for _ in range(count):
        form, length = struct.unpack_from(">II", bytes_, at)
        yield form, bytes_[at + 8:at + 8 + length]
        at += 8 + length + -length % 4


def headers_in(datagram):
    address, = struct.unpack_from(">I", datagram, 4)
    at = 8 + {0: 0, 1: 4, 2: 16}[address] + 12
    count, = struct.unpack_from(">I", datagram, at)
    for form, sample in items(datagram, at + 4, count):
        if form in (1, 3):
            behind = 28 if form == 1 else 40
            records, = struct.unpack_from(">I", sample, behind)
            for record, body in items(sample, behind + 4, records):
                if record == 1:
                    protocol, _, _, length = struct.unpack_from(">IIII", body)
                    if protocol == 1:
                        yield body[16:16 + min(length, 128)]


def headers_of(path):
    with open(path, "rb") as file:
        held = file.read()
    if held[:8] != b"SFLC\0\0\0\1":
        sys.exit(f"bench: {path} is no capture of version 1")
    at = 8
    while at < len(held):
        length, = struct.unpack_from(">I", held, at + 8)
        try:
            yield from headers_in(held[at + 12:at + 12 + length])
        except (struct.error, KeyError):
            pass  # no datagram
        at += 12 + length + -length % 4


def made():
    draw = random.Random(1)
    for _ in range(COUNT):
        frame = bytearray(draw.randbytes(128))
        shape, at = draw.randrange(8), 12
        for tag in range({1: 1, 2: 2, 5: 1}.get(shape, 0)):
            frame[at:at + 2] = (0x8100, 0x88A8)[tag].to_bytes(2, "big")
            at += 4
        if shape in (3, 5):
            frame[at:at + 3] = b"\x86\xdd\x60"
            frame[at + 8] = 6
        elif shape == 4:
            frame[at:at + 2] = b"\x08\x06"
        else:
            frame[at:at + 3] = b"\x08\x00" + (b"\x48" if shape == 6 else b"\x45")
            frame[at + 8:at + 10] = b"\0\0"
            frame[at + 11] = 17 if shape == 7 else 6
        yield bytes(frame)


def main(words):
    if words[0] == "made":
        out, found = words[1], list(made())
    else:
        out, found = words[0], [header for path in words[1:] for header in headers_of(path)]
    if not found:
        sys.exit("bench: no headers")
    with open(out, "wb") as file:
        for k in range(COUNT):
            header = found[k % len(found)]
            file.write(bytes([len(header)]) + header + bytes(128 - len(header)))
    print(f"{out}: {len(found)} different places", file=sys.stderr)


main(sys.argv[1:])
