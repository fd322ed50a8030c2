#!/usr/bin/env python3
"""Makes a pcap file of COUNT packets to compare `sflow pcap` with a second reader.

    compare/make_pcap.py SEED COUNT > FILE

Most frames carry a UDP datagram to port 6343; in some a field has another value, or the frame is cut. The order of the
bytes follows from the seed.
"""
import random
import struct
import sys


def udp(draw):
    """A UDP datagram, whose fields mostly fit."""
    data = draw.randbytes(draw.choice((0, 1, 27, 28, 400)))
    port = draw.choice((6343, 6343, 6343, 6343, 6344, 53))
    length = 8 + len(data) + draw.choice((0, 0, 0, 0, 0, -1, 1, -8 - len(data)))
    return struct.pack(">HHHH", draw.randrange(65536), port, length % 65536, draw.randrange(65536)) + data


def ipv4(draw, inner):
    words = draw.choice((5, 5, 5, 5, 6, 15, 4))
    options = draw.randbytes(max(0, 4 * words - 20))
    total = 20 + len(options) + len(inner) + draw.choice((0, 0, 0, 0, -1, 1, -len(inner) - 1))
    version = draw.choice((4, 4, 4, 4, 4, 4, 4, 6))
    protocol = draw.choice((17, 17, 17, 17, 17, 6))
    parts = draw.choice((0, 0, 0, 0, 0x4000, 0x8000, 0x2000, 1, 0x1FFF))
    head = struct.pack(">BBHHHBBH", version * 16 + words, 0, total % 65536, 0, parts, 64, protocol, 0)
    return head + draw.randbytes(8) + options + inner


def ipv6(draw, inner):
    version = draw.choice((6, 6, 6, 6, 4))
    length = len(inner) + draw.choice((0, 0, 0, 0, -1, 1))
    head = struct.pack(">IHBB", version << 28, length % 65536, draw.choice((17, 17, 17, 0, 44)), 64)
    return head + draw.randbytes(32) + inner


def frame(draw):
    tags = b"".join(
        struct.pack(">HH", draw.choice((0x8100, 0x88A8)), draw.randrange(65536))
        for _ in range(draw.choice((0, 0, 0, 1, 1, 2, 2, 3)))
    )
    six = draw.random() < 0.3
    kind = draw.choice((0x86DD if six else 0x0800,) * 9 + (0x0806,))
    inner = udp(draw)
    packet = (ipv6 if six else ipv4)(draw, inner) + draw.randbytes(draw.choice((0, 0, 0, 6)))
    whole = draw.randbytes(12) + tags + struct.pack(">H", kind) + packet
    return whole[: draw.randrange(len(whole) + 1)] if draw.random() < 0.15 else whole


def main():
    seed, count = int(sys.argv[1]), int(sys.argv[2])
    draw = random.Random(seed)
    order = "<" if seed % 2 else ">"
    out = sys.stdout.buffer
    out.write(struct.pack(order + "IHHIIII", 0xA1B2C3D4, 2, 4, 0, 0, 65535, 1))
    for _ in range(count):
        data = frame(draw)
        out.write(struct.pack(order + "IIII", draw.randrange(1 << 32), draw.randrange(1000000), len(data), len(data)))
        out.write(data)


if __name__ == "__main__":
    main()
