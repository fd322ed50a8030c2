#!/usr/bin/env python3
"""A second reader of pcap files, written from docs/FORMATS.md alone, to compare `sflow pcap` with.

    compare/pcap.py [--count] < FILE

Writes what `sflow pcap` is to write, and ends with its status: 0, or 5 with the text of the fault on standard error.
"""
import sys

COLLECTOR = 6343
MOST = 262144
REASONS = ("short", "notip", "badip", "fragment", "notudp", "port", "badlen", "cut")


class Passed(Exception):
    """Why a frame is passed over."""


class Broken(Exception):
    """Where the input is no pcap file, and how."""


def packets(data):
    """The arrival and the bytes of each packet, up to the end of the file or to its fault."""
    if data[:4] not in (b"\xa1\xb2\xc3\xd4", b"\xd4\xc3\xb2\xa1"):
        raise Broken(0, "magic")
    order = "big" if data[0] == 0xA1 else "little"

    def number(at, size=4):
        return int.from_bytes(data[at : at + size], order)

    if len(data) < 8 or (number(4, 2), number(6, 2)) != (2, 4):
        raise Broken(4, "version")
    if len(data) < 24 or number(20) != 1:
        raise Broken(20, "link")
    at = 24
    while at < len(data):
        left = len(data) - at
        if left >= 12 and number(at + 8) > MOST:
            raise Broken(at + 8, "long")
        if left < 16 or left < 16 + number(at + 8):
            raise Broken(at, "cut")
        yield number(at) * 1000 + number(at + 4) // 1000, data[at + 16 : at + 16 + number(at + 8)]
        at += 16 + number(at + 8)


def payload(frame):
    """The sender's address and port, and the bytes that it sent to the collector."""
    captured = len(frame)

    def pair(at):
        return int.from_bytes(frame[at : at + 2], "big")

    def refuse(applies, reason):
        if applies:
            raise Passed(reason)

    kind = 12
    refuse(kind + 2 > captured, "short")
    for _ in range(2):
        if pair(kind) in (0x8100, 0x88A8):
            kind += 4
            refuse(kind + 2 > captured, "short")
    refuse(pair(kind) not in (0x0800, 0x86DD), "notip")
    base, six = kind + 2, pair(kind) == 0x86DD
    refuse(base + (40 if six else 20) > captured, "short")
    version, words = divmod(frame[base], 16)
    if six:
        refuse(version != 6, "badip")
        protocol, source = frame[base + 6], frame[base + 8 : base + 24]
        udp = base + 40
        end = udp + pair(base + 4)
    else:
        refuse(version != 4 or words < 5 or pair(base + 2) < 4 * words, "badip")
        refuse(pair(base + 6) & 0x3FFF, "fragment")
        protocol, source = frame[base + 9], frame[base + 12 : base + 16]
        udp = base + 4 * words
        end = base + pair(base + 2)
    refuse(protocol != 17, "notudp")
    refuse(udp + 8 > end, "badlen")
    refuse(udp + 8 > captured, "cut")
    refuse(pair(udp + 2) != COLLECTOR, "port")
    length = pair(udp + 4)
    refuse(length < 8 or udp + length > end, "badlen")
    refuse(udp + length > captured, "cut")
    return source, pair(udp), frame[udp + 8 : udp + length]


def item(arrival, source, port, data):
    """An entry of a capture of version 2."""
    kind = 1 if len(source) == 4 else 2
    words = [word.to_bytes(4, "big") for word in (1, kind, port, len(data))]
    return words[0] + arrival.to_bytes(8, "big") + words[1] + source + words[2] + words[3] + data + bytes(-len(data) % 4)


def main():
    counted = sys.argv[1:] == ["--count"]
    counts = dict.fromkeys(("taken", *REASONS), 0)
    items, fault = [], None
    try:
        for arrival, frame in packets(sys.stdin.buffer.read()):
            try:
                items.append(item(arrival, *payload(frame)))
                counts["taken"] += 1
            except Passed as passed:
                counts[passed.args[0]] += 1
    except Broken as broken:
        fault = broken.args
    header, end = b"SFLC" + (2).to_bytes(4, "big"), bytes(4) + len(items).to_bytes(8, "big")
    if not counted:
        written = b"".join([header, *items, end]) if not fault else b"".join([header, *items]) if items else b""
    elif not fault:
        line = " ".join(f"{name} {count}" for name, count in counts.items())
        written = f"pcap packets {sum(counts.values())} {line}\n".encode()
    else:
        written = b""
    sys.stdout.buffer.write(written)
    if fault:
        print("sflow: bad input at {} kind {}".format(*fault), file=sys.stderr)
        sys.exit(5)


if __name__ == "__main__":
    main()
