#!/usr/bin/env python3
"""Makes a capture for measurements: the same bytes for the same seed, size and kind.

    bench/make_capture.py SEED BYTES KIND FILE [--malformed PER_MILLE] [--streams STREAMS] [--padding PADDING]

KIND is `plain`, datagrams of 28 to 1,400 bytes whose samples have a format outside the standard, or `flows`,
datagrams of about six flow samples, with a counters sample in every twentieth. The capture ends with the entry
that reaches BYTES. With --malformed about that many of a thousand entries are malformed datagrams. The datagrams are
of STREAMS sub-agents, 8 unless said otherwise, each with four sources of flow samples and four of counters samples.
PADDING is `none`, where each sampled header has 128 bytes, or `zero` or `stray`, where it has 126 and two bytes of
padding behind it, which are zero or not.
"""
import argparse
import random
import struct

CHUNK = 1 << 22
SOURCES = 4
RATE = 512
# Enterprise 8800, number 1.
FOREIGN_FORMAT = 8800 * 4096 + 1


class Stream:
    """One sub-agent of an agent, with its sequence number and those of its sources."""

    def __init__(self, number, rng):
        agent, sub_agent = divmod(number, 2)
        self.head = struct.pack(">IIBHBI", 5, 1, 10, agent, 1, sub_agent)
        self.started = rng.randrange(10_000)
        self.datagrams = 0
        self.flows = [0] * SOURCES
        self.pools = [rng.randrange(1 << 20) for _ in range(SOURCES)]
        self.polls = [0] * SOURCES

    def datagram(self, arrival, samples):
        self.datagrams += 1
        numbers = struct.pack(">III", self.datagrams, arrival + self.started, len(samples))
        return b"".join((self.head, numbers, *samples))


def foreign_samples(rng, noise):
    """Samples that fill a datagram up to a size spread evenly over 28 to 1,400 bytes."""
    left = rng.randrange(28, 1401) - 28
    samples = []
    while left >= 8:
        room = rng.randrange(8, left + 1) if len(samples) < 3 else left
        length = room - 8
        padding = -length % 4
        if padding > left - room:
            length -= length % 4
            padding = 0
        start = rng.randrange(len(noise) - length)
        head = struct.pack(">II", FOREIGN_FORMAT, length)
        samples.append(head + noise[start:start + length] + bytes(padding))
        left -= 8 + length + padding
    return samples


def flow_records(rng, padding):
    """A raw header record and a switch record."""
    ethernet = rng.randbytes(12) + b"\x08\x00"
    ipv4 = struct.pack(">BBHHHBBH", 0x45, 0, 1400, rng.randrange(1 << 16), 0x4000, 64, 6, 0) + rng.randbytes(8)
    tcp = struct.pack(">HHIIHHI", rng.randrange(1024, 1 << 16), 443, 1, 1, 0x5010, 512, 0)
    header = (ethernet + ipv4 + tcp + rng.randbytes(128))[:128]
    length = 128
    if padding != "none":
        length = 126
        header = header[:length] + (bytes(2) if padding == "zero" else b"\x5a\xa5")
    vlan = rng.randrange(1, 4095)
    return (struct.pack(">IIIIII", 1, 144, 1, 1418, 4, length) + header
            + struct.pack(">IIIIII", 1001, 16, vlan, 0, vlan, 0))


def flow_sample(stream, rng, records):
    source = rng.randrange(SOURCES)
    stream.flows[source] += 1
    stream.pools[source] = (stream.pools[source] + rng.randrange(1, 2 * RATE)) % (1 << 32)
    record = records[rng.randrange(len(records))]
    return struct.pack(">IIIIIIIIII", 1, 32 + len(record), stream.flows[source], source + 1, RATE,
                       stream.pools[source], 0, source + 1, (source + 1) % SOURCES + 1, 2) + record


def counters_sample(stream, rng):
    source = rng.randrange(SOURCES)
    stream.polls[source] += 1
    packets = 1000 * stream.polls[source]
    counters = struct.pack(">IIQIIQ6IQ5II", source + 1, 6, 10_000_000_000, 1, 3, 700 * packets, packets, 0, 0, 0, 0,
                           0, 500 * packets, packets, 0, 0, 0, 0, 0)
    return struct.pack(">IIIIIII", 2, 12 + 8 + len(counters), stream.polls[source], source + 1, 1, 1,
                       len(counters)) + counters


def flow_samples(stream, rng, records):
    if stream.datagrams % 20 == 19:
        return [counters_sample(stream, rng)] + [flow_sample(stream, rng, records) for _ in range(5)]
    return [flow_sample(stream, rng, records) for _ in range(rng.choice((5, 6, 6, 6)))]


def broken(rng, datagram):
    """The datagram cut in half, of another version, or with bytes behind it."""
    return rng.choice((datagram[:len(datagram) // 2], b"\0\0\0\4" + datagram[4:], datagram + bytes(4)))


def entries(rng, kind, per_mille, count, padding):
    """The entries of an endless capture of so many streams."""
    streams = [Stream(number, rng) for number in range(count)]
    noise = rng.randbytes(1 << 20)
    records = [flow_records(rng, padding) for _ in range(1024)]
    arrival = 1_000
    while True:
        stream = streams[rng.randrange(count)]
        samples = foreign_samples(rng, noise) if kind == "plain" else flow_samples(stream, rng, records)
        datagram = stream.datagram(arrival, samples)
        if per_mille and rng.randrange(1000) < per_mille:
            datagram = broken(rng, datagram)
        yield struct.pack(">QI", arrival, len(datagram)) + datagram + bytes(-len(datagram) % 4)
        arrival += rng.randrange(3)


def write_capture(file, size, made):
    chunk = [b"SFLC\0\0\0\1"]
    held, written = 8, 0
    while written + held < size:
        entry = next(made)
        chunk.append(entry)
        held += len(entry)
        if held >= CHUNK:
            file.write(b"".join(chunk))
            written, held, chunk = written + held, 0, []
    file.write(b"".join(chunk))


def main():
    parser = argparse.ArgumentParser(description=__doc__, formatter_class=argparse.RawDescriptionHelpFormatter)
    parser.add_argument("seed", type=int)
    parser.add_argument("bytes", type=int)
    parser.add_argument("kind", choices=("plain", "flows"))
    parser.add_argument("file")
    parser.add_argument("--malformed", type=int, default=0, metavar="PER_MILLE")
    parser.add_argument("--streams", type=int, default=8)
    parser.add_argument("--padding", choices=("none", "zero", "stray"), default="none")
    words = parser.parse_args()
    rng = random.Random(f"{words.kind} {words.seed}")
    made = entries(rng, words.kind, words.malformed, words.streams, words.padding)
    with open(words.file, "wb") as file:
        write_capture(file, words.bytes, made)


if __name__ == "__main__":
    main()
