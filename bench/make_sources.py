#!/usr/bin/env python3
"""Makes a capture of many sources, for measurements of memory: the same bytes for the same numbers.

    bench/make_sources.py STREAMS SOURCES FILE [--rounds ROUNDS]

There are STREAMS sub-agents, and SOURCES sources spread over them. Each source sends a counters sample with the counters of
its interface, in each of ROUNDS rounds (2 unless said otherwise), so that its window and the ledger of its interface
are in use. A datagram has at most eleven samples, and so at most 1,500 bytes.
"""
import argparse
import struct

SAMPLES = 11
CHUNK = 1 << 22


def counters_sample(index, number):
    counters = struct.pack(">IIQIIQ6IQ5II", index, 6, 10_000_000_000, 1, 3, 700 * number, number, 0, 0, 0, 0, 0,
                           500 * number, number, 0, 0, 0, 0, 0)
    return struct.pack(">IIIIIII", 2, 12 + 8 + len(counters), number, index, 1, 1, len(counters)) + counters


def datagram(stream, number, arrival, samples):
    return b"".join((struct.pack(">II4sIIII", 5, 1, struct.pack(">I", 0x0A000000 + stream), 0, number, arrival,
                                 len(samples)), *samples))


def entries(streams, sources, rounds):
    arrival = 1_000
    numbers = [0] * streams
    for turn in range(1, rounds + 1):
        for stream in range(streams):
            own = sources // streams + (stream < sources % streams)
            for first in range(1, own + 1, SAMPLES):
                numbers[stream] += 1
                samples = [counters_sample(index, turn) for index in range(first, min(first + SAMPLES, own + 1))]
                made = datagram(stream, numbers[stream], arrival, samples)
                yield struct.pack(">QI", arrival, len(made)) + made


def main():
    parser = argparse.ArgumentParser(description=__doc__, formatter_class=argparse.RawDescriptionHelpFormatter)
    parser.add_argument("streams", type=int)
    parser.add_argument("sources", type=int)
    parser.add_argument("file")
    parser.add_argument("--rounds", type=int, default=2)
    given = parser.parse_args()
    with open(given.file, "wb") as file:
        chunk, held = [b"SFLC\0\0\0\1"], 8
        for entry in entries(given.streams, given.sources, given.rounds):
            chunk.append(entry)
            held += len(entry)
            if held >= CHUNK:
                file.write(b"".join(chunk))
                chunk, held = [], 0
        file.write(b"".join(chunk))


main()
