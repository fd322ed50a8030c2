#!/usr/bin/env python3
"""Writes the made examples of this folder, the same bytes each time.

    examples/make.py [FOLDER]

`first.sflc` holds one datagram without samples. `streams.sflc` holds five entries of three streams: the sub-agents
0 and 1 of the agent 10.0.0.1 and the sub-agent 0 of the agent 2001:db8::1. Its fourth entry is malformed, a datagram
whose last byte is missing, so that its sample count at place 24 is short.

Two captures of this folder come from real agents: `open_vswitch.sflc` from Open vSwitch 3.1.0, and `pmacct.sflc` from
the sfprobe of pmacct 1.7.7. `open_vswitch.pcap` has the same datagrams as `open_vswitch.sflc`. Of these are made:
`lossy.sflc`, pmacct's datagrams but for eight, and `every_second.sflc`, every second datagram of Open vSwitch.

The others show what an operator may meet, each with one datagram a second, without samples, of the agent 10.0.0.1:
`restart.sflc`: 30 datagrams; then the agent starts anew, 33 s after its first start, so that its uptime and its
numbers begin again, and sends 20 more. `clock_set_back.sflc`: 10 datagrams; then the recorder's clock is set back by
60 s, 10 more come, and the agent starts anew and sends 5.
"""
import ipaddress
import pathlib
import struct
import sys


def address(text):
    """A word that says which kind, 1 IPv4 or 2 IPv6, and the bytes."""
    host = ipaddress.ip_address(text)
    return struct.pack(">I", 1 if host.version == 4 else 2) + host.packed


def datagram(agent, sub_agent, sequence, uptime):
    """A datagram of version 5 without samples; the uptime is in ms."""
    return struct.pack(">I", 5) + address(agent) + struct.pack(">IIII", sub_agent, sequence, uptime, 0)


def entry(arrival, data):
    """The arrival in ms, the length, the bytes, and zeros up to a multiple of four."""
    return struct.pack(">QI", arrival, len(data)) + data + bytes(-len(data) % 4)


def capture(*entries):
    return b"SFLC" + struct.pack(">I", 1) + b"".join(entries)


def entries(data):
    """The arrival and the bytes of each entry of a capture."""
    at = 8
    while at < len(data):
        arrival, length = struct.unpack(">QI", data[at : at + 12])
        yield arrival, data[at + 12 : at + 12 + length]
        at += 12 + length + -length % 4


def seconds(arrival, uptime, count):
    """So many datagrams, one a second, numbered from the uptime's second on."""
    return [
        entry(arrival + 1000 * step, datagram("10.0.0.1", 0, uptime // 1000 + step, uptime + 1000 * step))
        for step in range(count)
    ]


def some(name, is_kept):
    """The entries of a real capture whose numbers, counting from 1, are kept."""
    data = (pathlib.Path(__file__).parent / name).read_bytes()
    return capture(*(entry(*it) for number, it in enumerate(entries(data), 1) if is_kept(number)))


LOST = {5, 12, 13, 20, 33, 40, 47, 60}

EXAMPLES = {
    "lossy.sflc": some("pmacct.sflc", lambda number: number not in LOST),
    "every_second.sflc": some("open_vswitch.sflc", lambda number: number % 2 == 1),
    "restart.sflc": capture(*seconds(1001000, 1000, 30), *seconds(1034000, 1000, 20)),
    "clock_set_back.sflc": capture(
        *seconds(1001000, 1000, 10),
        *seconds(951000, 11000, 10),
        *seconds(1022000, 1000, 5),
    ),
    "first.sflc": capture(
        entry(1000, datagram("10.0.0.1", 0, 1, 1000)),
    ),
    "streams.sflc": capture(
        entry(1000, datagram("10.0.0.1", 0, 1, 1000)),
        entry(1200, datagram("10.0.0.1", 1, 7, 500)),
        entry(1500, datagram("2001:db8::1", 0, 4294967295, 90000)),
        entry(1800, datagram("10.0.0.1", 0, 2, 1800)[:-1]),
        entry(2000, datagram("10.0.0.1", 0, 3, 2000)),
    ),
}


def main():
    folder = pathlib.Path(sys.argv[1]) if len(sys.argv) > 1 else pathlib.Path(__file__).parent
    for name, data in EXAMPLES.items():
        (folder / name).write_bytes(data)


if __name__ == "__main__":
    main()
