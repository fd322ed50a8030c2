#!/usr/bin/env python3
"""A second reader of captures, written from docs/FORMATS.md alone, to compare `sflow` with.

    compare/decode.py check|zero|show < CAPTURE

Prints what `sflow check`, `sflow check --zero` and `sflow show` are to print for a lawful capture.
"""
import struct
import sys


class Fault(Exception):
    """The first fault of a datagram: its place and its kind."""


class Reader:
    """Reads items from the bytes of one body, whose first byte stands at a place in the datagram."""

    def __init__(self, data, base, zero):
        self.data, self.base, self.zero, self.at = data, base, zero, 0

    def place(self):
        return self.base + self.at

    def padding(self, count):
        for byte in self.data[self.at : self.at + count]:
            if byte and self.zero:
                raise Fault(self.place(), "pad")
            self.at += 1

    def enough(self, count):
        if len(self.data) - self.at < count + -count % 4:
            raise Fault(self.place(), "short")

    def fixed(self, count):
        self.enough(count)
        found = self.data[self.at : self.at + count]
        self.at += count
        self.padding(-count % 4)
        return found

    def word(self):
        return int.from_bytes(self.fixed(4), "big")

    def hyper(self):
        return int.from_bytes(self.fixed(8), "big")

    def words(self, count):
        return [self.word() for _ in range(count)]

    def opaque(self):
        return self.fixed(self.word())

    def address(self):
        at, kind = self.place(), self.word()
        if kind > 2:
            raise Fault(at, "address")
        return address_text(self.fixed((0, 4, 16)[kind]))

    def tail(self):
        rest = self.data[self.at :]
        return f" tail {rest.hex()}" if rest else ""

    def frames(self, text_of):
        """The texts of a list of frames, each body read before the padding behind it."""
        texts = []
        for _ in range(self.word()):
            form, count = self.word(), self.word()
            self.enough(count)
            body = Reader(self.data[self.at : self.at + count], self.place(), self.zero)
            texts += text_of(form, body)
            self.at += count
            self.padding(-count % 4)
        return texts


def address_text(data):
    if len(data) == 16:
        return ":".join(data[at : at + 2].hex() for at in range(0, 16, 2))
    return ".".join(map(str, data)) or "unknown"


def mac_text(data):
    return ":".join(f"{byte:02x}" for byte in data)


def list_text(numbers):
    return ",".join(map(str, numbers)) or "-"


def numbers_text(name, numbers, body):
    return f"  {name} {' '.join(map(str, numbers))}{body.tail()}"


def other_text(name, form, body):
    return f"{name} {form >> 12}:{form & 4095} bytes {len(body.data)} {body.data.hex() or '-'}"


def header(body):
    protocol, length, stripped = body.words(3)
    data = body.opaque()
    return f"  header protocol {protocol} length {length} stripped {stripped} bytes {len(data)} {data.hex() or '-'}{body.tail()}"


def ethernet(body):
    length, source, destination, kind = body.word(), body.fixed(6), body.fixed(6), body.word()
    return f"  ethernet length {length} src {mac_text(source)} dst {mac_text(destination)} type {kind}{body.tail()}"


def packet(name, size, last):
    def text(body):
        length, protocol = body.words(2)
        source, destination = address_text(body.fixed(size)), address_text(body.fixed(size))
        sport, dport, flags, value = body.words(4)
        ends = f"src {source} dst {destination} sport {sport} dport {dport}"
        return f"  {name} length {length} protocol {protocol} {ends} flags {flags} {last} {value}{body.tail()}"

    return text


def switch(body):
    vlans = body.words(4)
    return "  switch src {}/{} dst {}/{}".format(*vlans) + body.tail()


def router(body):
    hop, (source, destination) = body.address(), body.words(2)
    return f"  router nexthop {hop} src {source} dst {destination}{body.tail()}"


def segment(body):
    at, kind = body.place(), body.word()
    if kind not in (1, 2):
        raise Fault(at, "segment")
    return f"{'set' if kind == 1 else 'seq'}:{list_text(body.words(body.word()))}"


def gateway(body):
    hop, (own, source, peer) = body.address(), body.words(3)
    path = ";".join([segment(body) for _ in range(body.word())]) or "-"
    communities, preference = list_text(body.words(body.word())), body.word()
    systems = f"as {own} src {source} peer {peer}"
    return f"  gateway nexthop {hop} {systems} path {path} communities {communities} localpref {preference}{body.tail()}"


def user(body):
    (source, name), (destination, other) = [(body.word(), body.opaque()) for _ in range(2)]
    return f"  user src {source} {name.hex() or '-'} dst {destination} {other.hex() or '-'}{body.tail()}"


def url(body):
    direction, path, host = body.word(), body.opaque(), body.opaque()
    return f"  url direction {direction} url {path.hex() or '-'} host {host.hex() or '-'}{body.tail()}"


def mpls(body):
    hop, came_in, went_out = body.address(), body.words(body.word()), body.words(body.word())
    return f"  mpls nexthop {hop} in {list_text(came_in)} out {list_text(went_out)}{body.tail()}"


def nat(body):
    return f"  nat src {body.address()} dst {body.address()}{body.tail()}"


def processor(body):
    return numbers_text("processor", [*body.words(3), body.hyper(), body.hyper()], body)


def interface(body):
    numbers = [*body.words(2), body.hyper(), *body.words(2), body.hyper(), *body.words(6), body.hyper(), *body.words(6)]
    return numbers_text("if", numbers, body)


def dot3(body):
    return numbers_text("dot3", body.words(13), body)


def vlan(body):
    return numbers_text("vlan", [body.word(), body.hyper(), *body.words(4)], body)


FLOWS = {1: header, 2: ethernet, 3: packet("ipv4", 4, "tos"), 4: packet("ipv6", 16, "priority"), 1001: switch,
         1002: router, 1003: gateway, 1004: user, 1005: url, 1006: mpls, 1007: nat}
COUNTERS = {1: interface, 2: dot3, 5: vlan, 1001: processor}


def record_of(table):
    return lambda form, body: [table[form](body) if form in table else other_text("  record", form, body)]


def source_and_ports(form, body):
    """The texts of a sample's source and of its ports, each of one word in a compact sample, of two in an expanded one."""
    def pair(shift):
        if form > 2:
            return "{}:{}".format(*body.words(2))
        word = body.word()
        return f"{word >> shift}:{word & (1 << shift) - 1}"

    return pair


def sample(form, body):
    if form not in (1, 2, 3, 4):
        return [other_text(" sample", form, body)]
    pair, expanded = source_and_ports(form, body), "x" if form > 2 else ""
    sequence, source = body.word(), pair(24)
    if form % 2:
        rate, pool, drops = body.words(3)
        ports = f"in {pair(30)} out {pair(30)}"
        line = f" flow{expanded} seq {sequence} source {source} rate {rate} pool {pool} drops {drops} {ports}"
    else:
        line = f" counters{expanded} seq {sequence} source {source}"
    records = body.frames(record_of(FLOWS if form % 2 else COUNTERS))
    return [f"{line} records {len(records)}{body.tail()}", *records]


def datagram(data, zero):
    body = Reader(data, 0, zero)
    if body.word() != 5:
        raise Fault(0, "version")
    agent, (sub_agent, sequence, uptime) = body.address(), body.words(3)
    samples = 0

    def counted(form, body):
        nonlocal samples
        samples += 1
        return sample(form, body)

    lines = body.frames(counted)
    if body.at < len(data):
        raise Fault(body.at, "trailing")
    return [f"datagram agent {agent} sub {sub_agent} seq {sequence} uptime {uptime} samples {samples}", *lines]


def entries(capture):
    """The arrival, the sender (none in version 1) and the bytes of each entry."""
    at = 8
    while at < len(capture):
        sender = None
        if capture[7] == 2:
            if capture[at : at + 4] == bytes(4):
                break
            kind = int.from_bytes(capture[at + 12 : at + 16], "big")
            size = (0, 4, 16)[kind]
            port = int.from_bytes(capture[at + 16 + size : at + 20 + size], "big")
            sender = f"{address_text(capture[at + 16 : at + 16 + size])} {port}"
            arrival, length = struct.unpack(">QI", capture[at + 4 : at + 12] + capture[at + 20 + size : at + 24 + size])
            at += 12 + size
        else:
            arrival, length = struct.unpack_from(">QI", capture, at)
        yield arrival, sender, capture[at + 12 : at + 12 + length]
        at += 12 + length + -length % 4


def main():
    mode, faulty, number = sys.argv[1], 0, 0
    for number, (arrival, sender, data) in enumerate(entries(sys.stdin.buffer.read()), 1):
        lines = []
        try:
            lines = datagram(data, mode == "zero")
        except Fault as fault:
            faulty += 1
            place, kind = fault.args
            lines = [f"fault at {place} kind {kind}"]
            if mode != "show":
                print(f"entry {number} at {place} kind {kind}")
        if mode == "show":
            place = f" from {sender}" if sender else ""
            print(f"entry {number} at {arrival}{place} bytes {len(data)}", *lines, sep="\n")
    if mode != "show":
        print(f"checked {number} faulty {faulty}")


if __name__ == "__main__":
    main()
