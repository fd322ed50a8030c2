#!/usr/bin/env python3
"""A second collector, written from docs/PROMISES.md alone, to compare `sflow replay` with.

    compare/collect.py STREAMS SOURCES DATAGRAM_WIDTH SAMPLE_WIDTH BOOT_SLACK [--interfaces] < CAPTURE

Prints what `sflow replay` is to print for a lawful capture under these limits, with `--interfaces` or without, the line of
the headers' classes and those of the program's three consumers too. It keeps all counted numbers.
"""
import sys

from decode import Fault, datagram, entries

WORD = 1 << 32

# Where the thirteen counters stand among the fields of a record of interface counters; those of bytes have 64 bits.
COUNTERS = {place: WORD for place in range(5, 18)}
COUNTERS[5] = COUNTERS[12] = WORD * WORD


CLASSES = ("unscanned", "short", "length", "undefined", "arp", "ipv4", "ipv6", "other", "badip", "tagged", "tcp", "udp")

# The greatest lengths of the first six ranges of frame lengths; the seventh is above them.
LENGTHS = (64, 127, 255, 511, 1023, 1518)


class Facts:
    """What the first 128 bytes of a sampled header say: the kind, the VLAN, the protocol and the destination port."""

    def __init__(self, protocol, header):
        self.data = header[:128]
        self.vlan = self.proto = self.port = None
        layers = {1: self.ethernet, 11: lambda: self.ipv4(0), 12: lambda: self.ipv6(0)}
        self.kind = layers[protocol]() if protocol in layers else "unscanned"

    def number(self, at):
        return int.from_bytes(self.data[at : at + 2], "big")

    def ethernet(self):
        if len(self.data) < 14:
            return "short"
        at = 12
        if self.number(at) in (0x8100, 0x88A8) and len(self.data) >= 16:
            self.vlan = self.number(14) % 4096
        for _ in range(2):
            if self.number(at) in (0x8100, 0x88A8):
                at += 4
                if at + 2 > len(self.data):
                    return "short"
        kind = self.number(at)
        if kind <= 1500:
            return "length"
        if kind < 1536:
            return "undefined"
        layers = {0x0806: lambda base: "arp", 0x0800: self.ipv4, 0x86DD: self.ipv6}
        return layers[kind](at + 2) if kind in layers else "other"

    def ipv4(self, base):
        if base + 20 > len(self.data):
            return "short"
        if self.data[base] // 16 != 4 or self.data[base] % 16 < 5:
            return "badip"
        if self.number(base + 6) % 8192 == 0:
            self.transport(self.data[base + 9], base + self.data[base] % 16 * 4)
        self.proto = self.data[base + 9]
        return "ipv4"

    def ipv6(self, base):
        if base + 40 > len(self.data):
            return "short"
        if self.data[base] // 16 != 6:
            return "badip"
        self.proto = self.data[base + 6]
        self.transport(self.proto, base + 40)
        return "ipv6"

    def transport(self, proto, at):
        if proto in (6, 17) and at + 4 <= len(self.data):
            self.port = self.number(at + 2)


class Headers:
    """How many headers of each class there are, and what the program's three consumers count."""

    def __init__(self):
        self.classes = dict.fromkeys(CLASSES, 0)
        self.lengths = [0] * (len(LENGTHS) + 1)
        self.ports = {}

    def take(self, protocol, frame_length, header):
        facts = Facts(protocol, header)
        self.classes[facts.kind] += 1
        self.classes["tagged"] += facts.vlan is not None
        self.classes["tcp"] += facts.proto == 6
        self.classes["udp"] += facts.proto == 17
        self.lengths[sum(frame_length > most for most in LENGTHS)] += 1
        if facts.port is not None:
            self.ports[facts.port] = self.ports.get(facts.port, 0) + 1

    def lines(self):
        lines = []
        count = sum(self.lengths)
        if count:
            lines.append("headers " + " ".join(f"{name} {number}" for name, number in self.classes.items()))
        lines.append("tap length " + " ".join(map(str, self.lengths)))
        if self.ports:
            port = min(self.ports, key=lambda port: (-self.ports[port], port))
            lines.append(f"tap port {port} count {self.ports[port]}")
        else:
            lines.append("tap port none")
        return lines + [f"tap headers {count}"]


class Window:
    """The numbers counted so far, with what else came to be known of each."""

    def __init__(self, width):
        self.width, self.counted, self.repeated, self.late = width, {}, 0, 0
        self.rises = [0, 0]

    def number(self, mark):
        """The integer that the mark stands for, nearest to the greatest one that was counted."""
        top = max(self.counted)
        return top - WORD // 2 + (mark - top + WORD // 2) % WORD

    def enter(self, mark, *values):
        if not self.counted:
            self.last, self.counted[mark] = mark, values
            return True
        top, least = max(self.counted), min(self.counted)
        number = self.number(mark)
        if number <= top - self.width:
            self.late += 1
            return False
        if number in self.counted:
            self.repeated += 1
            return False
        for place in range(2 if len(values) > 1 else 0):
            if number > top:
                self.rises[place] += (values[place] - self.counted[top][place]) % WORD
            elif number < least:
                self.rises[place] += (self.counted[least][place] - values[place]) % WORD
        self.last, self.counted[number] = number, values
        return True

    def figures(self, closed):
        if not self.counted:
            return [0] * 6
        top, least = max(self.counted), min(self.counted)
        issued, received = top - least + 1, len(self.counted)
        near = sum(number >= least and number not in self.counted for number in range(top - self.width + 1, top))
        pending = 0 if closed else near
        return [issued, received, pending, issued - received - pending, self.repeated, self.late]


def summed(windows, is_open=True):
    """The figures of these windows, of which all but the last are closed, and the last too unless it is open."""
    rows = [window.figures(place + 1 < len(windows) or not is_open) for place, window in enumerate(windows)]
    names = ("issued", "received", "pending", "lost", "repeated", "late")
    return " ".join(f"{name} {sum(row[place] for row in rows)}" for place, name in enumerate(names))


class Stream:
    def __init__(self, name, width, slack):
        self.name, self.width, self.slack, self.stale, self.boots = name, width, slack, 0, []

    def takes(self, arrival, uptime, sequence):
        mark = arrival - uptime
        if self.boots:
            window = self.boots[-1]
            apart = mark - window.counted[max(window.counted)][0]
            rest = apart % WORD
            if min(rest, WORD - rest) <= self.slack:
                return window.enter(sequence, mark)
            if apart <= 0:
                self.stale += 1
                return False
        self.boots.append(Window(self.width))
        return self.boots[-1].enter(sequence, mark)


class Generation:
    """The samples of a source between two resets, with the places of the first one and of the greatest counted one."""

    def __init__(self, width, place):
        self.window, self.opened, self.newest = Window(width), place, place
        self.interfaces = {}

    def rise(self, place):
        """By how much the counter at this place rose, from the least number that showed it to the greatest one."""
        least = top = None
        total = 0
        for number, fields in self.interfaces.items():
            value = fields[place]
            if top is None:
                least = top = (number, value)
            elif number > top[0]:
                total += (value - top[1]) % COUNTERS[place]
                top = (number, value)
            elif number < least[0]:
                total += (least[1] - value) % COUNTERS[place]
                least = (number, value)
        return total


class Source:
    """Its generations stand beside the boots of its stream; where it has no sample in a boot there is none."""

    def __init__(self, number, stream, name, flow, width):
        self.number, self.stream, self.name, self.flow, self.width = number, stream, name, flow, width
        self.stale, self.boots = 0, []

    def generations(self):
        while len(self.boots) < len(self.stream.boots):
            self.boots.append([])
        return self.boots[-1]

    def enter(self, place, mark, interface, *values):
        current = self.generations()
        if not current or current[-1].newest < place and current[-1].window.number(mark) <= max(current[-1].window.counted):
            current.append(Generation(self.width, place))
        elif len(current) > 1 and place < current[-1].opened:
            self.stale += 1
            return False
        if not current[-1].window.enter(mark, *values):
            return False
        current[-1].newest = max(current[-1].newest, place)
        if interface:
            current[-1].interfaces[current[-1].window.last] = interface
        return True

    def interface_lines(self):
        generations = [generation for boot in self.boots for generation in boot]
        samples = sum(len(generation.interfaces) for generation in generations)
        rises = [str(sum(generation.rise(place) for generation in generations)) for place in COUNTERS]
        if not samples:
            return []
        return [f"if {self.number} {self.name} samples {samples} in {' '.join(rises[:7])} out {' '.join(rises[7:])}"]

    def line(self):
        is_open = bool(self.generations())
        windows = [generation.window for boot in self.boots for generation in boot]
        line = (f"source {self.number} {'flow' if self.flow else 'counters'} {self.name} generations {len(windows)} "
                f"{summed(windows, is_open)} stale {self.stale}")
        if not self.flow:
            return line
        pool, drops = (sum(window.rises[place] for window in windows) for place in (0, 1))
        counted = windows[-1].counted
        return f"{line} pool {pool} drops {drops} rate {counted[max(counted)][2]}"


def records_of(lines):
    """The lines of records behind each sample's line."""
    records = []
    for line in lines:
        if line.startswith("  "):
            records[-1].append(line)
        else:
            records.append([])
    return records


def headers_of(records):
    """The protocol, the frame length and the bytes of each sampled header."""
    headers = []
    for record in records:
        name, *words = record.split()
        if name == "header":
            data = bytes() if words[8] == "-" else bytes.fromhex(words[8])
            headers.append((int(words[1]), int(words[3]), data))
    return headers


def first_interface(records):
    """The fields of the first record of interface counters, or None."""
    for record in records:
        name, *fields = record.split()
        if name == "if":
            return [int(field) for field in fields[:19]]
    return None


def main():
    limits = [word for word in sys.argv[1:] if word != "--interfaces"]
    most_streams, most_sources, datagram_width, sample_width, slack = map(int, limits)
    streams, sources, first_fault, headers = {}, {}, None, Headers()
    total = dict.fromkeys(("entries", "malformed", "unlisted", "unlisted_samples", "other"), 0)
    for arrival, _, data in entries(sys.stdin.buffer.read()):
        total["entries"] += 1
        try:
            head, *lines = datagram(data, False)
        except Fault as fault:
            total["malformed"] += 1
            first_fault = first_fault or (total["entries"], *fault.args)
            continue
        words = head.split()
        key = (words[2], words[4])
        if key not in streams and len(streams) == most_streams:
            total["unlisted"] += 1
            continue
        stream = streams.setdefault(key, Stream(key, datagram_width, slack))
        if not stream.takes(arrival, int(words[8]), int(words[6])):
            continue
        # A sample stands at the number of its datagram and at its index among all samples of the datagram.
        number_of_datagram = stream.boots[-1].number(int(words[6]))
        samples = [line for line in lines if not line.startswith("  ")]
        records = records_of(lines)
        for index, line in enumerate(samples):
            words = line.split()
            if words[0] == "sample":
                total["other"] += 1
                continue
            flow = words[0].startswith("flow")
            name = (key, flow, words[4])
            if name not in sources and len(sources) == most_sources:
                total["unlisted_samples"] += 1
                continue
            number = list(streams).index(key) + 1
            source = sources.setdefault(name, Source(number, stream, words[4], flow, sample_width))
            shown = [int(words[place]) for place in (8, 10, 6)] if flow else []
            interface = None if flow else first_interface(records[index])
            if source.enter((number_of_datagram, index), int(words[2]), interface, *shown) and flow:
                for header in headers_of(records[index]):
                    headers.take(*header)
    for number, stream in enumerate(streams.values(), 1):
        agent, sub_agent = stream.name
        print(f"stream {number} agent {agent} sub {sub_agent} boots {len(stream.boots)} {summed(stream.boots)}",
              f"stale {stream.stale}")
    for source in sources.values():
        print(source.line())
    if "--interfaces" in sys.argv:
        for source in sources.values():
            for line in source.interface_lines():
                print(line)
    for line in headers.lines():
        print(line)
    if first_fault:
        print("fault entry {} at {} kind {}".format(*first_fault))
    print("total", " ".join(f"{name} {count}" for name, count in total.items()), "taps_ended 0")


if __name__ == "__main__":
    main()
