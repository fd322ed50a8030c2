#!/usr/bin/env python3
"""A second agent, written from docs/FORMATS.md alone, to compare `sflow agent` with.

    compare/agent.py < SCRIPT > CAPTURE

Writes the capture of all datagrams that the sub-agents of a lawful script send. Of a script that breaks a rule it writes
what was sent before and prints the number of the first line that does to standard error, with status 5. It keeps all that
happened, and counts each number, pool and drops anew from it.
"""
import re
import struct
import sys

WORD = 1 << 32


class Broken(Exception):
    """A line breaks a rule."""


def need(holds):
    if not holds:
        raise Broken


def number(text, least, most):
    need(re.fullmatch(r"0|[1-9][0-9]*", text))
    need(least <= int(text) <= most)
    return int(text)


def word(text):
    return number(text, 0, WORD - 1)


def place(text):
    parts = text.split(":")
    need(len(parts) == 2)
    return number(parts[0], 0, 255), word(parts[1])


def address(text):
    """The union of an address: its type word and its bytes."""
    if re.fullmatch(r"[0-9]+(\.[0-9]+){3}", text):
        return struct.pack(">I4B", 1, *(number(part, 0, 255) for part in text.split(".")))
    need(re.fullmatch(r"[0-9a-f]{4}(:[0-9a-f]{4}){7}", text))
    return struct.pack(">I", 2) + bytes.fromhex(text.replace(":", ""))


def header(text):
    if text == "-":
        return b""
    need(re.fullmatch(r"([0-9a-f]{2}){1,128}", text))
    return bytes.fromhex(text)


def named(words, *names):
    """The words behind these names, which stand at every second place from the first name on."""
    need(len(words) == 2 * len(names) and words[::2] == list(names))
    return words[1::2]


def opaque(data):
    return struct.pack(">I", len(data)) + data + bytes(-len(data) % 4)


def frame(kind, body):
    return struct.pack(">I", kind) + opaque(body)


class SubAgent:
    def __init__(self, at, address, first, stage):
        self.address, self.first, self.stage = address, first, stage
        self.flows, self.counters = {}, {}
        self.boots = []
        self.begin(at)

    def begin(self, at):
        """A boot: its arrival, the packets seen since each source began and since the boot began, what was issued, dropped
        and polled since each source began, the stage, and how many datagrams were sent."""
        self.boots.append({"at": at, "sent": 0})
        self.packets = {source: [] for source in self.flows}
        self.seen = {}
        self.issued, self.dropped, self.polls, self.staged = {}, {}, {}, []

    def reset(self, flow, source):
        if flow:
            self.packets[source] = []
            self.dropped.pop(source, None)
        else:
            self.polls.pop(source, None)
        self.issued.pop((flow, source), None)


class Agent:
    def __init__(self):
        self.most, self.said_most, self.running = 1400, False, False
        self.subs, self.entries = {}, []

    def sub(self, text):
        need(word(text) in self.subs)
        return self.subs[word(text)]

    def owner(self, source, flow):
        for sub in self.subs.values():
            if source in (sub.flows if flow else sub.counters):
                return sub
        raise Broken

    def expanded(self):
        return any(index >= 1 << 24 for sub in self.subs.values() for _, index in [*sub.flows, *sub.counters])

    def free(self, own, source, flow):
        for sub in self.subs.values():
            need(source not in (sub.flows if flow else sub.counters))
            if sub is not own:
                need(source not in sub.flows and source not in sub.counters)

    def line(self, text):
        words = text.split(" ")
        getattr(self, "do_" + words[0], self.unknown)(words[1:])

    def unknown(self, words):
        raise Broken

    def set_up(self):
        need(not self.running)

    def do_max(self, words):
        need(len(words) == 1)
        most = number(words[0], 512, 65535)
        self.set_up()
        need(not self.said_most and not self.subs)
        self.most, self.said_most = most, True

    def do_sub(self, words):
        need(len(words) == 8)
        first, at, stage = named(words[2:], "first", "at", "stage")
        key, sub = word(words[0]), (number(at, 0, (1 << 63) - 1), address(words[1]), word(first), number(stage, 1, 1024))
        self.set_up()
        need(key not in self.subs and len(self.subs) < 64)
        self.subs[key] = SubAgent(*sub)

    def do_flow(self, words):
        need(len(words) == 12)
        source = place(words[1])
        rate, first, pool, drops, skips = named(words[2:], "rate", "first", "pool", "drops", "skips")
        skips = [number(skip, 1, WORD - 1) for skip in skips.split(",")]
        need(len(skips) <= 1024)
        values = number(rate, 1, WORD - 1), word(first), word(pool), word(drops), skips
        word(words[0])
        self.set_up()
        sub = self.sub(words[0])
        self.free(sub, source, True)
        need(len(sub.flows) < 1024)
        sub.flows[source], sub.packets[source] = values, []

    def do_counter(self, words):
        need(len(words) == 6)
        source = place(words[1])
        every, first = named(words[2:], "every", "first")
        values = number(every, 1, WORD - 1), word(first)
        word(words[0])
        self.set_up()
        sub = self.sub(words[0])
        self.free(sub, source, False)
        need(len(sub.counters) < 1024)
        sub.counters[source] = values

    def do_packet(self, words):
        need(len(words) == 10)
        source = place(words[0])
        came, went, vlan, length = named(words[1:9], "in", "out", "vlan", "length")
        ports = number(came, 0, (1 << 30) - 1), number(went, 0, (1 << 30) - 1)
        packet = ports, None if vlan == "-" else number(vlan, 0, 4095), word(length), header(words[9])
        sub = self.owner(source, True)
        self.running = True
        rate, first, pool, drops, skips = sub.flows[source]
        sub.packets[source].append(packet)
        sub.seen.setdefault(source, []).append(packet[2])
        count = len(sub.packets[source])
        marks, total = set(), 0
        while total < count:
            total += skips[len(marks) % len(skips)]
            marks.add(total)
        if count not in marks:
            return
        if len(sub.staged) == sub.stage:
            sub.dropped[source] = sub.dropped.get(source, 0) + 1
            return
        issued = sub.issued.get((True, source), 0)
        sub.issued[True, source] = issued + 1
        counts = (first + issued) % WORD, rate, (pool + count) % WORD, (drops + sub.dropped.get(source, 0)) % WORD
        sub.staged.append(self.flow_sample(source, counts, packet))

    def flow_sample(self, source, counts, packet):
        (came, went), vlan, length, shown = packet
        records = frame(1, struct.pack(">3I", 1, length, 4) + opaque(shown))
        if vlan is not None:
            records += frame(1001, struct.pack(">4I", vlan, 0, vlan, 0))
        sequence, rate, pool, drops = counts
        if self.expanded():
            head = struct.pack(">10I", sequence, *source, rate, pool, drops, 0, came, 0, went)
        else:
            head = struct.pack(">7I", sequence, source[0] << 24 | source[1], rate, pool, drops, came, went)
        tail = struct.pack(">I", 1 if vlan is None else 2) + records
        return frame(3 if self.expanded() else 1, head + tail)

    def do_poll(self, words):
        need(len(words) == 2)
        now = word(words[1])
        word(words[0])
        sub = self.sub(words[0])
        self.running = True
        for source, (every, first) in sub.counters.items():
            if (now - sub.polls.get(source, 0)) % WORD < every or len(sub.staged) == sub.stage:
                continue
            sub.polls[source] = now
            issued = sub.issued.get((False, source), 0)
            sub.issued[False, source] = issued + 1
            lengths = sub.seen.get(source, [])
            octets, packets = sum(lengths) % (WORD * WORD), len(lengths) % WORD
            record = struct.pack(">IIQIIQ6IQ6I", source[1], 6, 10**9, 1, 3, octets, packets, *[0] * 12)
            sequence = (first + issued) % WORD
            if self.expanded():
                head = struct.pack(">3I", sequence, *source)
            else:
                head = struct.pack(">2I", sequence, source[0] << 24 | source[1])
            sub.staged.append(frame(4 if self.expanded() else 2, head + struct.pack(">I", 1) + frame(1, record)))

    def do_send(self, words):
        need(len(words) == 2)
        now, key = word(words[1]), word(words[0])
        sub = self.sub(words[0])
        self.running = True
        boot = sub.boots[-1]
        while sub.staged:
            sequence = (sub.first + boot["sent"]) % WORD
            front = struct.pack(">I", 5) + sub.address + struct.pack(">3I", key, sequence, now)
            taken = 1
            while taken < len(sub.staged) and len(front) + 4 + sum(map(len, sub.staged[: taken + 1])) <= self.most:
                taken += 1
            datagram = front + struct.pack(">I", taken) + b"".join(sub.staged[:taken])
            del sub.staged[:taken]
            boot["sent"] += 1
            self.entries.append((boot["at"] + now, datagram))

    def do_restart(self, words):
        need(len(words) == 3 and words[1] == "at")
        at = number(words[2], 0, (1 << 63) - 1)
        word(words[0])
        sub = self.sub(words[0])
        self.running = True
        sub.begin(at)

    def do_reset(self, words):
        need(len(words) == 2 and words[0] in ("flow", "counter"))
        source, flow = place(words[1]), words[0] == "flow"
        sub = self.owner(source, flow)
        self.running = True
        sub.reset(flow, source)

    def do_deliver(self, words):
        need(len(words) == 4)
        boot, count, _ = (number(text, 0, WORD * WORD - 1) for text in words[1:])
        word(words[0])
        sub = self.sub(words[0])
        need(1 <= boot <= len(sub.boots) and 1 <= count <= sub.boots[boot - 1]["sent"])
        self.running = True


def run(script, agent=None):
    """The agent, or what else takes the lines, behind those that keep the rules, and the number of the first line that breaks
    one, if one does."""
    agent, begun = agent or Agent(), False
    lines = script.split(b"\n")
    if lines[-1] == b"":
        lines.pop()
    for count, line in enumerate(lines, 1):
        if len(line) > 16384 or count >= WORD:
            return agent, count
        if line == b"" or line.startswith(b"#"):
            continue
        if not begun:
            if line != b"sflow-script 1":
                return agent, count
            begun = True
            continue
        try:
            agent.line(line.decode("latin-1"))
        except Broken:
            return agent, count
    return agent, None if begun else len(lines) + 1


def main():
    agent, broken = run(sys.stdin.buffer.read())
    capture = struct.pack(">4sI", b"SFLC", 1)
    for arrival, datagram in agent.entries:
        capture += struct.pack(">Q", arrival) + opaque(datagram)
    if broken is None or agent.entries:
        sys.stdout.buffer.write(capture)
    if broken is not None:
        print(f"sflow: bad input at {broken} kind script", file=sys.stderr)
        sys.exit(5)


if __name__ == "__main__":
    main()
