"""What an agent truly sent: samples and datagrams by numbers that never wrap, and what is delivered of them.

Written from docs/FORMATS.md alone. Scripts are read by the rules of the second agent, agent.py; the made run is made here.
"""
import struct
from dataclasses import dataclass

import agent

WORD = 1 << 32


@dataclass
class Sample:
    flow: bool
    source: tuple
    generation: int
    number: int
    data: bytes
    rate: int = 0
    pool: int = 0
    drops: int = 0
    frame_length: int = 0
    header: bytes = b""
    octets: int = 0
    packets: int = 0


@dataclass
class Datagram:
    boot: int
    number: int
    uptime: int
    samples: list
    data: bytes


@dataclass
class Delivery:
    sub: int
    datagram: Datagram
    arrival: int


class Meter:
    """A flow source in one generation: its packets, the packet that is marked next, and how many skip numbers led to it."""

    def __init__(self, skips):
        self.skips, self.count, self.used, self.next = skips, 0, 1, skips[0]

    def marks(self):
        self.count += 1
        if self.count < self.next:
            return False
        self.next += self.skips[self.used % len(self.skips)]
        self.used += 1
        return True


class History(agent.Agent):
    """An agent that keeps what it sent by true numbers. It reads set-ups and the other lines as the second agent does."""

    def __init__(self):
        super().__init__()
        self.sent, self.deliveries = {}, []
        self.datagrams = self.samples = self.dropped = 0

    def begun(self, sub):
        """A boot begins: no generation has begun but the first of each source."""
        sub.turns, sub.counts, sub.meters, sub.lost, sub.ports = {}, {}, {}, {}, {}

    def do_sub(self, words):
        super().do_sub(words)
        sub = self.subs[int(words[0])]
        sub.name = words[1]
        self.begun(sub)
        self.sent[int(words[0])] = [[]]

    def next_number(self, sub, flow, source, first):
        issued = sub.counts.get((flow, source), 0)
        sub.counts[flow, source] = issued + 1
        self.samples += 1
        return first + issued

    def turn(self, sub, flow, source):
        return sub.turns.get((flow, source), 1)

    def do_packet(self, words):
        agent.need(len(words) == 10)
        source = agent.place(words[0])
        came, went, vlan, length = agent.named(words[1:9], "in", "out", "vlan", "length")
        ports = agent.number(came, 0, (1 << 30) - 1), agent.number(went, 0, (1 << 30) - 1)
        tag = None if vlan == "-" else agent.number(vlan, 0, 4095)
        packet = ports, tag, agent.word(length), agent.header(words[9])
        sub = self.owner(source, True)
        self.running = True
        self.observe(sub, source, packet)

    def observe(self, sub, source, packet):
        rate, first, pool, drops, skips = sub.flows[source]
        seen = sub.ports.get(source, (0, 0))
        sub.ports[source] = seen[0] + packet[2], seen[1] + 1
        meter = sub.meters.setdefault(source, None) or Meter(skips)
        sub.meters[source] = meter
        if not meter.marks():
            return
        if len(sub.staged) == sub.stage:
            sub.lost[source] = sub.lost.get(source, 0) + 1
            self.dropped += 1
            return
        number = self.next_number(sub, True, source, first)
        pool, drops = pool + meter.count, drops + sub.lost.get(source, 0)
        data = self.flow_sample(source, (number % WORD, rate, pool % WORD, drops % WORD), packet)
        turn = self.turn(sub, True, source)
        sub.staged.append(Sample(True, source, turn, number, data, rate, pool, drops, packet[2], packet[3]))

    def do_poll(self, words):
        agent.need(len(words) == 2)
        now = agent.word(words[1])
        agent.word(words[0])
        sub = self.sub(words[0])
        self.running = True
        self.poll(sub, now)

    def poll(self, sub, now):
        for source, (every, first) in sub.counters.items():
            if (now - sub.polls.get(source, 0)) % WORD < every or len(sub.staged) == sub.stage:
                continue
            sub.polls[source] = now
            number = self.next_number(sub, False, source, first)
            octets, packets = sub.ports.get(source, (0, 0))
            fields = struct.pack(">IIQIIQ6IQ6I", source[1], 6, 10**9, 1, 3, octets % WORD**2, packets % WORD, *[0] * 12)
            if self.expanded():
                kind, head = 4, struct.pack(">3I", number % WORD, *source)
            else:
                kind, head = 2, struct.pack(">2I", number % WORD, source[0] << 24 | source[1])
            data = agent.frame(kind, head + struct.pack(">I", 1) + agent.frame(1, fields))
            turn = self.turn(sub, False, source)
            sub.staged.append(Sample(False, source, turn, number, data, octets=octets, packets=packets))

    def do_send(self, words):
        agent.need(len(words) == 2)
        now, key = agent.word(words[1]), agent.word(words[0])
        self.sub(words[0])
        self.running = True
        self.send(key, now)

    def send(self, key, now):
        """All that is staged goes, each time as many samples from the front as fit; one always does."""
        sub = self.subs[key]
        boot = sub.boots[-1]
        sent = []
        while sub.staged:
            number = sub.first + boot["sent"]
            front = struct.pack(">I", 5) + sub.address + struct.pack(">3I", key, number % WORD, now)
            size, taken = len(front) + 4 + len(sub.staged[0].data), 1
            while taken < len(sub.staged) and size + len(sub.staged[taken].data) <= self.most:
                size += len(sub.staged[taken].data)
                taken += 1
            samples = sub.staged[:taken]
            del sub.staged[:taken]
            data = front + struct.pack(">I", taken) + b"".join(sample.data for sample in samples)
            datagram = Datagram(len(sub.boots), number, now, samples, data)
            boot["sent"] += 1
            self.datagrams += 1
            self.sent[key][-1].append(datagram)
            sent.append(datagram)
        return sent

    def do_restart(self, words):
        super().do_restart(words)
        self.begun(self.subs[int(words[0])])
        self.sent[int(words[0])].append([])

    def do_reset(self, words):
        super().do_reset(words)
        flow, source = words[0] == "flow", agent.place(words[1])
        sub = self.owner(source, flow)
        sub.turns[flow, source] = self.turn(sub, flow, source) + 1
        sub.counts.pop((flow, source), None)
        if flow:
            sub.meters.pop(source, None)
            sub.lost.pop(source, None)

    def do_deliver(self, words):
        super().do_deliver(words)
        key, boot, count, arrival = map(int, words)
        self.deliveries.append(Delivery(key, self.sent[key][boot - 1][count - 1], arrival))

    def leap(self, key, source, datagrams, issued, dropped):
        """So many datagrams that never arrive, and in them so many samples of a source that takes each packet."""
        sub = self.subs[key]
        sub.boots[-1]["sent"] += datagrams
        meter = sub.meters.get(source) or Meter(sub.flows[source][4])
        meter.count += issued + dropped
        meter.next = meter.count + 1
        sub.meters[source] = meter
        sub.counts[True, source] = sub.counts.get((True, source), 0) + issued
        sub.lost[source] = sub.lost.get(source, 0) + dropped
        self.datagrams, self.samples, self.dropped = self.datagrams + datagrams, self.samples + issued, self.dropped + dropped


def read(script):
    """The history of a script, and the number of the first line that breaks a rule, if one does."""
    return agent.run(script, History())


# ---- the made run


class Draws:
    def __init__(self, seed):
        self.state = seed

    def below(self, count):
        self.state = (self.state * 6364136223846793005 + 1442695040888963407) % (1 << 64)
        return (self.state >> 33) % count


def made(seed, packets):
    """The history of the made run, with its deliveries."""
    draws, history, source = Draws(seed), History(), (0, 1)
    skips = ",".join(str(1 + draws.below(19)) for _ in range(64))
    for line in ("sub 1 10.0.0.1 first 4294967290 at 1000000 stage 16",
                 f"flow 1 0:1 rate 10 first 4294967280 pool 4294967000 drops 0 skips {skips}",
                 "counter 1 0:1 every 1000 first 1"):
        history.line(line)
    history.running = True
    sub, base, seen, held = history.subs[1], 1000000, 0, None
    front = bytes.fromhex("ffffffffffff02000000000108004500")
    for count in range(1, packets + 1):
        seen += 1
        uptime = 10 * seen
        length = 64 + draws.below(1455)
        header = front + bytes(draws.below(256) for _ in range(32))
        history.observe(sub, source, ((1, 2), None, length, header))

        def arrives(datagram):
            history.deliveries.append(Delivery(1, datagram, base + uptime + draws.below(50)))

        if count % 32 == 0 or count in (packets, packets // 2):
            history.poll(sub, uptime)
            for datagram in history.send(1, uptime):
                choice = draws.below(16)
                if choice == 2 and held is None:
                    held = datagram
                    continue
                for _ in range({0: 0, 1: 2}.get(choice, 1)):
                    arrives(datagram)
                if held is not None:
                    arrives(held)
                    held = None
        last = count == packets
        if held is not None and (last or count == packets // 2):
            arrives(held)
            held = None
        if count == packets // 2 and not last:
            base += uptime + 60000
            seen = 0
            history.line(f"restart 1 at {base}")
    return history
