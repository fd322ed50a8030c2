"""The account of what was delivered, by the agents' own numbers, and the four premises under which it is what a collector
shows. Written from docs/PROMISES.md alone. Numbers never wrap."""
import collections
from dataclasses import dataclass, field

import collect

WORD = 1 << 32
HALF = 1 << 31


@dataclass
class Run:
    """The numbers of one boot or one generation: the newest one delivered, what came in time, and how much came late."""

    width: int
    top: int = None
    kept: dict = field(default_factory=dict)
    copies: int = 0
    late: int = 0

    def is_late(self, number):
        return self.top is not None and number <= self.top - self.width

    def enter(self, number, value):
        """Whether the number comes in time for the first time."""
        if self.is_late(number):
            self.late += 1
            return False
        self.top = number if self.top is None else max(self.top, number)
        if number in self.kept:
            self.copies += 1
            return False
        self.kept[number] = value
        return True

    def figures(self, is_open):
        least, top = min(self.kept), max(self.kept)
        between = range(max(least, top - self.width) + 1, top)
        pending = sum(number not in self.kept for number in between)
        issued, received = top - least + 1, len(self.kept)
        shown = pending if is_open else 0
        return issued, received, shown, issued - received - shown, self.copies, self.late

    def rise(self, value):
        return value(self.kept[max(self.kept)]) - value(self.kept[min(self.kept)])


def figures_text(runs, is_open):
    """The sums over runs, of which at most the last one is open."""
    rows = [run.figures(is_open and run is runs[-1]) for run in runs]
    names = ("issued", "received", "pending", "lost", "repeated", "late")
    return " ".join(f"{name} {sum(row[place] for row in rows)}" for place, name in enumerate(names))


class Boot:
    """The samples of a source that were delivered in one boot, by their generations, and how many were stale."""

    def __init__(self):
        self.generations, self.stale = {}, 0


class Account:
    def __init__(self, limits):
        self.limits = limits
        self.streams, self.stale = {}, collections.Counter()
        self.sources = {}
        self.entries = 0
        self.headers = collect.Headers()
        # All samples that are delivered of each source and boot, in order, with their places: the premises ask for them.
        self.delivered = {}

    def take(self, delivery):
        """Whether the datagram comes in time for the first time; then its samples are delivered."""
        self.entries += 1
        boots = self.streams.setdefault(delivery.sub, {})
        boot, number = delivery.datagram.boot, delivery.datagram.number
        if boots and boot < max(boots):
            self.stale[delivery.sub] += 1
            return False
        run = boots.setdefault(boot, Run(self.limits["--datagram-width"]))
        if not run.enter(number, None):
            return False
        for index, sample in enumerate(delivery.datagram.samples):
            self.sample(delivery.sub, boot, (number, index), sample)
        return True

    def sample(self, sub, boot, place, sample):
        name = sub, sample.flow, sample.source
        own = self.sources.setdefault(name, {}).setdefault(boot, Boot())
        self.delivered.setdefault((name, boot), []).append((place, sample))
        if own.generations and sample.generation < max(own.generations):
            own.stale += 1
            return
        run = own.generations.setdefault(sample.generation, Run(self.limits["--sample-width"]))
        if run.enter(sample.number, sample) and sample.flow:
            self.headers.take(1, sample.frame_length, sample.header)

    def source_line(self, number, name, boots, rate):
        sub, flow, source = name
        runs = [boots[boot].generations[turn] for boot in sorted(boots) for turn in sorted(boots[boot].generations)]
        is_open = max(self.streams[sub]) in boots
        stale = sum(boot.stale for boot in boots.values())
        kind = "flow" if flow else "counters"
        line = (f"source {number} {kind} {source[0]}:{source[1]} generations {len(runs)} {figures_text(runs, is_open)} "
                f"stale {stale}")
        if not flow:
            return line
        pool, drops = (sum(run.rise(value) for run in runs) for value in (lambda s: s.pool, lambda s: s.drops))
        return f"{line} pool {pool} drops {drops} rate {rate}"

    def interface_line(self, number, name, boots):
        runs = [run for boot in boots.values() for run in boot.generations.values()]
        count = sum(len(run.kept) for run in runs)
        octets, packets = (sum(run.rise(value) for run in runs) for value in (lambda s: s.octets, lambda s: s.packets))
        return f"if {number} {name[2][0]}:{name[2][1]} samples {count} in {octets} {packets}{' 0' * 5} out{' 0' * 6}"

    def lines(self, history, interfaces):
        lines, order = [], list(self.streams)
        for number, (sub, boots) in enumerate(self.streams.items(), 1):
            runs = [boots[boot] for boot in sorted(boots)]
            lines.append(f"stream {number} agent {history.subs[sub].name} sub {sub} boots {len(runs)} "
                         f"{figures_text(runs, True)} stale {self.stale[sub]}")
        for name, boots in self.sources.items():
            rate = history.subs[name[0]].flows[name[2]][0] if name[1] else 0
            lines.append(self.source_line(order.index(name[0]) + 1, name, boots, rate))
        for name, boots in self.sources.items() if interfaces else ():
            if not name[1]:
                lines.append(self.interface_line(order.index(name[0]) + 1, name, boots))
        lines += self.headers.lines()
        lines.append(f"total entries {self.entries} malformed 0 unlisted 0 unlisted_samples 0 other 0 taps_ended 0")
        return lines


def account_of(limits, deliveries):
    account = Account(limits)
    for delivery in deliveries:
        account.take(delivery)
    return account


# ---- the premises


def visible(limits, deliveries):
    """Each delivery but the first of its sub-agent shows by its uptime whether its boot is the newest one, a later one or
    an earlier one."""
    newest = {}
    for delivery in deliveries:
        boot, number = delivery.datagram.boot, delivery.datagram.number
        mark = delivery.arrival - delivery.datagram.uptime
        boots = newest.setdefault(delivery.sub, {})
        if boots:
            last = max(boots)
            apart = mark - boots[last][1]
            near = min(apart % WORD, -apart % WORD) <= limits["--boot-slack"]
            tells = (boot == last) == near, (boot > last) == (not near and apart > 0), (boot < last) == (not near and apart < 0)
            if not all(tells):
                return False
        if boot not in boots or number > boots[boot][0]:
            boots[boot] = number, mark
    return True


def numbers_close(items):
    """Each number is less than 2^31 from the newest one before it that has the same index."""
    newest = {}
    for index, number in items:
        if index in newest and abs(number - newest[index]) >= HALF:
            return False
        newest[index] = max(number, newest.get(index, number))
    return True


def rises_slowly(run):
    """Pool and drops rise by less than 2^32 from each newest number to the next, and from each new least to the least
    before."""
    top = least = None
    for number, sample in run.kept.items():
        if top is None:
            top = least = sample
            continue
        for low, high in ((top, sample),) if number > top.number else ((sample, least),) if number < least.number else ():
            if high.pool >= low.pool + WORD or high.drops >= low.drops + WORD:
                return False
        top, least = max(top, sample, key=lambda s: s.number), min(least, sample, key=lambda s: s.number)
    return True


def close(account, deliveries):
    datagrams = [((d.sub, d.datagram.boot), d.datagram.number) for d in deliveries]
    rows = account.delivered.items()
    samples = [((name, sample.generation), sample.number) for name, row in rows for _, sample in row]
    runs = [run for boots in account.sources.values() for boot in boots.values() for run in boot.generations.values()]
    return numbers_close(datagrams) and numbers_close(samples) and all(rises_slowly(run) for run in runs)


def opens_apparently(row):
    """Of the samples of a source in one boot: none is of a generation before that of the first, and each that is of a later
    one than all before it has a number that doesn't rise, by 32 bits, and the first place in its generation from then on."""
    opened, newest = {}, {}
    first = row[0][1].generation
    for place, sample in row:
        if sample.generation < first:
            return False
        if newest and sample.generation > max(newest):
            apart = (sample.number - newest[max(newest)] + HALF) % WORD - HALF
            if apart > 0:
                return False
            opened[sample.generation] = place
        elif sample.generation in opened and place < opened[sample.generation]:
            return False
        newest[sample.generation] = max(sample.number, newest.get(sample.generation, sample.number))
    return True


def apparent(account):
    return all(opens_apparently(row) for row in account.delivered.values())


def roomy(limits, history, report):
    """Nothing is unlisted in the report of the collector, which needs no look at it where all that there is has room."""
    sources = sum(len(sub.flows) + len(sub.counters) for sub in history.subs.values())
    if len(history.subs) <= limits["--streams"] and sources <= limits["--sources"]:
        return True
    words = report()[-1].split()
    return words[words.index("unlisted") + 1] == "0" and words[words.index("unlisted_samples") + 1] == "0"
