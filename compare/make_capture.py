#!/usr/bin/env python3
"""Makes a capture for comparisons: datagrams with every kind of sample and record, half of them damaged.

    compare/make_capture.py SEED ENTRIES > CAPTURE

The same seed gives the same bytes. Padding is stray in places; fields, lengths and counts are changed, datagrams are
cut short or go on behind their end.
"""
import random
import struct
import sys

OTHER_FORMATS = (5, 7, 9 * 4096 + 1, 4413 * 4096 + 1)
COUNTERS = {1: 88, 2: 52, 5: 28, 1001: 28}


class Maker:
    def __init__(self, seed):
        self.rng = random.Random(seed)

    def below(self, count):
        return self.rng.randrange(count)

    def chance(self, share):
        return self.rng.random() < share

    def noise(self, count):
        return self.rng.randbytes(count)

    def fixed(self, data):
        count = -len(data) % 4
        return data + (self.noise(count) if self.chance(0.2) else bytes(count))

    def opaque(self, data):
        return word(len(data)) + self.fixed(data)

    def address(self):
        kind = self.rng.choice((0, 1, 1, 2))
        return word(kind) + self.noise((0, 4, 16)[kind])

    def words(self):
        count = self.below(4)
        return word(count) + self.noise(4 * count)

    def many(self, make):
        count = self.below(4)
        return word(count) + b"".join(make() for _ in range(count))

    def frame(self, form, body):
        if self.chance(0.25):
            body += self.noise(self.rng.choice((1, 2, 3, 4, 7)))
        if self.chance(0.03):
            body = body[: self.below(len(body) + 1)]
        return word(form) + self.opaque(body)

    def segment(self):
        return word(1 + self.below(2)) + self.words()

    def user(self):
        return self.noise(4) + self.opaque(self.noise(self.below(10)))

    def gateway(self):
        return self.address() + self.noise(12) + self.many(self.segment) + self.words() + self.noise(4)

    def other(self):
        return self.frame(self.rng.choice(OTHER_FORMATS), self.noise(self.below(20)))

    def flow_record(self):
        makers = {
            1: lambda: self.noise(12) + self.opaque(self.noise(self.below(70))),
            2: lambda: self.noise(4) + self.fixed(self.noise(6)) + self.fixed(self.noise(6)) + self.noise(4),
            3: lambda: self.noise(32),
            4: lambda: self.noise(56),
            1001: lambda: self.noise(16),
            1002: lambda: self.address() + self.noise(8),
            1003: self.gateway,
            1004: lambda: self.user() + self.user(),
            1005: lambda: self.noise(4) + self.opaque(self.noise(self.below(20))) + self.opaque(self.noise(self.below(20))),
            1006: lambda: self.address() + self.words() + self.words(),
            1007: lambda: self.address() + self.address(),
        }
        form = self.rng.choice((*makers, 1003, None))
        return self.frame(form, makers[form]()) if form else self.other()

    def counter_record(self):
        form = self.rng.choice((*COUNTERS, None))
        return self.frame(form, self.noise(COUNTERS[form])) if form else self.other()

    def sample(self):
        form = 1 + self.below(5)
        if form > 4:
            return self.other()
        head = self.noise({1: 28, 2: 8, 3: 40, 4: 12}[form])
        return self.frame(form, head + self.many(self.flow_record if form % 2 else self.counter_record))

    def damaged(self, data):
        how = self.rng.random()
        if how < 0.6:
            at = 4 * self.below(len(data) // 4)
            value = self.rng.choice((0, 1, 2, 3, 4, 5, 1001, 1002, 1003, 1004, 1006, 1007, self.below(100), 2**32 - 1))
            return data[:at] + word(value) + data[at + 4 :]
        if how < 0.8:
            return data[: self.below(len(data) + 1)]
        return data + self.noise(1 + self.below(5))

    def datagram(self):
        data = word(5) + self.address() + self.noise(12) + self.many(self.sample)
        return self.damaged(data) if self.chance(0.5) else data

    def entry(self):
        data = self.datagram()
        return struct.pack(">QI", self.below(2**63), len(data)) + data + bytes(-len(data) % 4)


def word(number):
    return struct.pack(">I", number)


def main():
    seed, count = map(int, sys.argv[1:])
    maker = Maker(seed)
    sys.stdout.buffer.write(b"SFLC" + word(1) + b"".join(maker.entry() for _ in range(count)))


if __name__ == "__main__":
    main()
