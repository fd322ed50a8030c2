#!/usr/bin/env python3
"""Makes a capture for comparisons of reports: datagrams of agents that restart and that reset single sources, lost, repeated
and out of order.

    compare/make_run.py SEED DATAGRAMS > CAPTURE

The same seed gives the same bytes. Numbers, pools and uptimes wrap, some uptimes stray, and some entries are damaged.
"""
import random
import struct
import sys


def pack(*numbers):
    return struct.pack(f">{len(numbers)}I", *(number % (1 << 32) for number in numbers))


class Agent:
    def __init__(self, rng, number):
        self.rng, self.number = rng, number
        self.restart(rng.randrange(1 << 34))

    def restart(self, now):
        self.start = now - (0 if self.rng.random() < 0.5 else self.rng.randrange(1 << 32))
        self.sequence = self.rng.choice((1, 1, (1 << 32) - 5, self.rng.randrange(1 << 32)))
        self.samples = {(kind, index): [self.rng.choice((1, (1 << 32) - 3)), self.rng.randrange(1 << 32), 0]
                        for kind in (0, 1) for index in range(3)}

    def sample(self):
        kind, index = self.rng.choice(list(self.samples))
        state = self.samples[kind, index]
        if self.rng.random() < 0.02:
            state[:] = [self.rng.choice((0, state[0] - 2, (1 << 32) - 4)), self.rng.randrange(1 << 32), 0]
        state[0] += 1 if self.rng.random() < 0.9 else self.rng.choice((2, 70, 1100, 8190))
        state[1] += self.rng.randrange(1 << self.rng.choice((4, 10, 31)))
        state[2] += self.rng.random() < 0.1
        if self.rng.random() < 0.1:
            return pack(4413 * 4096 + 1, 4, 7)
        if kind == 0:
            if self.rng.random() < 0.3:
                return pack(3, 44, state[0], 0, index, 100 + index, state[1], state[2], 0, 1, 0, 2, 0)
            return pack(1, 32, state[0], index, 100 + index, state[1], state[2], 1, 2, 0)
        if self.rng.random() < 0.3:
            return pack(4, 16, state[0], 0, index, 0)
        return pack(2, 12, state[0], index, 0)

    def datagram(self, now):
        stray = self.rng.choice((0, 0, 0, 100, 4000, -4000, 20000))
        samples = [self.sample() for _ in range(self.rng.randrange(4))]
        head = pack(5, 1, 0x0a000001 + self.number // 2, self.number % 2, self.sequence, now - self.start + stray)
        self.sequence += 1
        return head + pack(len(samples)) + b"".join(samples)


def main():
    seed, count = map(int, sys.argv[1:])
    rng = random.Random(seed)
    now = 1 << 34
    agents = [Agent(rng, number) for number in range(6)]
    held, out = [], sys.stdout.buffer
    out.write(b"SFLC\0\0\0\x01")
    for _ in range(count):
        now += rng.randrange(50)
        agent = rng.choice(agents)
        if rng.random() < 0.01:
            agent.restart(now)
        data = agent.datagram(now)
        if rng.random() < 0.02:
            data = data[:rng.randrange(len(data))]
        held += [data] * rng.choice((0, 1, 1, 1, 1, 1, 2))
        while len(held) > rng.choice((0, 0, 3, 80)):
            data = held.pop(rng.choice((0, 0, len(held) - 1)))
            out.write(struct.pack(">QI", now, len(data)) + data + bytes(-len(data) % 4))
            now += rng.randrange(3)


if __name__ == "__main__":
    main()
