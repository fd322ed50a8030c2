#!/usr/bin/env python3
"""Makes a script of agents for comparisons.

    compare/make_script.py SEED > SCRIPT

The same seed gives the same bytes. Numbers, pools, drops and uptimes wrap; sources are reset and sub-agents restart; and
datagrams are lost, come twice, late and out of order.
"""
import random
import sys

from history import WORD, Delivery, History

HALF = WORD // 2


class Maker:
    """Makes the lines of a script: the set-ups, and then packets, polls, sends, resets, restarts and deliveries. A network
    between agent and collector loses, repeats, delays and swaps datagrams."""

    def __init__(self, rng, leaps):
        self.rng, self.leaps = rng, leaps
        self.lines, self.history = ["sflow-script 1"], History()
        self.queue = []
        # How often datagrams are lost, copied and delayed, how far their arrivals stray, and how clocks move at restarts.
        self.loss, self.copy = rng.choice((0, 0.05, 0.3)), rng.choice((0, 0.1, 0.5))
        self.delay = rng.choice((0, 0, 2, 8, 40))
        self.stray = rng.choice((0, 20, 300, 4000))
        self.calm = rng.random() < 0.6

    def say(self, line):
        self.history.line(line)
        self.lines.append(line)

    def near_wrap(self):
        return self.rng.choice((1, 1, 0, WORD - 2, WORD - 20, self.rng.randrange(WORD)))

    def set_up(self):
        rng = self.rng
        if rng.random() < 0.5:
            self.say(f"max {rng.choice((512, 600, 1400, 9000))}")
        wide = rng.random() < 0.2
        self.now, self.uptimes = {}, {}
        for key in rng.sample(range(1, 9), rng.choice((1, 1, 2, 3))):
            at = rng.choice((1000, 10**6, 10**10))
            address = rng.choice((f"10.0.0.{rng.randrange(1, 4)}", "2001:0db8:0000:0000:0000:0000:0000:0001"))
            self.say(f"sub {key} {address} first {self.near_wrap()} at {at} stage {rng.choice((1, 2, 5, 64))}")
            self.now[key], self.uptimes[key] = at, rng.choice((0, 500, WORD - 3000))
            for index in range(rng.choice((0, 1, 2, 3))):
                skips = "1" if self.leaps else ",".join(str(rng.choice((1, 1, 2, 5))) for _ in range(rng.randrange(1, 4)))
                place = f"{rng.choice((0, 1))}:{key * 10 + index + wide * (1 << 24)}"
                self.say(f"flow {key} {place} rate {rng.choice((1, 10, WORD - 1))} first {self.near_wrap()} "
                         f"pool {self.near_wrap()} drops {rng.choice((0, WORD - 1))} skips {skips}")
            for source in [*self.history.subs[key].flows, (2, key * 100)]:
                if rng.random() < 0.5:
                    every = rng.choice((1, 300, 2000))
                    self.say(f"counter {key} {source[0]}:{source[1]} every {every} first {self.near_wrap()}")

    def sources(self, key, flow):
        sub = self.history.subs[key]
        return [f"{place[0]}:{place[1]}" for place in (sub.flows if flow else sub.counters)]

    def pass_time(self, key):
        step = self.rng.choice((1, 10, 300, 2500))
        self.uptimes[key] = (self.uptimes[key] + step) % WORD

    def packets(self, key):
        for _ in range(self.rng.choice((1, 2, 5, 12))):
            for source in self.sources(key, True):
                vlan = self.rng.choice(("-", "-", 0, 4095))
                shown = self.rng.choice(("-", "ffffffffffff02000000000108004500", "00" * 12 + "0806" + "00" * 20))
                self.say(f"packet {source} in 1 out 2 vlan {vlan} length {self.rng.choice((0, 64, 1518, WORD - 1))} {shown}")

    def send(self, key):
        sub, before = self.history.subs[key], self.history.subs[key].boots[-1]["sent"]
        self.say(f"send {key} {self.uptimes[key]}")
        for count in range(before, sub.boots[-1]["sent"]):
            if self.rng.random() < self.loss:
                continue
            copies = 2 if self.rng.random() < self.copy else 1
            for _ in range(copies):
                due = self.rng.randrange(self.delay + 1)
                self.queue.append([due, key, len(sub.boots), count, sub.boots[-1]["at"] + self.uptimes[key]])

    def deliver(self):
        """What is due arrives, in the order of the queue or turned round."""
        due = [row for row in self.queue if row[0] <= 0]
        self.queue = [[row[0] - 1, *row[1:]] for row in self.queue if row[0] > 0]
        if self.rng.random() < 0.2:
            due.reverse()
        for _, key, boot, count, at in due:
            arrival = at + self.rng.randrange(self.stray + 1)
            if self.leaps:
                sent = [d for d in self.history.sent[key][boot - 1] if d.number == self.history.subs[key].first + count]
                self.history.deliveries.append(Delivery(key, sent[0], arrival))
            else:
                self.say(f"deliver {key} {boot} {count + 1} {arrival}")

    def reset(self, key):
        flow = self.rng.random() < 0.6
        sources = self.sources(key, flow)
        if sources:
            self.say(f"reset {'flow' if flow else 'counter'} {self.rng.choice(sources)}")

    def restart(self, key):
        at = self.history.subs[key].boots[-1]["at"] + self.uptimes[key]
        moved = self.rng.choice((6000, 60000) if self.calm else (0, 50, 4000, 6000, 60000, WORD, WORD - 2000))
        self.say(f"restart {key} at {at + moved}")
        self.uptimes[key] = 0
        if self.calm and self.rng.random() < 0.7:
            # What the network still holds of an earlier boot is lost.
            self.queue = [row for row in self.queue if row[1] != key]

    def leap(self, key):
        rng = self.rng
        self.send(key)
        sources = list(self.history.subs[key].flows)
        if not sources:
            return
        issued = rng.choice((1, 60, 1000, 9000, HALF - 3, HALF - 1, HALF, HALF + 1, WORD + 5))
        dropped = rng.choice((0, 0, 1000, WORD - issued - 1, WORD, 5 * WORD))
        least = -(-issued // 60)
        datagrams = rng.randrange(least, issued + 1) if rng.random() < 0.5 else least
        self.history.leap(key, rng.choice(sources), datagrams, issued, max(dropped, 0))

    def run(self, steps):
        self.set_up()
        keys = list(self.now)
        for _ in range(steps):
            key = self.rng.choice(keys)
            self.pass_time(key)
            act = self.rng.random()
            if act < 0.45:
                self.packets(key)
            elif act < 0.6:
                self.say(f"poll {key} {self.uptimes[key]}")
            elif act < 0.9:
                self.send(key)
            elif act < 0.94:
                self.reset(key)
            elif act < 0.96:
                self.restart(key)
            elif self.leaps:
                self.leap(key)
            if self.rng.random() < 0.8:
                self.deliver()
        for key in keys:
            self.send(key)
        while self.queue:
            self.deliver()


def made_limits(rng):
    small = rng.random() < 0.2
    return {"--streams": rng.choice((1, 2)) if small else 256, "--sources": rng.choice((1, 2, 3)) if small else 4096,
            "--datagram-width": rng.choice((1, 2, 8, 64, 64, 8192)), "--sample-width": rng.choice((1, 3, 16, 1024, 1024, 8192)),
            "--boot-slack": rng.choice((100, 5000, 5000, 5000))}


def script_of(maker):
    return ("\n".join(maker.lines) + "\n").encode()


def made_run(rng, leaps):
    maker = Maker(rng, leaps)
    maker.run(rng.choice((5, 20, 60, 150, 400)))
    return maker


def main():
    sys.stdout.buffer.write(script_of(made_run(random.Random(sys.argv[1]), False)))


if __name__ == "__main__":
    main()
