#!/usr/bin/env python3
"""Compares `sflow agent`, and `sflow replay` of what it writes, with the second agent and the second collector.

    compare/scripts.py SEED COUNT PROGRAM

makes COUNT scripts, half of which it then breaks: cut, or with a line left out, doubled, exchanged with the next one, or with a
byte changed. `PROGRAM agent` has to end with the status of agent.py, to say the same and to write the same bytes; and
`PROGRAM replay` of a capture that it wrote has to make the report of collect.py. It prints how many scripts there were of each
kind, and each one where this doesn't hold.
"""
import collections
import random
import struct
import subprocess
import sys
from types import SimpleNamespace

import agent
from make_script import made_limits, made_run, script_of
from trial import collected


def left_out(rng, lines):
    del lines[rng.randrange(len(lines))]


def doubled(rng, lines):
    place = rng.randrange(len(lines))
    lines.insert(rng.randrange(place, len(lines) + 1), lines[place])


def exchanged(rng, lines):
    place = rng.randrange(max(1, len(lines) - 1))
    lines[place:place + 2] = reversed(lines[place:place + 2])


def changed(rng, lines):
    place = rng.randrange(len(lines))
    line = lines[place]
    at = rng.randrange(len(line))
    lines[place] = line[:at] + rng.choice(("", " ", "0", "9", "-", ":", "a", "\n", "#")) + line[at + 1:]


def broken(rng, script):
    if rng.random() < 0.2:
        return script[:rng.randrange(len(script))]
    lines = script.decode().splitlines()
    # Most of the lines of a script are packets; the first ones set up.
    few = rng.choice((len(lines), min(8, len(lines))))
    front = lines[:few]
    rng.choice((left_out, doubled, exchanged, changed))(rng, front)
    return ("\n".join(front + lines[few:]) + "\n").encode()


def capture_of(entries):
    rows = (struct.pack(">Q", arrival) + agent.opaque(datagram) for arrival, datagram in entries)
    return struct.pack(">4sI", b"SFLC", 1) + b"".join(rows)


def wanted(script):
    """The status, what is said and what is written."""
    other, number = agent.run(script)
    if number is None:
        return other.entries, (0, b"", capture_of(other.entries))
    said = f"sflow: bad input at {number} kind script\n".encode()
    return other.entries, (5, said, capture_of(other.entries) if other.entries else b"")


def replays(program, limits, entries, capture):
    words = [word for name, limit in limits.items() for word in (name, str(limit))]
    run = subprocess.run([program, "replay", "--interfaces", *words], input=capture, stdout=subprocess.PIPE)
    deliveries = [SimpleNamespace(arrival=at, datagram=SimpleNamespace(data=data)) for at, data in entries]
    return run.stdout.decode().splitlines() == collected(limits, deliveries, True)


def main():
    seed, count, program = sys.argv[1], int(sys.argv[2]), sys.argv[3]
    totals, wrong = collections.Counter(), []
    for run in range(count):
        rng = random.Random(f"{seed} {run}")
        script = script_of(made_run(rng, False))
        if rng.random() < 0.5:
            script = broken(rng, script)
        entries, want = wanted(script)
        done = subprocess.run([program, "agent"], input=script, stdout=subprocess.PIPE, stderr=subprocess.PIPE)
        totals["scripts"] += 1
        totals["lines"] += script.count(b"\n")
        totals["datagrams"] += len(entries)
        totals["scripts that break a rule"] += want[0] == 5
        totals["scripts that break a rule behind a send"] += want[0] == 5 and bool(entries)
        if (done.returncode, done.stderr, done.stdout) != want:
            wrong.append(f"script {run} of seed {seed}: {program} agent does something else than the second agent")
        elif done.stdout and not replays(program, made_limits(rng), entries, done.stdout):
            wrong.append(f"script {run} of seed {seed}: {program} replay reports something else than the second collector")
    for name, number in totals.items():
        print(f"{number} {name}")
    for line in wrong:
        print("WRONG:", line)
    sys.exit(1 if wrong else 0)


if __name__ == "__main__":
    main()
