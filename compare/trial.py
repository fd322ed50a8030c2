#!/usr/bin/env python3
"""A second trial, written from docs/FORMATS.md and docs/PROMISES.md alone, to compare `sflow trial` and the account with.

    compare/trial.py [LIMITS] [--interfaces] < SCRIPT
    compare/trial.py --made SEED --packets N [LIMITS] [--interfaces]
    compare/trial.py --compare SEED COUNT [PROGRAM]

The first two print what `sflow trial` is to print: the report of the deliveries by the agent's own numbers, which never
wrap, then what the agent sent, issued and dropped, and the four premises. Limits are those of `sflow replay`. Of a script
that breaks a rule it prints the number of the first line that does to standard error, with status 5.

The third makes COUNT runs, some as scripts and some whose numbers and pools leap far ahead, each under limits of its own.
Wherever the four premises hold, the account has to be the report that the second collector, collect.py, makes of the same
datagrams; `PROGRAM replay` has to make the same report as that collector; and the datagrams of a script have to be those of
the second agent, agent.py. It prints how many runs there were of each kind, and each run in which this doesn't hold.
"""
import collections
import contextlib
import io
import random
import struct
import subprocess
import sys

import agent
import collect
from account import account_of, apparent, close, roomy, visible
from history import made, read
from make_script import made_limits, made_run, script_of

LIMITS = {"--streams": 256, "--sources": 4096, "--datagram-width": 64, "--sample-width": 1024, "--boot-slack": 5000}


# ---- the report of the second collector


class Input:
    def __init__(self, data):
        self.buffer = io.BytesIO(data)


def capture_of(deliveries):
    rows = (struct.pack(">Q", d.arrival) + agent.opaque(d.datagram.data) for d in deliveries)
    return struct.pack(">4sI", b"SFLC", 1) + b"".join(rows)


def collected(limits, deliveries, interfaces):
    words = [str(limit) for limit in limits.values()] + ["--interfaces"] * interfaces
    kept = sys.argv, sys.stdin
    out = io.StringIO()
    try:
        sys.argv, sys.stdin = ["collect.py", *words], Input(capture_of(deliveries))
        with contextlib.redirect_stdout(out):
            collect.main()
    finally:
        sys.argv, sys.stdin = kept
    return out.getvalue().splitlines()


def replayed(program, limits, deliveries):
    """The report that the program makes."""
    words = [word for name, limit in limits.items() for word in (name, str(limit))]
    run = subprocess.run([program, "replay", "--interfaces", *words], input=capture_of(deliveries), stdout=subprocess.PIPE)
    return run.stdout.decode().splitlines()


# ---- the lines


def yes(holds):
    return "yes" if holds else "no"


def premises_of(limits, history, account, report):
    deliveries = history.deliveries
    return visible(limits, deliveries), close(account, deliveries), roomy(limits, history, report), apparent(account)


def last_lines(history, premises):
    names = ("visible", "close", "roomy", "apparent")
    return [f"agent datagrams {history.datagrams} samples {history.samples} drops {history.dropped}",
            "premises " + " ".join(f"{name} {yes(holds)}" for name, holds in zip(names, premises))]


def trial(limits, history, interfaces, report):
    """The lines of the account, and the premises. The report of the collector is made where it is needed."""
    account = account_of(limits, history.deliveries)
    return account.lines(history, interfaces), premises_of(limits, history, account, report)


# ---- runs to compare


def agrees_with_the_agent(maker):
    """The second agent sends the same datagrams, at the same arrivals."""
    other, broken = agent.run(script_of(maker))
    own = []
    for key, boots in maker.history.sent.items():
        for boot, sent in zip(maker.history.subs[key].boots, boots):
            own += [(boot["at"] + datagram.uptime, datagram.data) for datagram in sent]
    return broken is None and sorted(own) == sorted(other.entries)


def compare(seed, count, program=None):
    totals, wrong = collections.Counter(), []
    for run in range(count):
        rng = random.Random(f"{seed} {run}")
        maker = made_run(rng, rng.random() < 0.3)
        limits = made_limits(rng)
        history = maker.history
        report = collected(limits, history.deliveries, True)
        lines, premises = trial(limits, history, True, lambda: report)
        same, all_hold = lines == report, all(premises)
        kind = "leaping runs" if maker.leaps else "scripts"
        totals["runs"] += 1
        totals[kind] += 1
        totals["deliveries"] += len(history.deliveries)
        totals["resets seen"] += any(s.generation > 1 for d in history.deliveries for s in d.datagram.samples)
        totals["restarts seen"] += any(d.datagram.boot > 1 for d in history.deliveries)
        totals["all four hold"] += all_hold
        totals["all four hold, in " + kind] += all_hold
        totals["the account is the report"] += same
        for word in ("pending", "lost", "repeated", "late", "stale") if all_hold else ():
            rows = [line for line in lines if f" {word} " in line and f" {word} 0" not in line]
            totals[f"all four hold, and a line has {word} above 0"] += bool(rows)
        for name, holds in zip(("visible", "close", "roomy", "apparent"), premises):
            totals[f"{name} fails"] += not holds
            totals[f"{name} alone fails"] += not holds and sum(premises) == 3
            totals[f"{name} alone fails, and they differ"] += not holds and sum(premises) == 3 and not same
        if all_hold and not same:
            wrong.append(f"run {run} of seed {seed}: all four premises hold, and the account isn't the report")
        if program and replayed(program, limits, history.deliveries) != report:
            wrong.append(f"run {run} of seed {seed}: {program} reports something else than the second collector")
        if not maker.leaps and not agrees_with_the_agent(maker):
            wrong.append(f"run {run} of seed {seed}: the second agent sends something else")
    for name, number in totals.items():
        print(f"{number} {name}")
    for line in wrong:
        print("WRONG:", line)
    return 1 if wrong else 0


def main():
    words = sys.argv[1:]
    if words[:1] == ["--compare"]:
        sys.exit(compare(int(words[1]), int(words[2]), *words[3:4]))
    interfaces = "--interfaces" in words
    words = [word for word in words if word != "--interfaces"]
    said = dict(zip(words[::2], map(int, words[1::2])))
    limits = {name: said.get(name, limit) for name, limit in LIMITS.items()}
    if "--made" in said:
        history, broken = made(said["--made"], said["--packets"]), None
    else:
        history, broken = read(sys.stdin.buffer.read())
    if broken is not None:
        print(f"sflow: bad input at {broken} kind script", file=sys.stderr)
        sys.exit(5)
    lines, premises = trial(limits, history, interfaces, lambda: collected(limits, history.deliveries, interfaces))
    if not all(premises):
        # Outside the premises the report is that of the collector.
        lines = collected(limits, history.deliveries, interfaces)
    print("\n".join(lines + last_lines(history, premises)))


if __name__ == "__main__":
    main()
