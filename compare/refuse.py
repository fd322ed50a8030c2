#!/usr/bin/env python3
"""Refuses each request for memory of a run in turn, command by command.

    compare/refuse.py

Each run in which a request was refused has to end with status 6 and nothing written, or under `agent` with a beginning of what
the whole run writes. Prints a line for each command, with how many requests a run makes, and ends with status 1 where a run
ended otherwise. It needs cc, glibc, and the built program.
"""
import os
import socket
import subprocess
import sys
import tempfile
from pathlib import Path

TOP = Path(__file__).resolve().parent.parent
PROGRAM = TOP / "crates/sflow_cli/out/sflow_cli"
EXAMPLES = TOP / "examples"

# Where `send` sends and `collect` listens.
TO, LISTEN = 17021, 17022

COMMANDS = (
    (("show",), "open_vswitch.sflc"),
    (("check", "--zero"), "open_vswitch.sflc"),
    (("canon", "--migrate"), "open_vswitch.sflc"),
    (("replay", "--interfaces"), "open_vswitch.sflc"),
    (("pcap",), "open_vswitch.pcap"),
    (("pcap", "--count"), "open_vswitch.pcap"),
    (("send", "--to", f"127.0.0.1:{TO}"), "first.sflc"),
    (("collect", "--turns", "1", "--listen", f"127.0.0.1:{LISTEN}"), "first.sflc"),
    (("relay", "--turns", "1", "--routes", f"any=127.0.0.1:{TO}", "--listen", f"127.0.0.1:{LISTEN}"), "first.sflc"),
    (("agent",), "ten_packets.script"),
    (("trial", "--interfaces"), "delivered.script"),
)


def run(words, example, refuse, folder):
    """Returns the status, the output and how many requests there were."""
    counted = folder / "counted"
    told = {"LD_PRELOAD": str(folder / "refuse.so"), "COUNTED": str(counted)}
    if refuse:
        told["REFUSE"] = str(refuse)
    with open(EXAMPLES / example, "rb") as source:
        ran = subprocess.run([PROGRAM, *words], stdin=source, capture_output=True, env={**os.environ, **told}, check=False)
    return ran.returncode, ran.stdout, int(counted.read_text())


def main():
    failed = False
    with tempfile.TemporaryDirectory() as name, socket.socket(socket.AF_INET, socket.SOCK_DGRAM) as sink:
        folder = Path(name)
        subprocess.run(["cc", "-O1", "-shared", "-fPIC", "-o", folder / "refuse.so", TOP / "compare/refuse.c"], check=True)
        sink.bind(("127.0.0.1", TO))
        for words, example in COMMANDS:
            status, whole, requests = run(words, example, 0, folder)
            most = whole if words == ("agent",) else b""
            ends = [run(words, example, n, folder)[:2] for n in range(1, requests + 1)]
            others = [end for end in ends if end[0] != 6 or not most.startswith(end[1])]
            print(f"{' '.join(words)}: status {status}, {requests} requests, each refused once, {len(others)} runs ended otherwise")
            failed |= status != 0 or requests == 0 or bool(others)
    return int(failed)


if __name__ == "__main__":
    sys.exit(main())
