#!/usr/bin/env python3
"""Times `replay` over captures in which the numbers of one source go up by a fixed step: what a sample costs must not
grow with the step.

    bench/steps.py [PROGRAM] [--samples SAMPLES] [--widths WIDTHS]

PROGRAM is the program itself, by default the one that ./sflow builds. There is a capture for each step, of SAMPLES
counters samples without records, the shortest that there are, 1,000 in each datagram. A line says the width of the
window, the step, the processor time in ns that a sample takes, the best of five runs, and how many times that of step 1
it is. The figures are those of one run on one machine.
"""
import argparse
import os
import struct
import subprocess
import sys
import tempfile

STEPS = (1, 64, 256, 1023, 1024, 2**31 - 1)
IN_DATAGRAM = 1000
RUNS = 5
TOP = os.path.dirname(os.path.dirname(os.path.abspath(__file__)))


def entry(number, step):
    """The entry of a datagram, with the samples that follow those of the datagrams before it."""
    arrival = 1_000 + number
    samples = b"".join(struct.pack(">IIIII", 2, 12, step * (number * IN_DATAGRAM + at) % 2**32, 1, 0)
                       for at in range(IN_DATAGRAM))
    datagram = struct.pack(">IIIIIII", 5, 1, 0x0A000001, 0, number + 1, arrival, IN_DATAGRAM) + samples
    return struct.pack(">QI", arrival, len(datagram)) + datagram


def write_capture(path, step, samples):
    with open(path, "wb") as file:
        file.write(b"SFLC\0\0\0\1")
        for number in range(samples // IN_DATAGRAM):
            file.write(entry(number, step))


def processor_seconds(program, width, capture):
    """The least processor time of all runs, of the program and of the system for it."""
    least = float("inf")
    for _ in range(RUNS):
        with open(capture, "rb") as source:
            process = subprocess.Popen([program, "replay", "--sample-width", str(width)], stdin=source,
                                       stdout=subprocess.DEVNULL)
            _, status, used = os.wait4(process.pid, 0)
        process.returncode = os.waitstatus_to_exitcode(status)
        if process.returncode != 0:
            sys.exit(f"bench: {program} ended with status {process.returncode}")
        least = min(least, used.ru_utime + used.ru_stime)
    return least


def built_program():
    with open(os.path.join(TOP, "examples", "first.sflc"), "rb") as source:
        subprocess.run([os.path.join(TOP, "sflow"), "check"], stdin=source, stdout=subprocess.DEVNULL, check=True)
    return os.path.join(TOP, "crates", "sflow_cli", "out", "sflow_cli")


def main():
    parser = argparse.ArgumentParser(description=__doc__, formatter_class=argparse.RawDescriptionHelpFormatter)
    parser.add_argument("program", nargs="?")
    parser.add_argument("--samples", type=int, default=2_000_000)
    parser.add_argument("--widths", type=lambda words: [int(word) for word in words.split(",")], default=[64, 1024])
    words = parser.parse_args()
    program = words.program or built_program()
    samples = max(words.samples // IN_DATAGRAM, 1) * IN_DATAGRAM
    first = {}
    with tempfile.TemporaryDirectory() as folder:
        for step in STEPS:
            capture = os.path.join(folder, "steps.sflc")
            write_capture(capture, step, samples)
            for width in words.widths:
                nanoseconds = processor_seconds(program, width, capture) * 1e9 / samples
                first.setdefault(width, nanoseconds)
                print(f"width {width:4} step {step:10}: {nanoseconds:8.1f} ns a sample,"
                      f" {nanoseconds / first[width]:6.2f} times step 1", flush=True)


if __name__ == "__main__":
    main()
