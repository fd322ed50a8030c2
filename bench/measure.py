#!/usr/bin/env python3
"""Times a command over a capture beside `wc` and a plain copy: the best of three runs of each, all in one go. The
command is timed twice, with its output kept in memory, as the copy's is, and with its output dropped, as a walk has none.

    bench/measure.py CAPTURE COPY COMMAND [WALK]

COPY is the file that the copy writes, best in memory. COMMAND is run by the shell, with the capture as its input; what
it prints goes into COPY.out. WALK is a program that is timed beside it, a walk in C.
"""
import mmap
import os
import struct
import subprocess
import sys
import time

RUNS = 3


def datagrams_in(path):
    with open(path, "rb") as file, mmap.mmap(file.fileno(), 0, access=mmap.ACCESS_READ) as held:
        at, count = 8, 0
        while at < len(held):
            length, = struct.unpack_from(">I", held, at + 8)
            at += 12 + length + -length % 4
            count += 1
        return count


def started(command, capture, output):
    with open(capture, "rb") as source, open(output, "wb") as out:
        return subprocess.Popen(["sh", "-c", command], stdin=source, stdout=out)


def seconds(command, capture, output):
    """The least time of three runs. Status 1 says that datagrams are malformed, and is no failure."""
    least = float("inf")
    for _ in range(RUNS):
        begin = time.perf_counter()
        status = started(command, capture, output).wait()
        least = min(least, time.perf_counter() - begin)
        if status not in (0, 1):
            sys.exit(f"bench: `{command}` ended with status {status}")
    return least


def peak_memory(command, capture, output):
    """The most resident memory of the command in KiB, as the system keeps it for the process while it runs."""
    process = started(f"exec {command}", capture, output)
    peak = 0
    while process.poll() is None:
        try:
            with open(f"/proc/{process.pid}/status") as status:
                marks = [line for line in status if line.startswith("VmHWM")]
        except OSError:
            break
        if marks:
            peak = max(peak, int(marks[0].split()[1]))
        time.sleep(0.002)
    process.wait()
    return peak


def main():
    capture, copy, command, *walk = sys.argv[1:]
    output = f"{copy}.out"
    size, count = os.path.getsize(capture), datagrams_in(capture)
    print(f"{capture}: {size:,} bytes, {count:,} datagrams")
    rows = [("cat | wc -c", "cat | wc -c"), ("copy", f"dd bs=64k of='{copy}' 2> /dev/null"), (command, command)]
    rows += [("its output dropped", f"{command} > /dev/null")]
    rows += [("C walk", f"'{path}'") for path in walk]
    times = {name: seconds(line, capture, output) for name, line in rows}
    print(f"{'':24}{'s':>8}{'MB/s':>10}{'datagrams/s':>14}{'of the copy':>13}{'of the walk' if walk else '':>13}")
    for name, took in times.items():
        beside = f"{times['C walk'] / took:13.2f}" if walk else ""
        print(f"{name:24}{took:8.3f}{size / took / 1e6:10.0f}{count / took:14,.0f}{times['copy'] / took:13.2f}{beside}")
    print(f"cost of a datagram: {1e9 * times['its output dropped'] / count:,.0f} ns")
    print(f"peak resident memory of `{command}`: {peak_memory(command, capture, output):,} KiB")


if __name__ == "__main__":
    main()
