#!/usr/bin/env python3
"""Times `replay` beside a walk over each capture, in turns: the least of so many runs, elapsed and of the processor.

    bench/beside.py RUNS PROGRAM WALK CAPTURE..

It says where the walk's line of the classes of headers isn't the program's. The walk leaves out the samples that come
late, so the two differ where samples changed places.
"""
import resource
import subprocess
import sys
import time


def run(words, capture):
    """Seconds, elapsed and of the processor, and what was printed."""
    before, begin = resource.getrusage(resource.RUSAGE_CHILDREN), time.perf_counter()
    with open(capture, "rb") as source:
        printed = subprocess.run(words, stdin=source, stdout=subprocess.PIPE, text=True, check=False).stdout
    elapsed, after = time.perf_counter() - begin, resource.getrusage(resource.RUSAGE_CHILDREN)
    return elapsed, after.ru_utime + after.ru_stime - before.ru_utime - before.ru_stime, printed


def line_of_classes(printed):
    return [line for line in printed.splitlines() if line.startswith("headers ")]


def main():
    runs, program, walk, *captures = sys.argv[1:]
    for capture in captures:
        walked, replayed = [], []
        for _ in range(int(runs)):
            walked.append(run([walk], capture))
            replayed.append(run([program, "replay"], capture))
        print(capture)
        print(f"{'':10}{'ms':>10}{'ms of the processor':>22}")
        for name, made in (("C walk", walked), ("replay", replayed)):
            print(f"{name:10}{1e3 * min(one[0] for one in made):10.1f}{1e3 * min(one[1] for one in made):22.1f}")
        ratios = [min(one[k] for one in walked) / min(one[k] for one in replayed) for k in (0, 1)]
        print(f"{'ratio':10}{ratios[0]:10.2f}{ratios[1]:22.2f}")
        if line_of_classes(walked[0][2]) != line_of_classes(replayed[0][2]):
            print("the walk's classes differ")


if __name__ == "__main__":
    main()
