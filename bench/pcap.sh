#!/usr/bin/env bash
# Times `pcap` over a made pcap file of 200,000 datagrams beside a plain copy and, where it is there, tcpdump, which copies
# the packets without looking inside; and `replay` over the same datagrams in both versions of captures. The least of five
# runs of each, in turns, in seconds of the processor, which a busy machine changes less than the clock's. It needs python3.
#   bench/pcap.sh [FOLDER]
# FOLDER keeps the files for further runs; by default it is sflow-bench in the system's temporary folder.
set -eu
cd "$(dirname "${BASH_SOURCE[0]}")/.."
folder=${1:-${TMPDIR:-/tmp}/sflow-bench}
size=${SFLOW_BENCH_BYTES:-256000000}
mkdir -p "$folder"

# The first call builds the program, which is then called without the script around it.
./sflow check < examples/first.sflc > /dev/null
ln -sf "$PWD/crates/sflow_cli/out/sflow_cli" "$folder/sflow"
PATH=$folder:$PATH

capture=$folder/flows-$size-8-none.sflc
pcap=$folder/flows-$size-8-none.pcap
second=$folder/flows-$size-8-none.2.sflc
if [ ! -e "$capture" ]; then
  python3 bench/make_capture.py 1 "$size" flows "$capture.part" --streams 8 --padding none
  mv "$capture.part" "$capture"
fi
if [ ! -e "$pcap" ]; then
  python3 bench/make_pcap.py "$capture" "$pcap.part"
  mv "$pcap.part" "$pcap"
fi
sflow pcap < "$pcap" > "$second"

python3 - "$pcap" "$capture" "$second" <<'PYTHON'
import os, resource, shutil, subprocess, sys

pcap, first, second = sys.argv[1:]
tasks = [
    ("copy of the pcap file", f"cat < '{pcap}' > /dev/null"),
    ("sflow pcap", f"sflow pcap < '{pcap}' > /dev/null"),
    ("sflow pcap --count", f"sflow pcap --count < '{pcap}' > /dev/null"),
    ("replay, version 1", f"sflow replay < '{first}' > /dev/null"),
    ("replay, version 2", f"sflow replay < '{second}' > /dev/null"),
]
if shutil.which("tcpdump"):
    tasks.append(("tcpdump -r F -w", f"tcpdump -r '{pcap}' -w - > /dev/null 2> /dev/null"))
else:
    print("tcpdump isn't there, so nothing is compared with it")

def spent(command):
    before = resource.getrusage(resource.RUSAGE_CHILDREN)
    subprocess.run(["sh", "-c", command], check=True)
    after = resource.getrusage(resource.RUSAGE_CHILDREN)
    return after.ru_utime + after.ru_stime - before.ru_utime - before.ru_stime

least = {name: float("inf") for name, _ in tasks}
for _ in range(5):
    for name, command in tasks:
        least[name] = min(least[name], spent(command))
for name, seconds in least.items():
    print(f"{name:24}{seconds:8.3f} s")
print(f"replay of version 2 by that of version 1: {least['replay, version 1'] / least['replay, version 2']:.2f} of its speed")
if "tcpdump -r F -w" in least:
    print(f"pcap by tcpdump: {least['tcpdump -r F -w'] / least['sflow pcap']:.2f} of its speed")
PYTHON
