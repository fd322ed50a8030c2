#!/usr/bin/env bash
# Times `replay` with all that it does (books, classes of headers, three consumers) beside a plain walk in C that counts the
# same (kinds.c), over a made capture of flow samples and over captures of one's own: the best of so many runs of each, in
# one go.
#   bench/replay.sh [FOLDER] [CAPTURE..]
# FOLDER keeps the capture for further runs; by default it is sflow-bench in the system's temporary folder.
# SFLOW_BENCH_BYTES is the size of the made capture (64,000,000), SFLOW_BENCH_RUNS the number of runs (15), and
# SFLOW_BENCH_PROGRAM a built program, where it isn't to be that of this folder.
set -eu
cd "$(dirname "${BASH_SOURCE[0]}")/.."
folder=${1:-${TMPDIR:-/tmp}/sflow-bench}
shift || true
size=${SFLOW_BENCH_BYTES:-64000000}
mkdir -p "$folder"
program=${SFLOW_BENCH_PROGRAM:-}
if [ -z "$program" ]; then
  ./sflow check < examples/first.sflc > /dev/null
  program=$PWD/crates/sflow_cli/out/sflow_cli
fi
cc -O2 -o "$folder/kinds" bench/kinds.c
made=$folder/flows-$size-8-none.sflc
if [ ! -e "$made" ]; then
  python3 bench/make_capture.py 1 "$size" flows "$made.part"
  mv "$made.part" "$made"
fi
python3 bench/beside.py "${SFLOW_BENCH_RUNS:-15}" "$program" "$folder/kinds" "$made" "$@"
