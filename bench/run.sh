#!/usr/bin/env bash
# Times the commands over made captures, beside `wc`, a plain copy and, where there is a C compiler, a plain walk in C:
# walk.c, and for `replay` gaps.c and kinds.c. The figures are those of one run on one machine.
#   bench/run.sh [FOLDER]
# FOLDER keeps the captures for further runs; by default it is sflow-bench in the system's temporary folder.
# SFLOW_BENCH_BYTES is the size of the large captures (256,000,000: 200,000 datagrams of about six flow samples).
set -eu
cd "$(dirname "${BASH_SOURCE[0]}")/.."
folder=${1:-${TMPDIR:-/tmp}/sflow-bench}
size=${SFLOW_BENCH_BYTES:-256000000}
mkdir -p "$folder"
copies=$folder
if [ -w /dev/shm ]; then copies=/dev/shm; fi
copy=$(mktemp "$copies/sflow-copy.XXXXXX")
trap 'rm -f "$copy" "$copy.out"' EXIT

# The first call builds the program, which is then called without the script around it.
./sflow check < examples/first.sflc > /dev/null
ln -sf "$PWD/crates/sflow_cli/out/sflow_cli" "$folder/sflow"
PATH=$folder:$PATH

walks=
if command -v cc > /dev/null; then
  cc -O2 -o "$folder/walk" bench/walk.c
  cc -O2 -o "$folder/gaps" bench/gaps.c
  cc -O2 -o "$folder/kinds" bench/kinds.c
  walks=$folder
fi

# A capture of a kind, of so many bytes and streams, whose headers have such padding.
made() {
  capture=$folder/$1-$2-$3-$4.sflc
  if [ ! -e "$capture" ]; then
    python3 bench/make_capture.py 1 "$2" "$1" "$capture.part" --streams "$3" --padding "$4"
    mv "$capture.part" "$capture"
  fi
}

measure() {
  python3 bench/measure.py "$capture" "$copy" "sflow $1" ${walks:+"$walks/$2"}
}

made plain "$size" 8 none
measure check walk
made flows "$size" 8 none
for command in check show canon; do measure "$command" walk; done
measure replay gaps
measure replay kinds
for padding in zero stray; do
  made flows "$size" 8 "$padding"
  measure canon walk
done

# The cost of a datagram and the peak memory at the greatest limits, from one stream to 4,096 and over longer captures.
greatest="replay --streams 4096 --sources 65536 --datagram-width 1024"
for streams in 1 256 4096; do
  made flows "$size" "$streams" none
  measure "$greatest" gaps
done
for bytes in 12800000 1280000000; do
  made flows "$bytes" 256 none
  measure "$greatest" gaps
done
