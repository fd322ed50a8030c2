#!/usr/bin/env bash
# Compares two builds of the program by the instructions that they run, which a busy machine doesn't change: for each
# command over made captures the counts of both, by a datagram, and the ratio of the second to the first. It needs
# valgrind and python3.
#   bench/instructions.sh BEFORE AFTER [FOLDER]
# FOLDER keeps the captures for further runs; by default it is sflow-bench in the system's temporary folder.
set -eu
cd "$(dirname "${BASH_SOURCE[0]}")/.."
before=$1
after=$2
folder=${3:-${TMPDIR:-/tmp}/sflow-bench}
size=${SFLOW_BENCH_BYTES:-6400000}
mkdir -p "$folder"
counts=$(mktemp)
trap 'rm -f "$counts"' EXIT

made() {
  capture=$folder/$1-$size-$2-$3.sflc
  if [ ! -e "$capture" ]; then
    python3 bench/make_capture.py 1 "$size" "$1" "$capture.part" --streams "$2" --padding "$3"
    mv "$capture.part" "$capture"
  fi
}

# The instructions of a program with these words over the capture.
count() {
  valgrind --tool=callgrind --callgrind-out-file=/dev/null "$@" < "$capture" 2> "$counts" > /dev/null || true
  sed -n 's/.*Collected : //p' "$counts"
}

compare() {
  local old new
  old=$(count "$before" $1)
  new=$(count "$after" $1)
  awk -v name="${capture##*/} $1" -v old="$old" -v new="$new" \
    'BEGIN { printf "%-88s %13d %13d %6.3f\n", name, old, new, new / old }'
}

printf '%-88s %13s %13s %6s\n' 'capture and command' before after ratio
made plain 8 none
compare check
made flows 8 none
for command in check show canon replay; do compare "$command"; done
for padding in zero stray; do
  made flows 8 "$padding"
  compare canon
done
for streams in 1 256 4096; do
  made flows "$streams" none
  compare "replay --streams 4096 --sources 65536 --datagram-width 1024"
done
