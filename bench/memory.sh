#!/usr/bin/env bash
# Measures the most resident memory of `replay`, which a busy machine doesn't change: at the greatest limits with no entry, with
# as many streams and sources as can be listed, and with ten times and more of them; and at the default limits. Beside each
# stand the counted lengths of what may be listed: 1,536 bytes a stream, 2,048 a source and 262,144. It needs python3 and
# GNU time.
#   bench/memory.sh [PROGRAM] [FOLDER]
# PROGRAM is the program that `./sflow` builds unless another is named. FOLDER keeps the captures for further runs; by
# default it is sflow-bench in the system's temporary folder.
set -eu
cd "$(dirname "${BASH_SOURCE[0]}")/.."
program=${1:-}
folder=${2:-${TMPDIR:-/tmp}/sflow-bench}
mkdir -p "$folder"
if [ -z "$program" ]; then
  # The first call builds the program, which is then called without the script around it.
  ./sflow check < examples/first.sflc > /dev/null
  program=$PWD/crates/sflow_cli/out/sflow_cli
fi
peak=$(mktemp)
trap 'rm -f "$peak"' EXIT

measure() {
  local streams=$1 sources=$2 words=$3 counted=$4
  local capture=$folder/sources-$streams-$sources.sflc
  if [ ! -e "$capture" ]; then
    python3 bench/make_sources.py "$streams" "$sources" "$capture.part"
    mv "$capture.part" "$capture"
  fi
  command time -f %M -o "$peak" "$program" replay $words < "$capture" > /dev/null
  awk -v name="$streams streams, $sources sources${words:+, }$words" -v counted="$counted" \
    '{ kept = $1 * 1024; printf "%-112s %13d %13d %6.3f\n", name, kept, counted, kept / counted }' "$peak"
}

printf '%-112s %13s %13s %6s\n' 'capture and limits' resident counted ratio
greatest='--streams 4096 --sources 65536 --datagram-width 8192 --sample-width 8192'
at_greatest=$((4096 * 1536 + 65536 * 2048 + 262144))
at_default=$((256 * 1536 + 4096 * 2048 + 262144))
measure 0 0 "$greatest" "$at_greatest"
measure 4096 65536 "$greatest" "$at_greatest"
measure 4096 1000000 "$greatest" "$at_greatest"
measure 65536 1000000 "$greatest" "$at_greatest"
measure 0 0 '' "$at_default"
measure 256 4096 '' "$at_default"
measure 256 1000000 '' "$at_default"
