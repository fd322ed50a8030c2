#!/usr/bin/env bash
# Compares `sflow check`, `sflow check --zero` and `sflow show` with a second reader of captures, and `sflow replay` with a
# second collector, over the examples and over made captures; and `sflow pcap` with a second reader of pcap files. Compares
# the account of made runs with that collector too, and `sflow trial`, where the program has it, with a second trial; and
# `sflow agent` over made scripts, whole and broken, with a second agent. It needs python3, and is no part of the tests.
#   compare/run.sh [SEEDS]
# SEEDS is how many captures of 10,000 entries, how many of 4,000 datagrams sent, how many pcap files, and how many times 300
# runs, 25 scripts for a trial and 500 for an agent are made (4).
set -eu
cd "$(dirname "${BASH_SOURCE[0]}")/.."
seeds=${1:-4}
folder=$(mktemp -d "${TMPDIR:-/tmp}/sflow-compare.XXXXXX")
trap 'rm -rf "$folder"' EXIT
status=0

# Status 1 of check says that datagrams are malformed.
compare() {
  local capture=$1 words=$2 mode=$3
  ./sflow $words < "$capture" > "$folder/ours" || [ $? -eq 1 ]
  python3 compare/decode.py "$mode" < "$capture" > "$folder/theirs"
  if cmp -s "$folder/ours" "$folder/theirs"; then
    echo "same: $words, $capture, $(wc -l < "$folder/ours") lines"
  else
    echo "DIFFERENT: $words, $capture, at line $(cmp "$folder/ours" "$folder/theirs" | sed 's/.*line //')"
    status=1
  fi
}

# The limits in the order of their numbers.
report() {
  local capture=$1 streams=$2 sources=$3 datagrams=$4 samples=$5 slack=$6
  ./sflow replay --interfaces --streams "$streams" --sources "$sources" --datagram-width "$datagrams" \
    --sample-width "$samples" --boot-slack "$slack" < "$capture" > "$folder/ours"
  python3 compare/collect.py "$streams" "$sources" "$datagrams" "$samples" "$slack" --interfaces < "$capture" \
    > "$folder/theirs"
  if cmp -s "$folder/ours" "$folder/theirs"; then
    echo "same: replay, limits $streams $sources $datagrams $samples $slack, $capture, $(wc -l < "$folder/ours") lines"
  else
    echo "DIFFERENT: replay, limits $streams $sources $datagrams $samples $slack, $capture"
    status=1
  fi
}

# A file that is cut is refused by both.
packets() {
  local file=$1 words=$2 ours theirs
  ./sflow pcap $words < "$file" > "$folder/ours" 2> "$folder/ours.said" && ours=0 || ours=$?
  python3 compare/pcap.py $words < "$file" > "$folder/theirs" 2> "$folder/theirs.said" && theirs=0 || theirs=$?
  if [ "$ours" = "$theirs" ] && cmp -s "$folder/ours" "$folder/theirs" && cmp -s "$folder/ours.said" "$folder/theirs.said"; then
    echo "same: pcap $words, $file, status $ours, $(wc -c < "$folder/ours") bytes"
  else
    echo "DIFFERENT: pcap $words, $file"
    status=1
  fi
}

# Without this command in the program nothing is compared.
trial() {
  local input=$1 ours theirs
  shift
  ./sflow trial "$@" < "$input" > "$folder/ours" 2> "$folder/ours.said" && ours=0 || ours=$?
  if [ "$ours" = 2 ]; then
    return
  fi
  python3 compare/trial.py "$@" < "$input" > "$folder/theirs" 2> "$folder/theirs.said" && theirs=0 || theirs=$?
  if [ "$ours" = "$theirs" ] && cmp -s "$folder/ours" "$folder/theirs" && cmp -s "$folder/ours.said" "$folder/theirs.said"; then
    echo "same: trial $*, $input, status $ours, $(wc -l < "$folder/ours") lines"
  else
    echo "DIFFERENT: trial $*, $input"
    status=1
  fi
}

for seed in $(seq "$seeds"); do
  python3 compare/make_capture.py "$seed" 10000 > "$folder/seed-$seed.sflc"
  python3 compare/make_run.py "$seed" 4000 > "$folder/run-$seed.sflc"
  python3 compare/make_pcap.py "$seed" 5000 > "$folder/seed-$seed.pcap"
  ./sflow pcap < "$folder/seed-$seed.pcap" > "$folder/pcap-$seed.sflc"
  head -c "$((100000 + seed))" "$folder/seed-$seed.pcap" > "$folder/cut-$seed.pcap"
done
for capture in examples/*.sflc "$folder"/*.sflc; do
  compare "$capture" "check" check
  compare "$capture" "check --zero" zero
  compare "$capture" "show" show
done
for capture in examples/*.sflc "$folder"/run-*.sflc; do
  report "$capture" 256 4096 64 1024 5000
  report "$capture" 4 9 8 16 100
  report "$capture" 6 40 1 1 30000
  report "$capture" 256 4096 1024 64 1073741824
  report "$capture" 256 4096 8192 8192 5000
  report "$capture" 256 4096 2 8191 5000
  report "$capture" 256 4096 63 65 5000
done
for capture in "$folder"/pcap-*.sflc; do
  report "$capture" 256 4096 64 1024 5000
done
for file in examples/*.pcap "$folder"/*.pcap; do
  packets "$file" ''
  packets "$file" --count
done
for seed in $(seq "$seeds"); do
  python3 compare/scripts.py "$seed" 500 ./sflow || status=1
  python3 compare/trial.py --compare "$seed" 300 ./sflow || status=1
  trial /dev/null --made "$seed" --packets 100000
  trial /dev/null --made "$seed" --packets "$seed" --interfaces
  for script in $(seq $((25 * seed - 24)) $((25 * seed))); do
    python3 compare/make_script.py "$script" > "$folder/script-$script"
    trial "$folder/script-$script"
    trial "$folder/script-$script" --datagram-width 2 --sample-width 3 --boot-slack 100 --interfaces
    trial "$folder/script-$script" --streams 1 --sources 2
    head -c $((40 * script)) "$folder/script-$script" > "$folder/cut-script"
    trial "$folder/cut-script"
  done
done
exit $status
