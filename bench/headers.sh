#!/usr/bin/env bash
# Times what sampled headers say: full batches of sixteen, one header at a time, and a plain scan in C, over made headers
# and over those of the examples, which real agents sent. Picoseconds a header, the best of 400 short turns each, all in
# one go, and the ratio of C's time to that of full batches. It proves and builds a small program in FOLDER over copies of
# the crates that it stands on, and needs python3 and a C compiler.
#   bench/headers.sh [FOLDER] [CAPTURE..]
# FOLDER is by default sflow-bench in the system's temporary folder. CAPTURE.. are further captures of real agents.
set -eu
cd "$(dirname "${BASH_SOURCE[0]}")/.."
folder=${1:-${TMPDIR:-/tmp}/sflow-bench}
shift || true
program=$folder/headers/crates/header_times
mkdir -p "$program/src"
for crate in wire_spec xdr_words data_format header_lanes; do
  rm -rf "$folder/headers/crates/$crate"
  cp -a "crates/$crate" "$folder/headers/crates/$crate"
done
{
  grep -E '^(wire_spec|xdr_words|data_format|header_lanes):' crates.txt
  echo 'header_times: header_lanes data_format xdr_words wire_spec'
} > "$folder/headers/crates.txt"
cat > "$program/src/main.rt" <<'RATTLE'
//! Times batches of headers beside single ones.
#![tactic(auto)]

use header_lanes::{Address, Batch, HeaderFacts, Kind, scan_one};
use std::io::{self, Read};
use std::time::Instant;

const WIDTH: usize = 129;

// The header in this place; none past the end.
#[inline(always)]
fn header(bytes: &[u8], place: usize) -> &[u8] {
    let begin = (place % 4096) * WIDTH;
    if bytes.len() < begin + WIDTH {
        return &bytes[..0];
    }
    let len = (bytes[begin] as usize).min(128);
    &bytes[begin + 1..begin + 1 + len]
}

fn tally(sum: u64, facts: &HeaderFacts) -> u64 {
    let kind: u64 = match facts.kind {
        Kind::Unscanned => 0,
        Kind::Short => 1,
        Kind::Length => 2,
        Kind::Undefined => 3,
        Kind::Arp => 4,
        Kind::Ipv4 => 5,
        Kind::Ipv6 => 6,
        Kind::OtherType => 7,
        Kind::BadIp => 8,
    };
    let port = match facts.dst_port {
        Some(port) => u64::from(port) + 1,
        None => 0,
    };
    let flags = match facts.tcp_flags {
        Some(flags) => u64::from(flags) + 1,
        None => 0,
    };
    let vlan = match facts.vlan {
        Some(vlan) => u64::from(vlan) + 1,
        None => 0,
    };
    let from = match facts.src {
        Address::Unknown => 0,
        Address::V4(bytes) => u64::from(bytes[3]),
        Address::V6(bytes) => u64::from(bytes[3]),
    };
    sum.wrapping_mul(31)
        .wrapping_add(kind)
        .wrapping_add(port)
        .wrapping_add(flags)
        .wrapping_add(vlan)
        .wrapping_add(from)
}

fn tally_all(sum: u64, facts: &[HeaderFacts; 16]) -> u64 {
    let mut sum = sum;
    for one in facts {
        sum = tally(sum, one);
    }
    sum
}

fn fill(batch: &mut Batch, bytes: &[u8], group: usize) {
    for k in 0..16usize {
        let _ = batch.push(1, header(bytes, (group % 256) * 16 + k));
    }
}

fn by_batches(bytes: &[u8], sum: u64) -> u64 {
    let mut sum = sum;
    let mut batch = Batch::new();
    let mut facts = [HeaderFacts::none(); 16];
    for _ in 0..2usize {
        for group in 0..256usize {
            batch.clear();
            fill(&mut batch, bytes, group);
            batch.scan(&mut facts);
            sum = tally_all(sum, &facts);
        }
    }
    sum
}

fn by_ones(bytes: &[u8], sum: u64) -> u64 {
    let mut sum = sum;
    for _ in 0..2usize {
        for place in 0..4096usize {
            sum = tally(sum, &scan_one(1, header(bytes, place)));
        }
    }
    sum
}

fn main(rt: HostRuntime) -> io::Result<()> {
    let mut bytes = Vec::new(rt.alloc());
    rt.reader().read_to_end(&mut bytes)?;
    let mut sum = 0;
    let mut batches = u128::MAX;
    let mut ones = u128::MAX;
    for _ in 0..400usize {
        let start = Instant::now(&rt)?;
        sum = by_batches(&bytes, sum);
        batches = batches.min(start.elapsed(&rt)?.as_nanos());
    }
    let told = sum;
    for _ in 0..400usize {
        let start = Instant::now(&rt)?;
        sum = by_ones(&bytes, sum);
        ones = ones.min(start.elapsed(&rt)?.as_nanos());
    }
    let batches = (batches / 8192)
        .saturating_mul(1000)
        .saturating_add((batches % 8192) * 1000 / 8192);
    let ones = (ones / 8192)
        .saturating_mul(1000)
        .saturating_add((ones % 8192) * 1000 / 8192);
    println!(rt; "{batches} {ones} {told} {sum}")?;
    Ok(())
}
RATTLE
(cd "$program" && rt fmt > /dev/null 2>&1 && rt run < /dev/null > "$folder/headers/build.log" 2>&1) || true
if ! [ -x "$program/out/header_times" ]; then
  echo "bench: the program wasn't built; see $folder/headers/build.log" >&2
  exit 1
fi
cc -O2 -o "$folder/header_walk" bench/headers.c
python3 bench/headers.py made "$folder/made.headers" 2> /dev/null
python3 bench/headers.py "$folder/real.headers" examples/open_vswitch.sflc examples/pmacct.sflc "$@" 2> /dev/null
printf '%-8s %8s %8s %8s %6s\n' headers C batches ones ratio
for name in made real; do
  walked=$("$folder/header_walk" < "$folder/$name.headers")
  timed=$("$program/out/header_times" < "$folder/$name.headers")
  # Both told the same.
  [ "${walked#* }" = "$(echo "$timed" | cut -d' ' -f3)" ] || echo "bench: the sums differ: $walked, $timed" >&2
  echo "$name ${walked% *} $timed" | awk '{ printf "%-8s %8d %8d %8d %6.2f\n", $1, $2, $3, $4, $2 / $3 }'
done
