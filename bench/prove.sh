#!/usr/bin/env bash
# How `cv_farkas::prove` grows with the number of hypotheses. Makes a scratch program outside the
# repository from the text below, proves and builds it over a copy of the crates, and times it with 256, 1024 and
# 4096 hypotheses. Each count is run with REPEATS calls of `prove` for a goal that no short step has,
# which is the longest way through it; the time of a run without a call is taken off.
#
#   bench/prove.sh [REPEATS]        (100 where none is given)
set -eu
repeats=${1:-100}
here=$(cd "$(dirname "$0")/.." && pwd)
work=$(mktemp -d "${TMPDIR:-/tmp}/prove-bench.XXXXXX")
trap 'rm -rf "$work"' EXIT

mkdir -p "$work/crates/prove_bench/src"
for name in cv_list cv_num cv_farkas; do
    mkdir -p "$work/crates/$name"
    for part in src specs proofs; do
        cp -r "$here/crates/$name/$part" "$work/crates/$name/" 2>/dev/null || true
    done
done
grep -E '^(cv_list|cv_num|cv_farkas):' "$here/crates.txt" >"$work/crates.txt"
echo 'prove_bench: cv_farkas cv_num anyhow' >>"$work/crates.txt"

cat >"$work/crates/prove_bench/src/main.rt" <<'PROGRAM'
//! Calls `prove` so many times over so many hypotheses.
#![tactic(auto)]

use anyhow::Result;
use cv_farkas::prove;
use cv_num::{Row, row, widen};
use std::alloc::Global;
use std::env;

/// Rows of two or three variables, by a fixed pseudo-random sequence.
fn hypotheses(alloc: Global, count: u32) -> Result<Vec<Row>> {
    let mut hyps = Vec::new(alloc);
    let mut seed = 1u64;
    for _ in 0..count {
        seed = seed.wrapping_mul(6364136223846793005).wrapping_add(1442695040888963407);
        let first = (seed >> 33) % 200;
        let second = 200 + (seed >> 41) % 200;
        let coefficient = ((seed >> 50) % 7) as i64 + 1;
        let constant = ((seed >> 55) % 100) as i64;
        hyps.push(row(alloc, &[(first as u32, 1), (second as u32, coefficient)], constant)?)?;
    }
    Ok(hyps)
}

fn run(rt: &impl Print, alloc: Global, count: u32, repeats: u32) -> Result<()> {
    let hyps = hypotheses(alloc, count)?;
    let narrow = row(alloc, &[(0, 1), (399, -1)], -1)?;
    let goal = widen(alloc, &narrow)?;
    let mut found = 0u32;
    for _ in 0..repeats {
        if prove(alloc, &hyps, &goal)?.is_some() {
            found = found.wrapping_add(1);
        }
    }
    rt.println(found)?;
    Ok(())
}

fn main(rt: HostRuntime) -> Result<()> {
    let mut numbers = [0u32; 2];
    for (place, word) in env::args(&rt)?.skip(1).take(2).enumerate() {
        if let (Some(slot), Ok(number)) = (numbers.get_mut(place), word.as_str().parse::<u32>()) {
            *slot = number;
        }
    }
    run(&rt, rt.alloc(), numbers[0], numbers[1])
}
PROGRAM

cd "$work/crates/prove_bench"
rt run -- 1 1 >"$work/build.log" 2>&1 || { cat "$work/build.log"; exit 1; }
nanoseconds() { # of a run with COUNT hypotheses and CALLS calls
    local start end
    start=$(date +%s%N)
    ./out/prove_bench "$1" "$2" >/dev/null
    end=$(date +%s%N)
    echo $((end - start))
}
echo "hypotheses  microseconds a call of prove"
for count in 256 1024 4096; do
    idle=$(nanoseconds "$count" 0)
    busy=$(nanoseconds "$count" "$repeats")
    echo "$count  $(((busy - idle) / repeats / 1000))"
done
