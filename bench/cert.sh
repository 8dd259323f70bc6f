#!/usr/bin/env bash
# How fast `cv_cert` reads and writes, and what it holds. Makes a scratch program outside the repository from the
# text below, proves and builds it over a copy of the crates, and runs it on generated certificates. For each size
# in MiB it prints MB/s of `read_cert` and of `write_cert`, and the peak memory as a multiple of the text's size.
#
#   bench/cert.sh [MIB..]        (1 16 64 where none is given)
set -eu
sizes=${*:-1 16 64}
here=$(cd "$(dirname "$0")/.." && pwd)
work=$(mktemp -d "${TMPDIR:-/tmp}/cert-bench.XXXXXX")
trap 'rm -rf "$work"' EXIT

mkdir -p "$work/crates/cert_bench/src"
for name in cv_list cv_core cv_num cv_farkas cv_cert; do
    mkdir -p "$work/crates/$name"
    for part in src specs proofs; do
        cp -r "$here/crates/$name/$part" "$work/crates/$name/" 2>/dev/null || true
    done
done
grep -E '^(cv_list|cv_core|cv_num|cv_farkas|cv_cert):' "$here/crates.txt" >"$work/crates.txt"
echo 'cert_bench: cv_cert anyhow' >>"$work/crates.txt"

cat >"$work/crates/cert_bench/src/main.rt" <<'PROGRAM'
//! Loads a text, and then reads it so many times, and writes it so many times.
#![tactic(auto)]

use anyhow::{Result, bail};
use cv_cert::{read_cert, write_cert};
use std::alloc::Global;
use std::rt::Files;
use std::{env, fs};

fn run(rt: &(impl Print + Files), alloc: Global, text: &[u8], reads: u32, writes: u32) -> Result<()> {
    if text.len() > 4294967294 {
        bail!("too long");
    }
    for _ in 0..reads {
        let Ok(_) = read_cert(alloc, text) else {
            bail!("no certificate");
        };
    }
    if writes > 0 {
        let Ok(cert) = read_cert(alloc, text) else {
            bail!("no certificate");
        };
        for _ in 0..writes {
            rt.println(write_cert(alloc, &cert)?.len())?;
        }
    }
    Ok(())
}

fn main(rt: HostRuntime) -> Result<()> {
    let words = env::args(&rt)?;
    let mut path = String::new(rt.alloc());
    let mut numbers = [0u32; 2];
    for (place, word) in words.skip(1).enumerate() {
        if place == 0 {
            path.push_str(word.as_str())?;
        } else if let (Some(slot), Ok(number)) = (numbers.get_mut(place - 1), word.as_str().parse::<u32>()) {
            *slot = number;
        }
    }
    let text = fs::read(&rt, path.as_str())?;
    run(&rt, rt.alloc(), text.as_slice(), numbers[0], numbers[1])
}
PROGRAM

cd "$work/crates/cert_bench"
rt run -- /dev/null >"$work/build.log" 2>&1 || { cat "$work/build.log"; exit 1; }

text_of() { # MIB: a certificate of that size, of one case with statements of 40 rows and a step for each
    awk -v wanted=$(($1 * 1048576)) 'BEGIN {
        print "cssv-cert 1\npoints 2\nset 0 3 9\nset\nproc main 1\ncase 1"
        each = 0
        for (v = 0; v < 40; v++) { rows = rows "row " (v * 7919 - 100000) " " v " -1 " (v + 41) " " (v + 1) "\n" }
        each = length(rows) + 14 + 40 * 22
        count = int(wanted / each)
        for (p = 0; p < count; p++) printf "at %d 40\n%s", p, rows
        print "picks 0"
        print "steps " count * 40
        for (p = 0; p < count * 40; p++) print "step 1 " p % 4096 " 1 " p % 4096 + 17 " 3"
        print "end"
    }'
}
measured() { # FILE READS WRITES: nanoseconds and the peak in KiB
    local start end
    start=$(date +%s%N)
    /usr/bin/time -f %M -o "$work/peak" ./out/cert_bench "$@" >/dev/null
    end=$(date +%s%N)
    echo "$((end - start)) $(tail -1 "$work/peak")"
}

for mib in $sizes; do
    text_of "$mib" >"$work/text"
    bytes=$(stat -c %s "$work/text")
    read -r load loaded < <(measured "$work/text" 0 0)
    read -r once peak < <(measured "$work/text" 1 0)
    read -r both written < <(measured "$work/text" 0 1)
    awk -v b="$bytes" -v l="$load" -v o="$once" -v w="$both" -v p="$peak" -v q="$written" 'BEGIN {
        printf "%6.1f MiB: read_cert %.0f MB/s, write_cert %.0f MB/s, peak %.1f times the text with read_cert, %.1f with write_cert\n",
            b / 1048576, b * 1000 / (o - l), b * 1000 / (w - o), p * 1024 / b, q * 1024 / b
    }'
done
