#!/usr/bin/env bash
# How reading, testing and printing CoreC text grow with its length. Makes a scratch program outside the repository
# from the text below, proves and builds it over a copy of the crates, and times it over generated CoreC text of
# 64 KiB, 256 KiB and 1 MiB. Each of `read_core`, `check_limits`, `check_shape` and `print_core` is called REPEATS
# times; the time of a run that only loads the text and reads it once is taken off.
#
#   bench/text.sh [REPEATS]        (20 where none is given)
set -eu
repeats=${1:-20}
here=$(cd "$(dirname "$0")/.." && pwd)
work=$(mktemp -d "${TMPDIR:-/tmp}/text-bench.XXXXXX")
trap 'rm -rf "$work"' EXIT

mkdir -p "$work/crates/text_bench/src"
for name in cv_list cv_core cv_lex cv_reading cv_text; do
    mkdir -p "$work/crates/$name"
    for part in src specs proofs; do
        cp -r "$here/crates/$name/$part" "$work/crates/$name/" 2>/dev/null || true
    done
done
grep -E '^(cv_list|cv_core|cv_lex|cv_reading|cv_text):' "$here/crates.txt" >"$work/crates.txt"
echo 'text_bench: cv_core cv_text anyhow' >>"$work/crates.txt"

cat >"$work/crates/text_bench/src/main.rt" <<'PROGRAM'
//! Reads a program, and then reads, tests and prints it so many times each.
#![tactic(auto)]

use anyhow::{Result, bail};
use cv_core::{check_limits, check_shape};
use cv_text::{print_core, read_core};
use std::alloc::Global;
use std::rt::Files;
use std::{env, fs};

/// How often each call is made.
#[derive(Drop)]
struct Counts {
    reads: u32,
    limits: u32,
    shapes: u32,
    prints: u32,
}

fn run(rt: &(impl Print + Files), alloc: Global, text: &[u8], counts: &Counts) -> Result<()> {
    if text.len() >= 4294967295 {
        bail!("too long");
    }
    let Ok(program) = read_core(alloc, text) else {
        bail!("no CoreC text");
    };
    for _ in 0..counts.reads {
        let Ok(_) = read_core(alloc, text) else {
            bail!("no CoreC text");
        };
    }
    for _ in 0..counts.limits {
        let Ok(()) = check_limits(&program) else {
            bail!("past a limit");
        };
    }
    for _ in 0..counts.shapes {
        let Ok(()) = check_shape(alloc, &program) else {
            bail!("no shape");
        };
    }
    for _ in 0..counts.prints {
        rt.println(print_core(alloc, &program)?.len())?;
    }
    Ok(())
}

fn main(rt: HostRuntime) -> Result<()> {
    let words = env::args(&rt)?;
    let mut path = String::new(rt.alloc());
    let mut numbers = [0u32; 4];
    for (place, word) in words.skip(1).take(5).enumerate() {
        if place == 0 {
            path.push_str(word.as_str())?;
        } else if let (Some(slot), Ok(number)) = (numbers.get_mut(place - 1), word.as_str().parse::<u32>()) {
            *slot = number;
        }
    }
    let text = fs::read(&rt, path.as_str())?;
    let [reads, limits, shapes, prints] = numbers;
    let counts = Counts {
        reads,
        limits,
        shapes,
        prints,
    };
    run(&rt, rt.alloc(), text.as_slice(), &counts)
}
PROGRAM

text_of() { # BYTES: a program of about that size, of procedures with up to 900 statements each
    awk -v wanted="$1" 'BEGIN {
        line = 1
        for (p = 0; name != "main"; p++) {
            name = made + 20000 < wanted ? "work" p : "main"
            head = line++ ": proc int " name "()\n{\nint x;\nint y;\nptr s;\nbuf b 64;\n"
            printf "%s", head
            made += length(head)
            for (n = 0; n < 900 && made < wanted; n += 9) {
                some = line ": x = y + 12;\n" line + 1 ": y = 3 * x;\n" line + 2 ": x = y / 7;\n" line + 3 ": s = &b;\n"
                some = some line + 4 ": s = s + 1;\n" line + 5 ": store s, 65;\n" line + 6 ": x = load s;\n"
                some = some line + 7 ": if x <= -5 goto " n ";\n" line + 8 ": y = x - y;\n"
                line += 9
                printf "%s", some
                made += length(some)
            }
            printf "%d: return 0;\n}\n", line++
        }
    }'
}

cd "$work/crates/text_bench"
text_of 1000 >"$work/text"
rt run -- "$work/text" 1 1 1 1 >"$work/build.log" 2>&1 || { cat "$work/build.log"; exit 1; }
nanoseconds() { # of a run with so many calls of each
    local start end
    start=$(date +%s%N)
    ./out/text_bench "$work/text" "$@" >/dev/null
    end=$(date +%s%N)
    echo $((end - start))
}
echo "bytes  milliseconds a call of read_core, check_limits, check_shape, print_core"
for bytes in 65536 262144 1048576; do
    text_of "$bytes" >"$work/text"
    idle=$(nanoseconds 0 0 0 0)
    read=$(nanoseconds "$repeats" 0 0 0)
    limits=$(nanoseconds 0 "$repeats" 0 0)
    shape=$(nanoseconds 0 0 "$repeats" 0)
    print=$(nanoseconds 0 0 0 "$repeats")
    awk -v size="$(stat -c %s "$work/text")" -v i="$idle" -v n="$repeats" -v r="$read" -v l="$limits" -v s="$shape" -v p="$print" \
        'BEGIN { e = n * 1000000; printf "%d  %.2f  %.2f  %.2f  %.2f\n", size, (r - i) / e, (l - i) / e, (s - i) / e, (p - i) / e }'
done
