#!/usr/bin/env bash
# How `least` and `closed` of cv_points and `cases`, `targets` and `targets_closed` of cv_ppts grow with the procedures
# of a program and their statements. Makes a scratch program outside the repository from the text below, proves and
# builds it over a copy of the crates, and times it over generated CoreC text. `least` and `closed` are called REPEATS
# times, `cases` once for each procedure, and `targets` and `targets_closed` once for each case of the first eight; the
# time of a run that does all but the call is taken off.
#
#   bench/points.sh [REPEATS]        (1 where none is given)
set -eu
repeats=${1:-1}
here=$(cd "$(dirname "$0")/.." && pwd)
work=$(mktemp -d "${TMPDIR:-/tmp}/points-bench.XXXXXX")
trap 'rm -rf "$work"' EXIT

mkdir -p "$work/crates/points_bench/src"
for name in cv_list cv_core cv_lex cv_reading cv_text cv_points cv_ppts; do
    mkdir -p "$work/crates/$name"
    for part in src specs proofs; do
        cp -r "$here/crates/$name/$part" "$work/crates/$name/" 2>/dev/null || true
    done
done
grep -E '^(cv_list|cv_core|cv_lex|cv_reading|cv_text|cv_points|cv_ppts):' "$here/crates.txt" >"$work/crates.txt"
echo 'points_bench: cv_core cv_text cv_points cv_ppts anyhow' >>"$work/crates.txt"

cat >"$work/crates/points_bench/src/main.rt" <<'PROGRAM'
//! Reads a program, and then calls `least` so many times, `closed` of its least family so many times, `cases` of so many
//! of its procedures, `targets` of the cases of so many, and `targets_closed` of those of so many.
#![tactic(auto)]

use anyhow::{Result, bail};
use cv_core::{Program, PtsTable};
use cv_points::{closed, least};
use cv_ppts::{cases, targets, targets_closed};
use cv_text::read_core;
use std::alloc::Global;
use std::rt::Files;
use std::{env, fs};

/// How often `least` and `closed` are called, and for how many procedures each other call is made.
#[derive(Drop)]
struct Counts {
    least: u32,
    closed: u32,
    cases: u32,
    targets: u32,
    targets_closed: u32,
}

/// How many cases the procedure of a number has, whose targets are asked for too where that is wanted.
fn of_procedure(
    alloc: Global,
    program: &Program,
    proc: u32,
    table: &PtsTable,
    counts: &Counts,
) -> Result<usize> {
    let Ok(found) = cases(alloc, program, proc, table) else {
        bail!("no list of cases");
    };
    if proc < counts.targets {
        for case in &found {
            let sets = targets(alloc, program, proc, case)?;
            if sets.sets.is_empty() {
                bail!("no sets");
            }
            if proc < counts.targets_closed && !targets_closed(program, proc, case, &sets) {
                bail!("not closed");
            }
        }
    }
    Ok(found.len())
}

fn run(rt: &(impl Print + Files), alloc: Global, text: &[u8], counts: &Counts) -> Result<()> {
    if text.len() >= 4294967295 {
        bail!("too long");
    }
    let Ok(program) = read_core(alloc, text) else {
        bail!("no CoreC text");
    };
    for _ in 0..counts.least {
        rt.println(least(alloc, &program)?.sets.len())?;
    }
    if counts.closed > 0 {
        let table = least(alloc, &program)?;
        for _ in 0..counts.closed {
            if closed(&program, &table).is_err() {
                bail!("not closed");
            }
        }
    }
    if counts.cases > 0 {
        let table = least(alloc, &program)?;
        let mut all: usize = 0;
        for proc in 0..counts.cases {
            let some = of_procedure(alloc, &program, proc, &table, counts)?;
            all = all.wrapping_add(some);
        }
        rt.println(all)?;
    }
    Ok(())
}

fn main(rt: HostRuntime) -> Result<()> {
    let words = env::args(&rt)?;
    let mut path = String::new(rt.alloc());
    let mut numbers = [0u32; 5];
    for (place, word) in words.skip(1).take(6).enumerate() {
        if place == 0 {
            path.push_str(word.as_str())?;
        } else if let (Some(slot), Ok(number)) = (numbers.get_mut(place - 1), word.as_str().parse::<u32>()) {
            *slot = number;
        }
    }
    let text = fs::read(&rt, path.as_str())?;
    let [least, closed, cases, targets, targets_closed] = numbers;
    let counts = Counts {
        least,
        closed,
        cases,
        targets,
        targets_closed,
    };
    run(&rt, rt.alloc(), text.as_slice(), &counts)
}
PROGRAM

text_of() { # PROCEDURES STATEMENTS: each procedure calls the one before it
    awk -v procs="$1" -v stmts="$2" 'BEGIN {
        print "literal $s1 { 104, 105 };"
        line = 1
        for (p = 0; p < procs - 1; p++) {
            printf "%d: proc ptr work%d(ptr s, pptr w)\nrequires s != null, *w != null;\nmodifies body(s), *w;\nensures base(result) == base(s);\n", line++, p
            printf "{\nint n;\nptr q;\nptr r;\nbuf b 64;\npcell c;\npptr v;\n"
            for (n = 0; n + 10 < stmts; n += 10) {
                printf "%d: q = &b;\n%d: r = q + 1;\n%d: v = &c;\n%d: put v, r;\n", line, line, line, line
                printf "%d: q = get w;\n%d: r = &$s1;\n%d: put w, s;\n%d: q = call malloc(n);\n%d: n = n + 1;\n", line, line, line, line, line
                if (p > 0) printf "%d: r = call work%d(q, v);\n", line, p - 1; else printf "%d: r = q;\n", line
                line++
            }
            printf "%d: return s;\n}\n", line++
        }
        printf "%d: proc int main()\n{\nptr q;\nbuf b 64;\npcell c;\npptr v;\n", line++
        printf "%d: q = &b;\n%d: v = &c;\n%d: put v, q;\n%d: q = call work%d(q, v);\n%d: return 0;\n}\n", line, line, line, line, procs - 2, line
    }'
}

cd "$work/crates/points_bench"
text_of 4 21 >"$work/text"
rt run -- "$work/text" 1 1 4 4 4 >"$work/build.log" 2>&1 || { cat "$work/build.log"; exit 1; }
nanoseconds() { # of a run with so many calls
    local start end
    start=$(date +%s%N)
    ./out/points_bench "$work/text" "$@" >/dev/null
    end=$(date +%s%N)
    echo $((end - start))
}
echo "procedures  statements of each  milliseconds of a call of least, of closed, of cases, of targets, of targets_closed"
for shape in "64 250" "128 250" "256 250" "64 1000" "256 1000"; do
    set -- $shape
    text_of "$1" "$2" >"$work/text"
    idle=$(nanoseconds 0 0 0 0 0)
    least=$(nanoseconds "$repeats" 0 0 0 0)
    once=$(nanoseconds 1 0 0 0 0)
    closed=$(nanoseconds 0 "$repeats" 0 0 0)
    cases=$(nanoseconds 0 0 "$1" 0 0)
    few=$(nanoseconds 0 0 8 0 0)
    targets=$(nanoseconds 0 0 8 8 0)
    held=$(nanoseconds 0 0 8 8 8)
    calls=$(./out/points_bench "$work/text" 0 0 8 0 0)
    awk -v p="$1" -v s="$2" -v i="$idle" -v n="$repeats" -v l="$least" -v o="$once" -v d="$closed" -v c="$cases" -v f="$few" \
        -v t="$targets" -v h="$held" -v k="$calls" 'BEGIN {
            m = 1000000
            printf "%d  %d  %.1f  %.1f  %.3f  %.1f  %.1f\n", p, s, (l - i) / n / m, (d - o) / n / m, (c - o) / p / m, (t - f) / k / m, (h - t) / k / m
        }'
done
