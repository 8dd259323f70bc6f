#!/usr/bin/env bash
# How the lexer of `cv_lex` grows with the length of the text. Makes a scratch program outside the
# repository from the text below, proves and builds it over a copy of the crates, and times it over generated C
# text of 64 KiB, 256 KiB and 1 MiB. Each text is read REPEATS times to its end; the time of a run that only makes
# the text is taken off. The last rows are the same lengths as one comment, which is one token.
#
#   bench/lex.sh [REPEATS]        (20 where none is given)
set -eu
repeats=${1:-20}
here=$(cd "$(dirname "$0")/.." && pwd)
work=$(mktemp -d "${TMPDIR:-/tmp}/lex-bench.XXXXXX")
trap 'rm -rf "$work"' EXIT

mkdir -p "$work/crates/lex_bench/src"
for name in cv_list cv_core cv_lex; do
    mkdir -p "$work/crates/$name"
    for part in src specs proofs; do
        cp -r "$here/crates/$name/$part" "$work/crates/$name/" 2>/dev/null || true
    done
done
grep -E '^(cv_list|cv_core|cv_lex):' "$here/crates.txt" >"$work/crates.txt"
echo 'lex_bench: cv_lex anyhow' >>"$work/crates.txt"

cat >"$work/crates/lex_bench/src/main.rt" <<'PROGRAM'
//! Reads the tokens of a generated text so many times.
#![tactic(auto)]

use anyhow::Result;
use cv_lex::Lexer;
use std::alloc::Global;
use std::env;

const LINE: &[u8] = b"  while (*p != 0 && i <= 0x1F) { x += 'a'; s = \"word\\n\"; } /* c */\n";

/// Lines of C, or one comment.
fn text(alloc: Global, bytes: usize, comment: bool) -> Result<Vec<u8>> {
    let mut text = Vec::new(alloc);
    if comment {
        text.extend_from_slice(b"/*")?;
    }
    for at in 0..bytes {
        let byte = if comment { b'x' } else { LINE[at % LINE.len()] };
        text.push(byte)?;
    }
    if comment {
        text.extend_from_slice(b"*/")?;
    }
    Ok(text)
}

fn count(source: &[u8]) -> u64 {
    let mut found = 0u64;
    if 4294967294 < source.len() {
        return found;
    }
    let mut lexer = Lexer::new(source);
    for _ in 0..source.len() {
        match lexer.next() {
            Ok(Some(_)) => found = found.wrapping_add(1),
            _ => return found,
        }
    }
    found
}

fn run(rt: &impl Print, alloc: Global, bytes: u32, repeats: u32, comment: bool) -> Result<()> {
    let source = text(alloc, bytes as usize, comment)?;
    let mut tokens = 0u64;
    for _ in 0..repeats {
        tokens = count(&source);
    }
    rt.println(tokens)?;
    Ok(())
}

fn main(rt: HostRuntime) -> Result<()> {
    let mut numbers = [0u32; 3];
    for (place, word) in env::args(&rt)?.skip(1).take(3).enumerate() {
        if let (Some(slot), Ok(number)) = (numbers.get_mut(place), word.as_str().parse::<u32>()) {
            *slot = number;
        }
    }
    run(&rt, rt.alloc(), numbers[0], numbers[1], numbers[2] == 1)
}
PROGRAM

cd "$work/crates/lex_bench"
rt run -- 1 1 0 >"$work/build.log" 2>&1 || { cat "$work/build.log"; exit 1; }
nanoseconds() { # of a run over BYTES bytes, READ times, of the KIND
    local start end
    start=$(date +%s%N)
    ./out/lex_bench "$1" "$2" "$3" >/dev/null
    end=$(date +%s%N)
    echo $((end - start))
}
echo "bytes  kind  tokens  microseconds a reading"
for kind in 0 1; do
    for bytes in 65536 262144 1048576; do
        idle=$(nanoseconds "$bytes" 0 "$kind")
        busy=$(nanoseconds "$bytes" "$repeats" "$kind")
        tokens=$(./out/lex_bench "$bytes" 1 "$kind")
        echo "$bytes  $([ "$kind" = 0 ] && echo lines || echo comment)  $tokens  $(((busy - idle) / repeats / 1000))"
    done
done
