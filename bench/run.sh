#!/usr/bin/env bash
# How `run` grows with its steps: over a loop that stores each byte of an array of 4 KiB again and again, over a
# procedure that calls itself 100 deep again and again, and over one that does so beside an array of 64 KiB, which shows
# what keeping the memory at entry costs.
#
#   bench/run.sh [PROGRAM]        (./cssv where none is given)
set -eu
here=$(cd "$(dirname "$0")/.." && pwd)
program=${1:-$here/cssv}
work=$(mktemp -d "${TMPDIR:-/tmp}/run-bench.XXXXXX")
trap 'rm -rf "$work"' EXIT

cat >"$work/stores.core" <<'TEXT'
1: proc int main()
{
buf b 4096;
ptr p;
int n;
2: p = &b;
3: n = 0;
4: if n >= 4096 goto 0;
5: store p, 65;
6: p = p + 1;
7: n = n + 1;
8: goto 2;
9: return 0;
}
TEXT
down_beside() { # LOCALS: of main
    cat <<TEXT
1: proc int down(int n)
requires n >= 0;
ensures result == 0;
{
2: if n == 0 goto 4;
3: n = n - 1;
4: n = call down(n);
5: return n;
6: return 0;
}
7: proc int main()
{
int x;
$1
8: x = call down(100);
9: goto 0;
10: return 0;
}
TEXT
}
down_beside "int y;" >"$work/calls.core"
down_beside "buf b 65536;" >"$work/calls-beside-64-KiB.core"

"$program" run "$work/stores.core" 0 2>/dev/null || true
echo "program  steps  milliseconds  steps a second"
for name in stores calls calls-beside-64-KiB; do
    for steps in 10000 100000 1000000 10000000; do
        # the calls beside a large array are slow, and need no more steps to show it
        [ "$name $steps" = "calls-beside-64-KiB 10000000" ] && continue
        start=$(date +%s%N)
        "$program" run "$work/$name.core" "$steps" >"$work/out" 2>"$work/err" || true
        end=$(date +%s%N)
        grep -q "stopped after $steps steps" "$work/err" || { cat "$work/err"; exit 1; }
        awk -v n="$name" -v s="$steps" -v t=$((end - start)) 'BEGIN { printf "%s  %d  %.1f  %.0f\n", n, s, t / 1000000, s * 1000000000 / t }'
    done
done
