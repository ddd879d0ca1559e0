#!/usr/bin/env bash
# Rows a second of the built program, on the loop of examples/t.beam. It builds nothing: `rt run` in
# crates/beamnode makes out/beamnode. Not part of `rt ci`.
#
# sum(N) is the process's entry, move and call_only; four rows a turn (is_eq_exact, gc_bif2 +,
# gc_bif2 -, call_only); and is_eq_exact, move and return in the end: 4 * N + 6 rows.
set -euo pipefail

root=$(cd "$(dirname "$0")/.." && pwd)
program=${1:-$root/crates/beamnode/out/beamnode}

if [[ ! -x $program ]]; then
    echo "no program $program: build it first" >&2
    exit 1
fi

for n in 1000000 10000000; do
    rows=$((4 * n + 6))
    begin=$(date +%s%N)
    value=$("$program" call --module t --function sum --args "[$n]" --steps "$rows" "$root/examples/t.beam")
    end=$(date +%s%N)
    if [[ $value != $((n * (n + 1) / 2)) ]]; then
        echo "sum($n) gave $value" >&2
        exit 1
    fi
    nanoseconds=$((end - begin))
    echo "N = $n: $rows rows in $((nanoseconds / 1000000)) ms, $((rows * 1000 / (nanoseconds / 1000000 + 1))) rows a second"
done
