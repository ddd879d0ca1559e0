#!/usr/bin/env bash
# How fast the built program loads files of some 1, 2, 4 and 8 MB: each is read, prepared and then not run
# (--steps 0). It builds nothing: `rt run` in crates/beamnode makes out/beamnode. Not part of `rt ci`.
#
# Each file is a lawful module that bench/module.py writes, of one of these kinds, which show which part takes the time:
# `mixed` has a function with eight blocks (a test, arithmetic, a move, a call, a label) over and over, every fourth
# exported, and up to 65,535 atoms; `atoms` has 65,535 atoms that take most of it; `exports` has a function without
# a body and its export over and over; `labels` a move and a label; `long` is one function of such blocks.
#
# The time is the processor's (user and system), the least of five runs, less that of examples/t.beam, the start of
# the program; the time on the clock is after it.
set -euo pipefail

root=$(cd "$(dirname "$0")/.." && pwd)
program=${1:-$root/crates/beamnode/out/beamnode}
kinds=${2:-mixed atoms exports labels long}
folder=$(mktemp -d)
trap 'rm -rf "$folder"' EXIT

if [[ ! -x $program ]]; then
    echo "no program $program: build it first" >&2
    exit 1
fi

# The milliseconds that the program takes to load a file: of the processor, and on the clock.
load() {
    python3 - "$program" "$1" <<'EOF'
import resource, subprocess, sys, time

program, file = sys.argv[1:]
words = [program, "call", "--module", "m", "--function", "f", "--steps", "0", file]
processor, clock = [], []


def spent():
    usage = resource.getrusage(resource.RUSAGE_CHILDREN)
    return usage.ru_utime + usage.ru_stime


for _ in range(5):
    before, begin = spent(), time.monotonic()
    run = subprocess.run(words, capture_output=True)
    after, end = spent(), time.monotonic()
    if run.returncode != 5 or run.stderr != b"budget spent\n":
        sys.exit(f"{file}: status {run.returncode}, {run.stderr}")
    clock.append(end - begin)
    processor.append(after - before)
print(f"{min(processor) * 1000:.0f} {min(clock) * 1000:.0f}")
EOF
}

read -r start clock <<<"$(load "$root/examples/t.beam")"
echo "start: $start ms, $clock ms on the clock"
for kind in $kinds; do
    for megabytes in 1 2 4 8; do
        file=$folder/$kind.beam
        python3 "$root/bench/module.py" "$kind" $((megabytes * 1000000)) "$file"
        size=$(stat -c %s "$file")
        read -r processor clock <<<"$(load "$file")"
        rate=$((size / 100 / (processor > start ? processor - start : 1)))
        echo "$kind: $size bytes in $((processor - start)) ms, $((rate / 10)).$((rate % 10)) MB/s ($clock ms on the clock)"
    done
done
