#!/usr/bin/env bash
# Shows that no test of a crate depends on how fast the machine is: runs all of them 20 times in a row beside 16 processes that do nothing
# but compute, and then 20 times on one processor, with nothing beside them that this script started. It builds nothing: `rt test` in
# crates/sched_tests makes out/sched_tests_tests, which is the program if none is named, and so on in session_tests and serve_tests.
# No part of the tests.
#
#     bench/busy.sh [PROGRAM]
#
# CORES are the processors of the first 20 runs and of the 16 processes, as taskset has them (all that this script may run on, if not
# set), ONE is that of the other 20 (the last of those). With CORES=3 ONE=3 the 16 share one processor with the tests, and the others are
# left to whatever else runs. That is harder, and took five minutes: some 12 seconds a run, and 1.8 for each of the other 20.
#
# A test has 60 seconds, as in the gate. Each run has a line, with its seconds, and one that fails the lines of what failed. The last line
# says how many of the 40 passed; the status is 0 if all did.
set -euo pipefail

root=$(cd "$(dirname "$0")/.." && pwd)
program=${1:-$root/crates/sched_tests/out/sched_tests_tests}
runner=$(dirname "$(rt doc)")/bin/rattle-test
cores=${CORES:-$(taskset -cp $$ | sed 's/.*: //')}
one=${ONE:-${cores##*[,-]}}
times=20
busy=()
passed=0
trap '[[ ${#busy[@]} == 0 ]] || kill "${busy[@]}" 2>/dev/null || true' EXIT

if [[ ! -x $program ]]; then
    echo "no program $program: build it first" >&2
    exit 1
fi

# Runs all tests as often as that on these processors.
run() {
    local what=$1 on=$2 number began output status
    for number in $(seq "$times"); do
        began=$(date +%s%N) status=0
        output=$(taskset -c "$on" "$runner" --seconds 60 "$program" 2>&1) || status=$?
        result=$(sed -n 's/^test result: //p' <<<"$output")
        echo "$what, $number of $times: $(($(date +%s%N) / 1000000 - began / 1000000)) ms, $result"
        if [[ $status == 0 && $result == ok.* ]]; then
            passed=$((passed + 1))
        else
            echo "status $status"
            grep -v ' ok$\|\[INFO ' <<<"$output" || true
        fi
    done
}

for _ in $(seq 16); do
    taskset -c "$cores" bash -c 'while :; do :; done' &
    busy+=($!)
    disown
done
run "beside 16 processes, processors $cores" "$cores"
kill "${busy[@]}"
busy=()
run "one processor, $one" "$one"

echo "$passed of $((2 * times)) runs passed"
[[ $passed == $((2 * times)) ]]
