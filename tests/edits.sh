#!/usr/bin/env bash
# Tries the wrong bodies of tests/edits, which the gate doesn't try: `tests/edits.sh [CRATE..]`; without a name, those of all crates that
# have some. The prover has to refuse each of them. It works on a copy, and takes the libraries that `rt lib` or `rt check` has built here;
# those that aren't there are built first. All edits take some two processor hours beyond that. Status 1, with their names, if some are
# accepted or can't be applied.
set -euo pipefail

root=$(cd "$(dirname "$0")/.." && pwd)
room=$(mktemp -d)
trap 'rm -rf "$room"' EXIT

cd "$root"
if [[ $# -gt 0 ]]; then
    crates=("$@")
else
    mapfile -t crates < <(cd tests/edits && printf '%s\n' *)
fi
git ls-files -z crates crates.txt HANDLES | tar --null -T - -cf - | tar -xf - -C "$room"
rm -f "$room"/crates/*/must-fail/*.edit
for built in crates/*/out/rlib; do
    if [[ -f $built/stamp ]]; then
        mkdir -p "$room/${built%/*}"
        cp -r "$built" "$room/$built"
    fi
done

wanted=0
for crate in "${crates[@]}"; do
    mkdir -p "$room/crates/$crate/must-fail"
    cp "$root/tests/edits/$crate"/*.edit "$room/crates/$crate/must-fail/"
    wanted=$((wanted + $(ls "$room/crates/$crate/must-fail" | wc -l)))
done

cd "$room"
rt must-fail "${crates[@]}" 2>&1 | tee "$room/log" | grep --line-buffered 'must-fail .*\.edit:' || true
refused=$(grep -c 'must-fail .*\.edit: refused' "$room/log" || true)
echo "$refused of $wanted edits refused"
if [[ $refused -ne $wanted ]]; then
    echo "not refused, or not tried:" >&2
    grep 'must-fail .*\.edit:' "$room/log" | grep -v '\.edit: refused' >&2 || tail -n 3 "$room/log" >&2
    exit 1
fi
