#!/usr/bin/env bash
# Makes beamas, beamdis and beamnode without any proof, in out/programs, and then shows them: a call, and a node whose code is
# replaced while a process runs. It needs `rt` on the path, Python 3.10, 2 GB of memory and, at the first time, some five minutes
# of a processor; a program whose sources haven't changed since isn't made again. `./try.sh make` only makes them, `./try.sh make NAME..` those
# crates' programs alone. tests/unproved.sh says how they are made. These programs test each index and each overflow as they run, and end
# where one fails; the proved ones have no such test.
set -euo pipefail

root=$(cd "$(dirname "$0")" && pwd)
programs=$root/out/programs
folder=$(mktemp -d)
server= making=
trap 'for it in $server $making; do kill "$it" 2>/dev/null || true; done; rm -rf "$folder"' EXIT

# ---- The programs

names=()
if [[ ${1:-} == make ]]; then names=("${@:2}"); fi
TOLD_BY=try.sh "$root/tests/unproved.sh" "${names[@]}" &
making=$!
wait "$making"
making=
if [[ ${1:-} == make ]]; then exit; fi

# ---- What they do

cd "$folder"
PATH=$programs:$root/clients:$PATH
cp "$root"/examples/counter.S "$root"/examples/v1/shop.S .
cp "$root"/examples/v2/shop.S shop2.S

# Prints a command, and what it answers.
run() {
    echo "\$ $1"
    eval "$1"
}

echo
echo "# Compiled Erlang (erlc -S) to a file, the file's value, and its listing again"
run "beamas counter.S counter.beam"
run "beamnode call --module counter --function main --args '[10]' counter.beam"
run "beamdis counter.beam | head -4"

echo
echo "# A node, and a shop that sells at 3 each"
beamas shop.S shop.beam
beamas shop2.S shop2.beam
: >listening
beamnode serve --port 0 --schedulers 2 >listening &
server=$!
until port=$(sed -n 's/^listening on 127\.0\.0\.1://p' listening) && [[ -n $port ]]; do sleep 0.05; done
echo "\$ beamnode serve --port 0 --schedulers 2 &"
cat listening
# beamctl.py asks that port.
beamctl() { python3 "$root/clients/beamctl.py" --port "$port" "$@"; }
run "beamctl load shop.beam"
run "beamctl spawn shop:open '[0]'"
run "beamctl ask 1 '{buy,2}'"

echo
echo "# New code, at 2 each, while the shop's process waits: it answers once more in old code, and then calls shop:open"
run "beamctl load shop2.beam"
run "beamctl ps"
run "beamctl ask 1 '{buy,1}'"
run "beamctl ask 1 '{buy,1}'"
run "beamctl ps"
run "beamctl soft_purge shop"
run "beamctl versions shop"

echo
echo "# Both modules at once, or none: the shop's process is still in the code of before"
run "beamctl atomic shop.beam counter.beam"
run "beamctl lingers shop"
run "beamctl kill 1"
run "beamctl wait 1"

echo
echo "# A node that keeps its journal in a file, is killed, and comes back with what it had answered"
# Starts a node with the file, and waits until it listens.
begin() {
    : >listening
    beamnode serve --port 0 --journal shop.journal "$@" >listening &
    server=$!
    until port=$(sed -n 's/^listening on 127\.0\.0\.1://p' listening) && [[ -n $port ]]; do sleep 0.05; done
    echo "\$ beamnode serve --port 0 --journal shop.journal $* &"
    cat listening
}
kill "$server"
wait "$server" 2>/dev/null || true
begin --start shop:start shop.beam
run "beamctl ask shop '{buy,2}'"
echo "\$ kill -9 %1"
kill -9 "$server"
wait "$server" 2>/dev/null || true
begin
run "beamctl ask shop '{buy,1}'"
echo
echo "The programs are in out/programs. README.md goes on."
