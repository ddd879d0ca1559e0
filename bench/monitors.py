#!/usr/bin/env python3
"""What monitors cost in the built `beamnode call`: a process that monitors another and drops the monitor again, among few and among many
that wait; one process that many monitor, when it ends; and many that one process monitors, which end one after another. With
--schedulers the same in `beamnode serve`, whose processes are handed out to threads. It builds nothing: `rt run` in crates/beamnode and
crates/beamas makes their out/ folders, `try.sh make` programs without proof. Not part of `rt ci`.

    bench/monitors.py [--crowds 10,100000] [--turns 1000000] [--watchers 100000] [--children 100000] [--runs 3] [--schedulers N]
                      [--only WORD] [--beamas BEAMAS] [BEAMNODE]

Times are of the processor, the least of the runs; what the same takes without the turns, or without the ends, is taken away. Memory is the
most that the program had, looked at every 2 ms, and, of a node that serves, what it has in the end."""

import argparse
import os
import pathlib
import re
import struct
import subprocess
import sys
import tempfile
import time

from commands import LOAD, ROOT, SPAWN, ask, connect, private, spent
from schedulers import node, until_ended

sys.path.insert(0, str(ROOT / "clients"))
from beamctl import spawn_body  # noqa: E402

BUDGET = "4000000000"
# Programs without proof keep memory that was freed, unless they are told not to.
os.environ.setdefault("ASAN_OPTIONS", "quarantine_size_mb=0:thread_local_quarantine_size_kb=0")


def cases(given):
    """A title, its unit, how many units, and the function with its arguments and with those of the run whose time is taken away."""
    for crowd in map(int, given.crowds.split(",")):
        yield (f"among {crowd:,} that wait", "monitor and demonitor", given.turns, "churn", f"[{crowd},{given.turns}]", f"[{crowd},0]")
    yield (f"{given.watchers:,} watchers of one that ends", "DOWN", given.watchers, "watched", f"[{given.watchers},stop]", f"[{given.watchers},none]")
    yield (f"one watcher of {given.children:,} that end", "end", given.children, "children", f"[{given.children},stop]", f"[{given.children},none]")


def compiled(beamas, folder):
    path = pathlib.Path(folder) / "watchers.beam"
    subprocess.run([beamas, ROOT / "bench" / "watchers.S", path], check=True)
    return path


def resident(pid):
    """The most KiB that a process had in memory so far; 0 once it has ended."""
    found = re.search(r"(?m)^VmHWM:\s+(\d+) kB$", pathlib.Path(f"/proc/{pid}/status").read_text())
    return int(found[1]) if found else 0


def called(program, path, function, arguments):
    """Processor seconds and KiB of a call."""
    words = [program, "call", "--module", "watchers", "--function", function, "--args", arguments, "--steps", BUDGET, path]
    process = subprocess.Popen(words, stdout=subprocess.DEVNULL)
    ended, most = 0, 0
    while not ended:
        # the operating system's figure at the end includes the most that this script had
        most = max(most, resident(process.pid))
        time.sleep(0.002)
        ended, status, usage = os.wait4(process.pid, os.WNOHANG)
    process.returncode = os.waitstatus_to_exitcode(status)
    if process.returncode:
        sys.exit(f"{function} {arguments} ended with status {process.returncode}")
    return usage.ru_utime + usage.ru_stime, most


def served(program, schedulers, path, function, arguments):
    """Processor seconds of a node, and the KiB that it has then."""
    with node(program, schedulers) as (pid, port), connect(port) as connection:
        ask(connection, LOAD, path.read_bytes())
        before = spent(pid)
        reply = ask(connection, SPAWN, spawn_body(f"watchers:{function}", arguments))
        until_ended(connection, [struct.unpack(">I", reply[-4:])[0]])
        time.sleep(0.05)
        return spent(pid) - before, private(pid)


def main():
    parser = argparse.ArgumentParser(description=__doc__, formatter_class=argparse.RawDescriptionHelpFormatter)
    parser.add_argument("--crowds", default="10,100000", help="numbers of processes that wait, with commas between")
    parser.add_argument("--turns", type=int, default=1_000_000)
    parser.add_argument("--watchers", type=int, default=100_000)
    parser.add_argument("--children", type=int, default=100_000)
    parser.add_argument("--runs", type=int, default=3)
    parser.add_argument("--schedulers", type=int, default=0, help="threads of a node that serves; without it, `beamnode call`")
    parser.add_argument("--only", default="", help="the cases whose functions begin so: churn, watched, children")
    parser.add_argument("--beamas", default=str(ROOT / "crates/beamas/out/beamas"))
    parser.add_argument("beamnode", nargs="?", default=str(ROOT / "crates/beamnode/out/beamnode"))
    given = parser.parse_args()

    def least(path, function, arguments):
        if given.schedulers:
            runs = [served(given.beamnode, given.schedulers, path, function, arguments) for _ in range(given.runs)]
        else:
            runs = [called(given.beamnode, path, function, arguments) for _ in range(given.runs)]
        return [min(column) for column in zip(*runs)]

    with tempfile.TemporaryDirectory() as folder:
        path = compiled(given.beamas, folder)
        print("| | a | how many | ns | KiB | KiB without |\n|---|---|---|---|---|---|")
        for title, unit, count, function, arguments, base in cases(given):
            if function.startswith(given.only):
                (seconds, memory), (begun, before) = least(path, function, arguments), least(path, function, base)
                print(f"| {title} | {unit} | {count} | {(seconds - begun) / count * 1e9:.0f} | {memory} | {before} |", flush=True)


if __name__ == "__main__":
    main()
