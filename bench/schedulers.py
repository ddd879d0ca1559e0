#!/usr/bin/env python3
"""What scheduler threads do for the processes of the built `beamnode serve`: processes that only compute, pairs that send messages there
and back, a ring in which each sends to one that mostly runs on another thread, many that send to one, processes that start and end, and
10,000 that do a few rows at a time; with 1, 2 and 4 schedulers; and what a command takes while all schedulers are busy. Beside each, what
as many nodes of one scheduler take for the same work, side by side: they share nothing. It builds nothing: `rt run` in crates/beamnode and
crates/beamas makes their out/ folders. Not part of `rt ci`.

    bench/schedulers.py [--schedulers 1,2,4] [--runs 3] [--only WORD] [--beamas BEAMAS] [BEAMNODE]

Times are from the first command that starts a process until all have ended, which is asked every 5 ms. Of several runs the least counts.
A case whose processes can't be shared out among nodes has no figure there."""

import argparse
import contextlib
import pathlib
import struct
import subprocess
import sys
import tempfile
import time

from commands import LOAD, ROOT, SPAWN, VERSIONS, ask, connect, running, spent

sys.path.insert(0, str(ROOT / "clients"))
from beamctl import send_body, spawn_body  # noqa: E402

SEND, INSPECT = 7, 16
# a case, its unit, how many processes, and how many units each
CASES = [
    ("processes that compute", "loop", 64, 400_000),
    ("pairs, there and back", "message there and back", 64, 4_000),
    ("ring", "message", 64, 8_000),
    ("ring of 10,000", "message", 10_000, 20),
    ("starters", "process", 64, 2_000),
    ("many that send to one", "message", 64, 4_000),
    ("one that computes", "loop", 1, 10_000_000),
    ("one that computes, under 1,000 frames", "loop", 1, 1_000_000),
    ("one that computes, under 30,000 frames", "loop", 1, 200_000),
    ("one that computes, to which 100,000 messages are sent", "loop", 1, 10_000_000),
]


@contextlib.contextmanager
def node(program, schedulers):
    with running([program, "serve", "--port", "0", "--schedulers", str(schedulers)]) as process:
        yield process.pid, int(process.stdout.readline().rsplit(b":")[-1])


def compiled(beamas, folder):
    subprocess.run([beamas, ROOT / "bench" / "crew.S", f"{folder}/crew.beam"], check=True)
    return pathlib.Path(f"{folder}/crew.beam").read_bytes()


def spawn(connection, function, arguments):
    reply = ask(connection, SPAWN, spawn_body(f"crew:{function}", arguments))
    return struct.unpack(">I", reply[-4:])[0]


def start(connection, case, processes, units):
    """Starts the processes of a case, and answers those that end."""
    if case.startswith("processes"):
        return [spawn(connection, "loop", f"[{units}]") for _ in range(processes)]
    if case.endswith("frames"):
        frames = case.split()[-2].replace(",", "")
        return [spawn(connection, "deep", f"[{frames},{units}]")]
    if case.startswith("one"):
        one = spawn(connection, "loop", f"[{units}]")
        for _ in range(10 if case.endswith("sent") else 0):
            spawn(connection, "sender", f"[<0.{one}.0>,10000]")
        return [one]
    if case.startswith("pairs"):
        return [spawn(connection, "pair", f"[{units}]") for _ in range(processes)]
    if case.startswith("starters"):
        return [spawn(connection, "starter", f"[{units}]") for _ in range(processes)]
    if case.startswith("ring"):
        members = [spawn(connection, "member", f"[<0.{at % processes + 1}.0>,{units}]") for at in range(1, processes + 1)]
        for member in members:
            ask(connection, SEND, send_body(str(member), "go"))
        return members
    one = spawn(connection, "take", f"[{processes * units}]")
    for _ in range(processes):
        spawn(connection, "sender", f"[<0.{one}.0>,{units}]")
    return [one]


def until_ended(connection, pids):
    for pid in pids:
        while b"ended" not in ask(connection, INSPECT, struct.pack(">I", pid)):
            time.sleep(0.005)


def measure(program, nodes, schedulers, code, case):
    """Seconds on the clock and of the processor that `nodes` nodes take, among which the processes are shared out."""
    title, _, processes, units = case
    with contextlib.ExitStack() as opened:
        servers, ports = zip(*[opened.enter_context(node(program, schedulers)) for _ in range(nodes)])
        connections = [opened.enter_context(connect(port)) for port in ports]
        for connection in connections:
            ask(connection, LOAD, code)
        before, begin = sum(map(spent, servers)), time.monotonic()
        started = [(connection, start(connection, title, processes // nodes, units)) for connection in connections]
        for connection, pids in started:
            until_ended(connection, pids)
        return time.monotonic() - begin, sum(map(spent, servers)) - before


def least(program, runs, *given):
    return [min(column) for column in zip(*(measure(program, *given) for _ in range(runs)))]


def commands(program, schedulers, code, count):
    """The median and the longest but a tenth of what a command takes while all schedulers are busy, in microseconds."""
    with node(program, schedulers) as (_, port), connect(port) as connection:
        ask(connection, LOAD, code)
        start(connection, "processes", 64, 100_000_000)
        time.sleep(0.2)
        taken = []
        for _ in range(count):
            begin = time.perf_counter()
            ask(connection, VERSIONS, b"crew")
            taken.append((time.perf_counter() - begin) * 1e6)
        taken.sort()
        return taken[count // 2], taken[count * 9 // 10]


def main():
    parser = argparse.ArgumentParser(description=__doc__, formatter_class=argparse.RawDescriptionHelpFormatter)
    parser.add_argument("--schedulers", default="1,2,4", help="numbers of schedulers, with commas between")
    parser.add_argument("--runs", type=int, default=3)
    parser.add_argument("--only", default="", help="the cases whose titles begin so")
    parser.add_argument("--beamas", default=str(ROOT / "crates/beamas/out/beamas"))
    parser.add_argument("beamnode", nargs="?", default=str(ROOT / "crates/beamnode/out/beamnode"))
    given = parser.parse_args()
    numbers = [int(number) for number in given.schedulers.split(",")]
    with tempfile.TemporaryDirectory() as folder:
        code = compiled(given.beamas, folder)
    print("| | a | schedulers | ns for each | times one scheduler | processor, ns for each | nodes of one: ns for each | times one node | of theirs |")
    print("|---|---|---|---|---|---|---|---|---|")
    for case in CASES:
        title, unit, processes, units = case
        each, alone = 1e9 / (processes * units), None
        for number in numbers if title.startswith(given.only) else []:
            clock, processor = least(given.beamnode, given.runs, 1, number, code, case)
            alone = alone or clock
            row = [title, unit, number, f"{clock * each:.1f}", f"{alone / clock:.2f}", f"{processor * each:.1f}"]
            if processes > 1 and not title.startswith("many"):
                apart, _ = least(given.beamnode, given.runs, number, 1, code, case)
                row += [f"{apart * each:.1f}", f"{alone / apart:.2f}", f"{apart / clock:.2f}"]
            print("|", *row, sep=" | ", end=" |\n", flush=True)
    print("\n| schedulers, all busy | a command, microseconds: median | nine in ten |\n|---|---|---|")
    for number in numbers:
        median, most = (min(column) for column in zip(*(commands(given.beamnode, number, code, 3_000) for _ in range(given.runs))))
        print(f"| {number} | {median:.0f} | {most:.0f} |", flush=True)


if __name__ == "__main__":
    main()
