#!/usr/bin/env python3
"""What break spots cost: rows a second of the built program's loop of examples/t.beam, by `beamnode call`, which has no
debugger, and by `beamnode pipe`, which has one: with no break spot set, with one in another module, and with one in the loop's
module that is never reached. It builds nothing: `rt run` in crates/beamnode makes out/beamnode. Not part of `rt ci`.

    bench/spots.py [--number 2500000] [--runs 7] [BEAMNODE]

Times are of the processor, the median of the runs, which go in turn over the cases, each run beginning with another one."""

import argparse
import os
import pathlib
import statistics
import struct
import subprocess
import sys

ROOT = pathlib.Path(__file__).resolve().parent.parent
FILE = ROOT / "examples" / "t.beam"
LOAD, SPAWN, STEPS, SET_BREAK = 1, 6, 8, 12


def frame(kind, body):
    return struct.pack(">IB", len(body) + 1, kind) + body


def atom(name):
    return bytes([119, len(name)]) + name.encode()


def number(value):
    return struct.pack(">Bi", 98, value)


def spot(module, label):
    """The first row after a label of a module's current code."""
    return b"\x83h\x04" + atom("current") + atom(module) + number(label) + number(0)


def session(count, rows, spots):
    """Module t, and the same code as module u; the spots; and the rows of a process of sum(count)."""
    file = FILE.read_bytes()
    spawn = b"\x83h\x03" + atom("t") + atom("sum") + b"l\0\0\0\1" + number(count) + b"j"
    commands = [(LOAD, file), (LOAD, file.replace(b"\1t", b"\1u", 1))]
    commands += [(SET_BREAK, spot(*where)) for where in spots]
    commands += [(SPAWN, spawn), (STEPS, struct.pack(">II", 1, rows))]
    return b"".join(frame(kind, body) for kind, body in commands)


def replies(data):
    while data:
        length = int.from_bytes(data[:4], "big")
        yield data[4:4 + length]
        data = data[4 + length:]


def run(words, data=b""):
    """The output of a program, and its processor seconds."""
    process = subprocess.Popen(words, stdin=subprocess.PIPE, stdout=subprocess.PIPE)
    process.stdin.write(data)
    process.stdin.close()
    output = process.stdout.read()
    _, status, usage = os.wait4(process.pid, 0)
    process.returncode = os.waitstatus_to_exitcode(status)
    if process.returncode:
        sys.exit(f"{words[1]} ended with status {process.returncode}")
    return output, usage.ru_utime + usage.ru_stime


def by_call(program, count, rows):
    words = [program, "call", "--module", "t", "--function", "sum", "--args", f"[{count}]", "--steps", str(rows), FILE]
    output, seconds = run(words)
    if int(output) != count * (count + 1) // 2:
        sys.exit(f"sum({count}) gave {output!r}")
    return seconds


def by_pipe(program, count, rows, spots):
    output, seconds = run([program, "pipe"], session(count, rows, spots))
    *others, last = replies(output)
    # All rows are done, and the process has ended.
    if last[:6] != struct.pack(">BIB", 3, rows, 3) or any(reply[0] > 5 for reply in others):
        sys.exit(f"the node answered {output!r}")
    return seconds


def main():
    options = argparse.ArgumentParser(description=__doc__, formatter_class=argparse.RawDescriptionHelpFormatter)
    options.add_argument("--number", type=int, default=2_500_000)
    options.add_argument("--runs", type=int, default=7)
    options.add_argument("program", nargs="?", default=ROOT / "crates" / "beamnode" / "out" / "beamnode")
    options = options.parse_args()
    program, count = str(options.program), options.number
    # Four rows a turn, the entry, two rows before the first turn and three after the last.
    rows = 4 * count + 6
    cases = {
        "`call`": lambda: by_call(program, count, rows),
        "`pipe`, no spot": lambda: by_pipe(program, count, rows, []),
        "`pipe`, a spot in another module": lambda: by_pipe(program, count, rows, [("u", 1)]),
        "`pipe`, a spot in its module": lambda: by_pipe(program, count, rows, [("t", 1)]),
    }
    names = list(cases)
    seconds = {name: [] for name in names}
    for turn in range(options.runs):
        first = turn % len(names)
        for name in names[first:] + names[:first]:
            seconds[name].append(cases[name]())
    base = statistics.median(seconds[names[0]])
    print(f"{rows:,} rows, {options.runs} runs\n")
    print("| | rows a second | ns a row | rows a second, to `call` |\n|---|---|---|---|")
    for name in names:
        middle = statistics.median(seconds[name])
        print(f"| {name} | {rows / middle:,.0f} | {middle / rows * 1e9:.1f} | {base / middle:.3f} |")


if __name__ == "__main__":
    main()
