#!/usr/bin/env python3
"""The built programs with little address space: `ulimit -v` from 2,500 to 6,000 KiB in steps of 50. Each has to answer as it does with
memory, or to say NoMemory, over terms of the greatest depth; where there is no room for the program itself, the system's loader ends it
with status 127. No run may end by a signal. Prints for each program from which limit on it speaks for itself, and from which on it
answers. Status 1 where something is wrong. It builds nothing: `rt run` in crates/beamas, crates/beamdis and crates/beamnode makes their
out/ folders. Not part of `rt ci`.

    tests/limits.py [--from 2500] [--to 6000] [--step 50] [--programs FOLDER]"""

import argparse
import collections
import contextlib
import os
import re
import resource
import shutil
import socket
import struct
import subprocess
import sys
import tempfile

from refuse import NO_MEMORY, SECONDS, found_programs
from sessions import ROOT, frame

sys.path.insert(0, str(ROOT / "clients"))
from beamclient import atom, list_of, tuple_of, whole  # noqa: E402

DEPTH = 4096
DEEP = "{" * DEPTH + "}" * DEPTH
LISTING = f"""{{module,d}}. {{exports,[{{f,1}}]}}. {{attributes,[]}}. {{labels,3}}.
{{function,f,1,2}}. {{label,1}}. {{func_info,{{atom,d}},{{atom,f}},1}}.
{{label,2}}. {{move,{{literal,{DEEP}}},{{x,1}}}}. {{test,is_eq_exact,{{f,1}},[{{x,0}},{{x,1}}]}}. return.
"""
# The call of d:f, as a term of that depth.
CALL = whole(tuple_of(atom("d"), atom("f"), list_of([b"h\1" * (DEPTH - 3) + b"h\0"])))
IS_NO_MEMORY = re.compile(r"(?:: |\] )NoMemory\n\Z")
BY_THE_LOADER = re.compile(r"(?:\S+: )?(?:error while loading shared libraries|cannot allocate TLS|cannot create)")


def limited(kilobytes):
    resource.setrlimit(resource.RLIMIT_AS, (kilobytes << 10, kilobytes << 10))


def run(words, given, kilobytes):
    """Status, output and errors of a program with this much address space in KiB, or with all that there is for None. Of a node that
    listens the output is its replies."""
    limit = (lambda: limited(kilobytes)) if kilobytes else None
    process = subprocess.Popen(words, stdin=subprocess.PIPE, stdout=subprocess.PIPE, stderr=subprocess.PIPE, preexec_fn=limit)
    try:
        if words[1] == "serve":
            replies = asked(process.stdout.readline(), given)
            _, errors = process.communicate(timeout=SECONDS)
            return process.returncode, replies, errors.decode()
        output, errors = process.communicate(given, timeout=SECONDS)
        return process.returncode, output, errors.decode()
    finally:
        process.kill()


def asked(line, given):
    """The replies of a node that has printed where it listens. It may end before it takes the connection."""
    replies = b""
    with contextlib.suppress(OSError, IndexError, ValueError):
        port = int(line.rsplit(b":")[1])
        with socket.create_connection(("127.0.0.1", port), timeout=SECONDS) as connection:
            connection.sendall(given)
            connection.shutdown(socket.SHUT_WR)
            while more := connection.recv(1 << 16):
                replies += more
    return replies


def end(ample, found):
    status, output, errors = found
    if found == ample:
        return "answers"
    if status == 127 and BY_THE_LOADER.match(errors):
        return "isn't loaded"
    return "NoMemory" if status in (0, 1) and (NO_MEMORY in output or IS_NO_MEMORY.search(errors)) else "wrong"


def sweep(title, words, given, limits):
    """Runs a program at these limits. Prints how it ends, and answers what is wrong."""
    ample = run(words, given, None)
    ends = {kilobytes: run(words, given, kilobytes) for kilobytes in limits}
    names = {kilobytes: end(ample, found) for kilobytes, found in ends.items()}
    first = {name: next((str(kilobytes) for kilobytes in limits if names[kilobytes] == name), "none") for name in ("NoMemory", "answers")}
    counts = ", ".join(f"{count} {name}" for name, count in collections.Counter(names.values()).items())
    print(f"{title}: {counts}; NoMemory from {first['NoMemory']} KiB on, an answer from {first['answers']} KiB on", flush=True)
    return [f"{title} with {kilobytes} KiB: {ends[kilobytes]}" for kilobytes in limits if names[kilobytes] == "wrong"]


def main():
    parser = argparse.ArgumentParser(description=__doc__, formatter_class=argparse.RawDescriptionHelpFormatter)
    parser.add_argument("--from", type=int, default=2500, dest="least")
    parser.add_argument("--to", type=int, default=6000)
    parser.add_argument("--step", type=int, default=50)
    parser.add_argument("--programs", type=os.path.abspath, default=str(ROOT / "crates"), help="where the programs are")
    given = parser.parse_args()
    beamas, beamdis, beamnode = found_programs(given.programs)
    with tempfile.TemporaryDirectory() as folder:
        os.chdir(folder)
        with open("d.S", "w") as file:
            file.write(LISTING)
        subprocess.run([beamas, "d.S", "d.beam"], check=True)
        shutil.copy(ROOT / "examples" / "t.beam", "t.beam")
        commands = frame(["load", "d.beam"]) + struct.pack(">IB", len(CALL) + 1, 6) + CALL
        words = [("beamas", [beamas, "d.S", "of.beam"], b""), ("beamdis", [beamdis, "d.beam"], b""),
                 ("call, t:sum(4)", [beamnode, "call", "--module", "t", "--function", "sum", "--args", "[4]", "t.beam"], b""),
                 ("call", [beamnode, "call", "--module", "d", "--function", "f", "--args", f"[{DEEP[1:-1]}]", "d.beam"], b""),
                 ("pipe", [beamnode, "pipe"], commands + frame(["steps", "1", "9"]) + frame(["inspect", "1"])),
                 ("serve", [beamnode, "serve", "--port", "0", "--schedulers", "1", "--connections", "1"], commands)]
        limits = range(given.least, given.to + 1, given.step)
        wrong = [it for title, line, given_bytes in words for it in sweep(title, line, given_bytes, limits)]
        os.chdir(ROOT)
    print(*wrong[:20], sep="\n", end="\n" if wrong else "")
    print(f"{len(limits) * len(words)} runs, {len(wrong)} wrong")
    sys.exit(bool(wrong))


if __name__ == "__main__":
    main()
