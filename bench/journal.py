#!/usr/bin/env python3
"""What a journal's file costs: the instructions of the processor, counted by valgrind's callgrind, that an optimized `beamnode serve` takes
for a message of a client, for a message between two processes and for a thousand rows, without a file and with one, by `--sync second`;
and how many bytes the file has for each. Each figure is the difference between a run and one that does three times as much. Instructions
of the system aren't counted. It builds nothing (tests/unproved.sh --optimized beamnode). Not part of `rt ci`.

    bench/journal.py [--beamas BEAMAS] [BEAMNODE]
"""

import argparse
import pathlib
import re
import socket
import struct
import subprocess
import sys
import tempfile

ROOT = pathlib.Path(__file__).resolve().parent.parent
sys.path.insert(0, str(ROOT / "clients"))
from beamclient import atom, integer, list_of, pid, tuple_of, whole  # noqa: E402

LOAD, SPAWN, SEND = 1, 6, 7
BATCH = 64
# keep() takes no message; loop(N) counts down from N.
LISTING = """{module,k}. {exports,[{keep,0},{loop,1}]}. {attributes,[]}. {labels,8}.
{function,keep,0,2}. {label,1}. {func_info,{atom,k},{atom,keep},0}.
{label,2}. {loop_rec,{f,3},{x,0}}. {loop_rec_end,{f,2}}. {label,3}. {wait,{f,2}}.
{function,loop,1,5}. {label,4}. {func_info,{atom,k},{atom,loop},1}.
{label,5}. {test,is_eq_exact,{f,6},[{x,0},{integer,0}]}. return.
{label,6}. {gc_bif,'-',{f,0},1,[{x,0},{integer,1}],{x,0}}. {call_only,1,{f,5}}.
"""


def frame(kind: int, body: bytes) -> bytes:
    return struct.pack(">IB", len(body) + 1, kind) + body


def spawn(module: str, function: str, *arguments: int) -> bytes:
    return frame(SPAWN, whole(tuple_of(atom(module), atom(function), list_of([integer(it) for it in arguments]))))


def send(count: int) -> list[bytes]:
    return [spawn("k", "keep")] + [frame(SEND, whole(tuple_of(pid(1), integer(1)))) * BATCH] * (count // BATCH)


# A title, how often it is done, and the frames that do it so often. A loop's turn has three rows.
WORK = (("a message of a client", 1280, send),
        ("a message between two processes", 3000, lambda count: [spawn("counter", "main", count)]),
        ("a thousand rows", 300, lambda count: [spawn("k", "loop", count * 1000 // 3)]))


def replies(connection: socket.socket, count: int) -> None:
    """Takes this number of replies."""
    data = b""
    while count:
        data += connection.recv(65536)
        while len(data) >= 4 and len(data) >= 4 + int.from_bytes(data[:4], "big"):
            data, count = data[4 + int.from_bytes(data[:4], "big") :], count - 1


def run(options, folder: pathlib.Path, frames: list[bytes], with_file: bool) -> tuple[int, int]:
    """The instructions of a node that gets these frames, and the bytes of its file."""
    file = folder / "bench.journal"
    file.unlink(missing_ok=True)
    words = ["valgrind", "--tool=callgrind", f"--callgrind-out-file={folder}/callgrind.out", options.beamnode, "serve", "--port", "0",
             "--connections", "1", "--schedulers", "1"] + (["--journal", str(file)] if with_file else [])
    node = subprocess.Popen(words, stdout=subprocess.PIPE, stderr=subprocess.PIPE)
    port = int(node.stdout.readline().decode().rsplit(":", 1)[1])
    with socket.create_connection(("127.0.0.1", port)) as connection:
        for it in [frame(LOAD, path.read_bytes()) for path in sorted(folder.glob("*.beam"))] + frames:
            connection.sendall(it)
            replies(connection, BATCH if it[4] == SEND else 1)
    found = re.search(r"Collected : (\d+)", node.communicate()[1].decode())
    return int(found[1]), file.stat().st_size if with_file else 0


def main() -> int:
    parser = argparse.ArgumentParser()
    parser.add_argument("--beamas", default=str(ROOT / "out/programs/beamas"))
    parser.add_argument("beamnode", nargs="?", default=str(ROOT / "out/optimized/beamnode"))
    options = parser.parse_args()
    with tempfile.TemporaryDirectory() as folder:
        folder = pathlib.Path(folder)
        (folder / "k.S").write_text(LISTING)
        (folder / "counter.S").write_text((ROOT / "examples/counter.S").read_text())
        for name in ("k", "counter"):
            subprocess.run([options.beamas, folder / f"{name}.S", folder / f"{name}.beam"], check=True)
        for title, count, frames in WORK:
            none, some = ([run(options, folder, frames(many), with_file) for many in (count, 3 * count)] for with_file in (False, True))
            without, with_it = ((it[1][0] - it[0][0]) / (2 * count) for it in (none, some))
            size = (some[1][1] - some[0][1]) / (2 * count)
            print(f"{title}: {without:.0f} without, {with_it:.0f} with a file ({100 * with_it / without - 100:+.1f} percent), {size:.1f} bytes")
    return 0


if __name__ == "__main__":
    sys.exit(main())
