#!/usr/bin/env python3
"""Kills a built `beamnode serve --journal FILE` again and again under clients, and lets it come back. Each command that was answered has to
stand, and none may stand twice or in part: each client sends numbered messages to a process of its own, which keeps them all, and one of
them loads code. Then torn ends, files that are refused, and a device that is full for some time. Ends with status 1 and says what didn't
hold. Then processes that send without end, while memory is looked at. It builds nothing. Not part of `rt ci`.

    tests/journal.py [--kills 20] [--clients 4] [--schedulers 2] [--sync second|always|no] [--bytes 4000000]
                     [--beamas BEAMAS] [BEAMNODE]
"""

import argparse
import os
import pathlib
import random
import resource
import signal
import socket
import struct
import subprocess
import sys
import tempfile
import threading
import time

ROOT = pathlib.Path(__file__).resolve().parent.parent
sys.path.insert(0, str(ROOT / "clients"))
from beamclient import atom, integer, list_of, pid, tuple_of, view, whole  # noqa: E402

# keep() takes no message, so all that come stay in its mailbox.
LISTING = """{module,k}. {exports,[{keep,0}]}. {attributes,[]}. {labels,5}.
{function,keep,0,2}. {label,1}. {func_info,{atom,k},{atom,keep},0}.
{label,2}. {loop_rec,{f,4},{x,0}}. {loop_rec_end,{f,2}}. {label,4}. {wait,{f,2}}.
"""
OTHER = "{module,o}. {exports,[]}. {attributes,[]}. {labels,1}.\n"
# loop() sends itself a message, takes it, and so on.
LOOP = """{module,s}. {exports,[{loop,0}]}. {attributes,[]}. {labels,5}.
{function,loop,0,2}. {label,1}. {func_info,{atom,s},{atom,loop},0}.
{label,2}. {bif,self,{f,0},[],{x,0}}. {move,{atom,m},{x,1}}. send.
{label,3}. {loop_rec,{f,4},{x,0}}. remove_message. {call_only,0,{f,2}}. {label,4}. {wait,{f,3}}.
"""
# How many entries may wait to be written, in one life of a node and another.
LIMITS = (8, 200, 16_777_216)
DONE, NUMBERS, VIEW, REFUSED = 0, 5, 4, 6
LOAD, SPAWN, SEND, INSPECT, VERSIONS = 1, 6, 7, 16, 17

held = failed = 0


def expect(what: str, holds: bool, more="") -> None:
    global held, failed
    if holds:
        held += 1
    else:
        failed += 1
        print(f"doesn't hold: {what} {more}")


class Gone(Exception):
    """The node answers no more."""


class Client:
    def __init__(self, port: int):
        try:
            self.connection = socket.create_connection(("127.0.0.1", port), 60)
            self.connection.setsockopt(socket.IPPROTO_TCP, socket.TCP_NODELAY, 1)
        except OSError:
            raise Gone from None

    def take(self, count: int) -> bytes:
        found = b""
        while len(found) < count:
            try:
                part = self.connection.recv(count - len(found))
            except OSError:
                raise Gone from None
            if not part:
                raise Gone
            found += part
        return found

    def ask(self, kind: int, body: bytes) -> bytes:
        try:
            self.connection.sendall(struct.pack(">IB", len(body) + 1, kind) + body)
        except OSError:
            raise Gone from None
        return self.take(int.from_bytes(self.take(4), "big"))


class Node:
    """A running node."""

    def __init__(self, options, file, *more: str, limit: int | None = None):
        words = [options.beamnode, "serve", "--port", "0", "--clients", str(options.clients + 1),
                 "--schedulers", str(options.schedulers), "--journal", str(file), "--sync", options.sync, *more]
        bound = (lambda: (signal.signal(signal.SIGXFSZ, signal.SIG_IGN), resource.setrlimit(resource.RLIMIT_FSIZE, (limit, resource.RLIM_INFINITY))))
        began = time.monotonic()
        self.program = subprocess.Popen(words, stdout=subprocess.PIPE, stderr=subprocess.PIPE, preexec_fn=bound if limit else None)
        line = self.program.stdout.readline().decode()
        self.took = time.monotonic() - began
        if not line.startswith("listening on "):
            raise SystemExit(f"it doesn't listen: {line}{self.program.stderr.read().decode()}")
        self.port = int(line.rsplit(":", 1)[1])

    def kill(self) -> None:
        self.program.kill()
        self.program.wait()


def assembled(options, folder: pathlib.Path, name: str, listing: str) -> bytes:
    source, target = folder / f"{name}.S", folder / f"{name}.beam"
    source.write_text(listing)
    subprocess.run([options.beamas, source, target], check=True)
    return target.read_bytes()


def send_body(process: int, number: int) -> bytes:
    return whole(tuple_of(pid(process), integer(number)))


class Sender(threading.Thread):
    """A client that sends the numbers after `last` to a process. `sent` is the last one that it sent, `answered` the last one answered."""

    def __init__(self, port: int, process: int, last: int):
        super().__init__()
        self.port, self.process, self.sent, self.answered = port, process, last, last

    def run(self) -> None:
        try:
            client = Client(self.port)
            while True:
                self.sent += 1
                if client.ask(SEND, send_body(self.process, self.sent))[0] != DONE:
                    raise SystemExit("a message is refused")
                self.answered = self.sent
        except Gone:
            pass


class Loader(threading.Thread):
    """A client that loads a module again and again. `instance` is the number of the last one that it was told."""

    def __init__(self, port: int, file: bytes):
        super().__init__()
        self.port, self.file, self.instance = port, file, 0

    def run(self) -> None:
        try:
            client = Client(self.port)
            while True:
                reply = client.ask(LOAD, self.file)
                self.instance = int.from_bytes(reply[1:5], "big")
                time.sleep(0.005)
        except Gone:
            pass


def kept(client: Client, process: int) -> int:
    """How many messages a process has."""
    reply = client.ask(INSPECT, struct.pack(">I", process))
    seen = view(reply[1:].decode())
    return seen["mailbox"] + seen["transit"]


def instance(client: Client, name: bytes) -> int:
    return int.from_bytes(client.ask(VERSIONS, name)[1:5], "big")


def lives(options, folder: pathlib.Path) -> None:
    """A node that is killed while clients send."""
    file = folder / "lives.journal"
    keep, other = (assembled(options, folder, name, text) for name, text in (("k", LISTING), ("o", OTHER)))
    node = Node(options, file)
    client = Client(node.port)
    client.ask(LOAD, keep)
    body = whole(tuple_of(atom("k"), atom("keep"), list_of([])))
    processes = list(range(1, options.clients + 1))
    for _ in processes:
        client.ask(SPAWN, body)
    counts, answered, longest, number = [0] * options.clients, 0, 0.0, 0
    for life in range(options.kills):
        senders = [Sender(node.port, process, count) for process, count in zip(processes, counts)]
        client.connection.close()
        loader = Loader(node.port, other)
        for it in (*senders, loader):
            it.start()
        time.sleep(random.uniform(0.05, 0.6))
        node.kill()
        for it in (*senders, loader):
            it.join()
        number = max(number, loader.instance)
        node = Node(options, file, "--journal-limit", str(random.choice(LIMITS)))
        longest = max(longest, node.took)
        client = Client(node.port)
        for at, sender in enumerate(senders):
            found = kept(client, sender.process)
            least = 0 if options.sync == "no" else sender.answered
            expect("what was answered stands, and no more than was sent", least <= found <= sender.sent,
                   f"life {life}, process {sender.process}: {sender.answered} answered, {found} found, {sender.sent} sent")
            answered += sender.answered - counts[at]
            counts[at] = found
        found = instance(client, b"o")
        expect("a load that was answered stands", options.sync == "no" or found >= number, f"{number}, found {found}")
    node.kill()
    replay = subprocess.run([options.beamnode, "replay", file], capture_output=True, text=True)
    expect("the file is read again", replay.returncode == 0, replay.stderr)
    print(f"{options.kills} kills, {answered} messages answered, file of {file.stat().st_size} bytes, "
          f"the longest start {longest:.2f} s")


def last_block(data: bytes) -> int:
    """How many bytes the last block of a file has."""
    at = size = 0
    while at < len(data):
        size = 16 + int.from_bytes(data[at : at + 4], "big")
        at += size
    return size


def torn_ends(options, folder: pathlib.Path) -> None:
    """Cuts of the last bytes of a file; and, within its last block, other bytes in their place."""
    whole_file = (folder / "lives.journal").read_bytes()
    path = folder / "torn.journal"
    size = last_block(whole_file)
    for less in (*range(1, size), 100, 200):
        tails = (b"", bytes(less), random.randbytes(less)) if less < size else (b"",)
        for tail in tails:
            path.write_bytes(whole_file[:-less] + tail)
            ran = subprocess.run([options.beamnode, "replay", path], capture_output=True, text=True)
            expect("a torn end is named", ran.returncode == 0 and "CutJournal" in ran.stdout, f"{less} bytes less, {tail.hex()}: {ran}")


def status_of(options, *words) -> tuple[int, str]:
    ran = subprocess.run([options.beamnode, *map(str, words)], capture_output=True, text=True, timeout=60)
    return ran.returncode, ran.stderr


def refusals(options, folder: pathlib.Path) -> None:
    """Files that are refused, which stay as they were."""
    good = (folder / "lives.journal").read_bytes()
    flipped = bytearray(good)
    flipped[len(good) // 2] ^= 1
    rows = {"flipped": (bytes(flipped), "BadJournal"), "text": (b"hello\n" * 20, "NoJournal")}
    for name, (data, wanted) in rows.items():
        path = folder / name
        path.write_bytes(data)
        found = status_of(options, "serve", "--port", 0, "--journal", path)
        expect(name, found == (1, f"beamnode: {path}: {wanted}\n"), found)
        expect("its bytes stay", path.read_bytes() == data)
    expect("a folder", status_of(options, "serve", "--port", 0, "--journal", folder)[0] == 1)
    missing = folder / "none" / "n.journal"
    expect("no folder", status_of(options, "serve", "--port", 0, "--journal", missing) == (1, f"beamnode: {missing}: ReadFailed\n"))
    node = Node(options, folder / "lives.journal")
    used = folder / "lives.journal"
    expect("in use", status_of(options, "serve", "--port", 0, "--journal", used) == (1, f"beamnode: {used}: JournalInUse\n"))
    node.kill()
    wrong = status_of(options, "serve", "--port", 0, "--journal", used, "--stop-when-full")
    expect("with --stop-when-full", wrong[0] == 2, wrong)
    link = folder / "link.journal"
    link.symlink_to(used)
    node = Node(options, link)
    node.kill()
    expect("a link stays one", link.is_symlink())


def full_device(options, folder: pathlib.Path) -> None:
    """A file that can't grow for some time: nobody is answered, and then all go on."""
    file = folder / "full.journal"
    keep = assembled(options, folder, "k", LISTING)
    node = Node(options, file, limit=4096)
    client = Client(node.port)
    client.ask(LOAD, keep)
    client.ask(SPAWN, whole(tuple_of(atom("k"), atom("keep"), list_of([]))))
    sender = Sender(node.port, 1, 0)
    sender.start()
    deadline = time.monotonic() + 60
    before = -1
    while time.monotonic() < deadline and (sender.answered != before or not before):
        before = sender.answered
        time.sleep(0.5)
    stopped = sender.answered
    expect("nobody is answered while the file can't grow", 0 < stopped == sender.answered and file.stat().st_size <= 4096, stopped)
    resource.prlimit(node.program.pid, resource.RLIMIT_FSIZE, (resource.RLIM_INFINITY, resource.RLIM_INFINITY))
    deadline = time.monotonic() + 60
    while time.monotonic() < deadline and sender.answered < stopped + 10:
        time.sleep(0.1)
    expect("it goes on", sender.answered >= stopped + 10, sender.answered)
    node.kill()
    sender.join()
    node = Node(options, file)
    found = kept(Client(node.port), 1)
    expect("nothing is lost", sender.answered <= found <= sender.sent, (sender.answered, found, sender.sent))
    node.kill()


def memory_of(node: Node) -> int:
    """How many bytes a node has in memory."""
    status = pathlib.Path(f"/proc/{node.program.pid}/status").read_text()
    return int(status.split("VmRSS:")[1].split()[0]) * 1024


def memory(options, folder: pathlib.Path) -> None:
    """Processes that send without end: entries that are written leave memory, so it doesn't grow, and no command is refused."""
    file = folder / "memory.journal"
    code = assembled(options, folder, "s", LOOP)
    node = Node(options, file, "--journal-limit", "5000")
    client = Client(node.port)
    client.ask(LOAD, code)
    for _ in range(4):
        client.ask(SPAWN, whole(tuple_of(atom("s"), atom("loop"), list_of([]))))
    sizes = []
    for wanted in (options.bytes // 4, options.bytes):
        deadline = time.monotonic() + 600
        while time.monotonic() < deadline and file.stat().st_size < wanted:
            time.sleep(0.05)
        sizes.append((file.stat().st_size, memory_of(node)))
    expect("the file grows", sizes[1][0] >= options.bytes, sizes)
    expect("memory doesn't", sizes[1][1] < sizes[0][1] + (8 << 20), sizes)
    expect("commands are done", client.ask(VERSIONS, b"s")[0] != REFUSED)
    node.kill()
    print(f"memory: {sizes[0][1]} bytes with a file of {sizes[0][0]}, {sizes[1][1]} with one of {sizes[1][0]}")


def main() -> int:
    parser = argparse.ArgumentParser()
    parser.add_argument("--kills", type=int, default=20)
    parser.add_argument("--clients", type=int, default=4)
    parser.add_argument("--schedulers", type=int, default=2)
    parser.add_argument("--sync", default="second")
    parser.add_argument("--bytes", type=int, default=4_000_000, help="how long the file becomes of which memory is looked at")
    parser.add_argument("--beamas", default=str(ROOT / "crates/beamas/out/beamas"))
    parser.add_argument("beamnode", nargs="?", default=str(ROOT / "crates/beamnode/out/beamnode"))
    options = parser.parse_args()
    with tempfile.TemporaryDirectory() as folder:
        folder = pathlib.Path(folder)
        lives(options, folder)
        torn_ends(options, folder)
        refusals(options, folder)
        if options.sync != "no":
            full_device(options, folder)
        memory(options, folder)
    print(f"{held} hold, {failed} don't")
    return 1 if failed else 0


if __name__ == "__main__":
    sys.exit(main())
