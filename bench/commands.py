#!/usr/bin/env python3
"""What commands to the built `beamnode serve` take over the loopback, in one connection: commands a second, each after the
reply to the one before and in batches, beside PINGs to a redis server where redis-server is installed; the same from several
clients at once, each in a process of its own, beside as many of redis-benchmark; the memory of an idle session; how long files
of 1 to 8 MB take to load by frame. It builds nothing: `rt run` in crates/beamnode makes out/beamnode. Not part of `rt ci`.

    bench/commands.py [--commands 50000] [--runs 5] [--clients] [BEAMNODE]

The client is this script, so that the time on the clock has its part in both servers' figures; the processor's time is the
server's alone. Of several runs, which go in turn over the commands, the least counts."""

import argparse
import contextlib
import multiprocessing
import os
import pathlib
import re
import shutil
import socket
import struct
import subprocess
import sys
import tempfile
import time

ROOT = pathlib.Path(__file__).resolve().parent.parent
BATCH = 500
PING = b"*1\r\n$4\r\nPING\r\n"
LOAD, SPAWN, STEPS, VERSIONS = 1, 6, 8, 17


def frame(kind, body):
    return struct.pack(">IB", len(body) + 1, kind) + body


def receive(connection, count):
    data = connection.recv(count)
    while len(data) < count:
        more = connection.recv(count - len(data))
        if not more:
            sys.exit(f"the server ended the connection after {data!r}")
        data += more
    return data


def ask(connection, kind, body):
    connection.sendall(frame(kind, body))
    return receive(connection, int.from_bytes(receive(connection, 4), "big"))


def connect(port):
    connection = socket.create_connection(("127.0.0.1", port))
    connection.setsockopt(socket.IPPROTO_TCP, socket.TCP_NODELAY, 1)
    return connection


@contextlib.contextmanager
def running(words):
    process = subprocess.Popen(words, stdout=subprocess.PIPE)
    try:
        yield process
    finally:
        process.kill()
        process.wait()


@contextlib.contextmanager
def node(program, clients=1):
    """The built node, and where it listens."""
    with running([program, "serve", "--port", "0", *(["--clients", str(clients)] if clients > 1 else [])]) as process:
        yield process.pid, int(process.stdout.readline().rsplit(b":")[-1])


@contextlib.contextmanager
def redis(program):
    with socket.socket() as free:
        free.bind(("127.0.0.1", 0))
        port = free.getsockname()[1]
    with running([program, "--port", str(port), "--bind", "127.0.0.1", "--save", "", "--appendonly", "no"]) as process:
        while True:
            with contextlib.suppress(ConnectionRefusedError), connect(port):
                break
            time.sleep(0.05)
        yield process.pid, port


def spent(pid):
    """The processor seconds of a process so far: the first number of each thread is its nanoseconds."""
    threads = pathlib.Path(f"/proc/{pid}/task").glob("*/schedstat")
    return sum(int(thread.read_text().split()[0]) for thread in threads) / 1e9


def private(pid):
    """The KiB that a process doesn't share with others."""
    lines = pathlib.Path(f"/proc/{pid}/smaps_rollup").read_text().splitlines()
    return sum(int(line.split()[1]) for line in lines if line.startswith("Private"))


def one_by_one(connection, command, size, count):
    for _ in range(count):
        connection.sendall(command)
        receive(connection, size)


def in_batches(connection, command, size, count):
    for _ in range(count // BATCH):
        connection.sendall(command * BATCH)
        receive(connection, size * BATCH)


def timed(pid, run):
    """Seconds on the clock, and the processor seconds of the process."""
    before, begin = spent(pid), time.monotonic()
    run()
    return time.monotonic() - begin, spent(pid) - before


def least(found):
    return [min(column) for column in zip(*found)]


def rates(program, runs, count):
    """Prints what a command takes, and what a PING does."""
    with contextlib.ExitStack() as servers:
        pid, port = servers.enter_context(node(program))
        connection = servers.enter_context(connect(port))
        ask(connection, LOAD, (ROOT / "examples" / "t.beam").read_bytes())
        # t:sum(100000000), which runs on through all commands of this script
        ask(connection, SPAWN, bytes.fromhex("836803 770174 770373756d 6c00000001 6205f5e100 6a"))
        cases = [
            ("Versions", pid, connection, frame(VERSIONS, b"t"), 13),
            ("Steps of 1 row", pid, connection, frame(STEPS, struct.pack(">II", 1, 1)), 10),
        ]
        server = shutil.which("redis-server")
        if server:
            pid, port = servers.enter_context(redis(server))
            cases.append(("redis, PING", pid, servers.enter_context(connect(port)), PING, 7))
        else:
            print("redis-server isn't installed\n")
        found = {}
        for _ in range(runs):
            for name, pid, connection, command, size in cases:
                for way in (one_by_one, in_batches):
                    times = timed(pid, lambda: way(connection, command, size, count))
                    found.setdefault((name, way), []).append(times)
        print_rates([case[0] for case in cases], found, count)


def print_rates(names, found, count):
    print("| | commands a second | us | PINGs | us of the server's processor | PINGs |\n|---|---|---|---|---|---|")
    for way, title in ((one_by_one, "one by one"), (in_batches, f"{BATCH} at a time")):
        pings = least(found.get(("redis, PING", way), [(float("nan"), float("nan"))]))
        for name in names:
            times = least(found[name, way])
            cells = [f"{it / count * 1e6:.2f} | {it / ping:.2f}" for it, ping in zip(times, pings)]
            print(f"| {name}, {title} | {count / times[0]:,.0f} | {' | '.join(cells)} |")


def client(port, command, size, count, begin):
    with connect(port) as connection:
        one_by_one(connection, command, size, 1)
        begin.wait()
        one_by_one(connection, command, size, count)


def from_clients(port, clients, command, size, count):
    """Seconds on the clock in which clients give their commands, each command after the reply to the one before."""
    fork = multiprocessing.get_context("fork")
    begin = fork.Barrier(clients + 1)
    askers = [fork.Process(target=client, args=(port, command, size, count, begin)) for _ in range(clients)]
    for asker in askers:
        asker.start()
    begin.wait()
    since = time.monotonic()
    for asker in askers:
        asker.join()
    return time.monotonic() - since


def benchmarked(port, clients, count):
    """PINGs a second of redis-benchmark, which gives them for all clients in one thread."""
    words = ["redis-benchmark", "-p", str(port), "-c", str(clients), "-n", str(count), "-t", "ping_mbulk", "-q"]
    said = subprocess.run(words, capture_output=True, text=True, check=True).stdout
    return max(float(rate) for rate in re.findall("([0-9.]+) requests per second", said))


def clients_at_once(program, runs, count):
    """Prints the commands a second of several clients."""
    print("\n| clients | Versions a second | times one client | redis, PING | times one client | redis-benchmark, PING |\n|---|---|---|---|---|---|")
    server, alone = shutil.which("redis-server"), {}
    for clients in (1, 4, 16):
        cells = [str(clients)]
        with node(program, clients) as (_, port):
            cases = [("node", port, frame(VERSIONS, b"t"), 13)]
            with redis(server) if server else contextlib.nullcontext((None, None)) as (_, other):
                cases += [("redis", other, PING, 7)] if server else []
                for name, at, command, size in cases:
                    rate = max(count / from_clients(at, clients, command, size, count // clients) for _ in range(runs))
                    cells += [f"{rate:,.0f}", f"{rate / alone.setdefault(name, rate):.2f}"]
                if server and shutil.which("redis-benchmark"):
                    cells.append(f"{max(benchmarked(other, clients, count) for _ in range(runs)):,.0f}")
        print("|", " | ".join(cells), "|", flush=True)


def sessions(program):
    """Prints the memory of a server before a session, with one that is idle, and after it."""
    print("\n| private KiB | before | with an idle session | after it |\n|---|---|---|---|")
    servers = [("beamnode", node, program, frame(VERSIONS, b"t"), 13), ("redis", redis, shutil.which("redis-server"), PING, 7)]
    for name, start, path, command, size in servers:
        if path:
            with start(path) as (pid, port):
                before = private(pid)
                with connect(port) as connection:
                    one_by_one(connection, command, size, 1)
                    idle = private(pid)
                time.sleep(0.2)
                print(f"| {name} | {before} | {idle} | {private(pid)} |")


def loads(program, runs, kinds):
    """Prints how long files take by frame, beside the same file given to `beamnode call`, which runs none of it."""
    print("\n| file | bytes | frame, ms | processor, ms | `call --steps 0`, ms | frame to call |\n|---|---|---|---|---|---|")
    with tempfile.TemporaryDirectory() as folder:
        for kind in kinds:
            for megabytes in (1, 2, 4, 8):
                file = pathlib.Path(folder) / f"{kind}.beam"
                subprocess.run([sys.executable, ROOT / "bench" / "module.py", kind, str(megabytes * 1_000_000), file], check=True)
                load(program, runs, f"{kind}, {megabytes} MB", file)


def load(program, runs, title, file):
    words = [program, "call", "--module", "m", "--function", "f", "--steps", "0", file]
    by_frame, by_call, data = [], [], file.read_bytes()
    for _ in range(runs):
        with node(program) as (pid, port), connect(port) as connection:
            by_frame.append(timed(pid, lambda: ask(connection, LOAD, data)))
        by_call.append(timed(os.getpid(), lambda: subprocess.run(words, capture_output=True)))
    (clock, processor), (call, _) = least(by_frame), least(by_call)
    print(f"| {title} | {len(data):,} | {clock * 1e3:.0f} | {processor * 1e3:.0f} | {call * 1e3:.0f} | {clock / call:.2f} |")


def main():
    parser = argparse.ArgumentParser(description=__doc__, formatter_class=argparse.RawDescriptionHelpFormatter)
    parser.add_argument("--commands", type=int, default=50_000)
    parser.add_argument("--runs", type=int, default=5)
    parser.add_argument("--clients", action="store_true", help="several clients alone")
    parser.add_argument("--kinds", default="mixed", help="of bench/module.py's files, with commas between")
    parser.add_argument("beamnode", nargs="?", default=str(ROOT / "crates/beamnode/out/beamnode"))
    given = parser.parse_args()
    if given.clients:
        return clients_at_once(given.beamnode, given.runs, given.commands)
    rates(given.beamnode, given.runs, given.commands)
    clients_at_once(given.beamnode, given.runs, given.commands)
    sessions(given.beamnode)
    loads(given.beamnode, given.runs, given.kinds.split(","))


if __name__ == "__main__":
    main()
