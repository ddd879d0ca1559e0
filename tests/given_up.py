#!/usr/bin/env python3
"""What clients leave to be done later when they give up: nothing. A node whose places are all taken keeps a further connection waiting,
and does what was sent over it when a place is free, also if its client is long gone. So the clients send first what does nothing.

In a node with three places, which three sessions hold, a process of examples/v1/shop.S waits. clients/beamctl.py and, where erlc is
installed, clients/kanguriwe.erl try to load other code (twice, which would end the process), to send to the process, to start another
one and to end it, and give up after half a second each. Then one session ends. When the node answers a new session it has done what
stood before it: code, process and mailbox have to be as they were. A client that waits without end has to be served too.

Then a node whose journal has room for one entry: the first command of fifty connections is refused and leaves that room, one command
takes it, and after that the first command is refused as JournalFull, which a client has to bear.

It takes 9 s on the clock, 2 s of a processor. Prints how many things hold; status 1 and each one that doesn't. It builds nothing:
`./try.sh make` or `rt run` in crates/beamas and crates/beamnode makes the programs. Not part of `rt ci`.

    tests/given_up.py [--programs FOLDER] [--clients FOLDER]

--clients names the folder of other clients, say of an earlier version."""

import argparse
import contextlib
import os
import pathlib
import re
import shutil
import socket
import struct
import subprocess
import sys
import tempfile

from refuse import found_programs

ROOT = pathlib.Path(__file__).resolve().parent.parent
# Resume of process 0, and its refusals: NoProcess, JournalFull.
FIRST = bytes.fromhex("00 00 00 05 0E 00 00 00 00")
NO_PROCESS = bytes.fromhex("00 00 00 02 06 02")
JOURNAL_FULL = bytes.fromhex("00 00 00 02 06 0A")
LOAD, SPAWN, INSPECT, VERSIONS = 1, 6, 16, 17
# {shop,open,[0]}
OPEN = bytes.fromhex("83 68 03 77 04") + b"shop" + bytes.fromhex("77 04") + b"open" + bytes.fromhex("6B 00 01 00")
PATIENCE = 30
GIVEN_UP = "beamctl: no first reply within 0.5 seconds: nothing was sent that changes anything. All places may be taken\n"

ERLANG = """
    [Port] = [list_to_integer(Word) || Word <- init:get_plain_arguments()],
    Try = fun(Do) ->
        case kanguriwe:connect(Port, 500) of
            {ok, Node} -> Answer = Do(Node), kanguriwe:close(Node), Answer;
            Error -> Error
        end
    end,
    Load = fun(Node) -> kanguriwe:load(Node, "shop2.beam") end,
    Send = fun(Node) -> kanguriwe:send(Node, 1, hello) end,
    Spawn = fun(Node) -> kanguriwe:spawn(Node, shop, open, [0]) end,
    io:format("~p~n", [[Try(Do) || Do <- [Load, Load, Send, Spawn]]]),
    halt().
"""


def read(connection, count):
    data = b""
    while len(data) < count:
        more = connection.recv(count - len(data))
        if not more:
            raise EOFError(f"the node ended the session after {data!r}")
        data += more
    return data


def reply(connection):
    size = read(connection, 4)
    return size + read(connection, int.from_bytes(size, "big"))


def first_reply(connection):
    connection.sendall(FIRST)
    return reply(connection)


def ask(connection, kind, body):
    connection.sendall(struct.pack(">IB", len(body) + 1, kind) + body)
    return reply(connection)


def connect(port):
    return socket.create_connection(("127.0.0.1", port), timeout=PATIENCE)


def look(connection, process):
    """The first and the last line of a process, or the refusal."""
    found = ask(connection, INSPECT, struct.pack(">I", process))
    lines = found[5:].decode().splitlines()
    return f"{lines[0]}, {lines[-1]}" if found[4] == 4 else found.hex(" ")


def until_it_waits(connection, process):
    while " running" in (seen := look(connection, process)):
        pass
    return seen


def versions(connection):
    return "current {}, old {}".format(*struct.unpack(">II", ask(connection, VERSIONS, b"shop")[5:]))


@contextlib.contextmanager
def node(beamnode, *words):
    """A node, as the port where it listens."""
    with subprocess.Popen([beamnode, "serve", "--port", "0", "--log", "error", *words], stdout=subprocess.PIPE) as process:
        try:
            yield int(process.stdout.readline().rsplit(b":")[1])
        finally:
            process.kill()


class Clients:
    """The clients of a folder, which run in the current folder."""

    def __init__(self, folder):
        self.folder = folder
        self.has_erlang = bool(shutil.which("erlc") and shutil.which("erl"))
        if self.has_erlang:
            subprocess.run(["erlc", f"{folder}/kanguriwe.erl"], check=True)

    def control(self, port, *words):
        return subprocess.Popen([sys.executable, "-B", f"{self.folder}/beamctl.py", "--port", str(port), *words],
                                stdin=subprocess.DEVNULL, stdout=subprocess.PIPE, stderr=subprocess.PIPE, text=True)

    def run(self, port, *words):
        """Status, output and errors of beamctl."""
        with self.control(port, *words) as process:
            output, errors = process.communicate(timeout=PATIENCE)
        return process.returncode, output, errors

    def erlang(self, port):
        return subprocess.run(["erl", "-noshell", "-eval", ERLANG, "-extra", str(port)], capture_output=True, text=True,
                              timeout=PATIENCE, check=False).stdout


class Checks:
    def __init__(self):
        self.count, self.failed = 0, 0

    def same(self, what, found, wanted):
        self.count += 1
        if found != wanted:
            self.failed += 1
            print(f"{what}\n    wanted: {wanted}\n    found:  {found}")


def given_up(beamnode, clients, checks):
    with node(beamnode, "--schedulers", "2", "--clients", "3") as port, contextlib.ExitStack() as stack:
        places = [stack.enter_context(connect(port)) for _ in range(3)]
        for place in places:
            checks.same("the first reply", first_reply(place), NO_PROCESS)
        ask(places[0], LOAD, pathlib.Path("shop.beam").read_bytes())
        ask(places[0], SPAWN, OPEN)
        before = until_it_waits(places[0], 1)
        checks.same("the process", before, "pid 1 waiting, mailbox 0 save 0 transit 0")
        for words in (["load", "shop2.beam"], ["load", "shop2.beam"], ["send", "1", "hello"], ["spawn", "shop:open", "[0]"], ["kill", "1"]):
            checks.same(f"beamctl {' '.join(words)}", clients.run(port, "--timeout", "0.5", *words), (1, "", GIVEN_UP))
        if clients.has_erlang:
            checks.same("kanguriwe", clients.erlang(port), "[{error,timeout},{error,timeout},{error,timeout},{error,timeout}]\n")
        patient = clients.control(port, "--timeout", "none", "versions", "shop")
        places[2].close()
        with connect(port) as later:
            checks.same("the code after that", versions(later), "current 1, old 0")
            checks.same("the process after that", look(later, 1), before)
            checks.same("a second process", look(later, 2), NO_PROCESS.hex(" "))
        checks.same("a client that waits without end", patient.communicate(timeout=PATIENCE), ("current 1, old none\n", ""))


def full(beamnode, clients, checks):
    with node(beamnode, "--journal-limit", "1") as port:
        for _ in range(50):
            with connect(port) as connection:
                checks.same("the first reply", first_reply(connection), NO_PROCESS)
        with connect(port) as connection:
            checks.same("one command", versions(connection), "current 0, old 0")
            checks.same("the first reply of a full journal", first_reply(connection), JOURNAL_FULL)
        checks.same("beamctl", clients.run(port, "versions", "shop"), (1, "", "beamctl: JournalFull\n"))
        if clients.has_erlang:
            checks.same("kanguriwe", re.findall(r"\w+_full", clients.erlang(port)), ["journal_full"] * 4)


def main():
    parser = argparse.ArgumentParser(description=__doc__, formatter_class=argparse.RawDescriptionHelpFormatter)
    parser.add_argument("--programs", type=os.path.abspath, default=str(ROOT / "crates"), help="where the programs are")
    parser.add_argument("--clients", type=os.path.abspath, default=str(ROOT / "clients"), help="where the clients are")
    given = parser.parse_args()
    beamas, _, beamnode = found_programs(given.programs)
    checks = Checks()
    with tempfile.TemporaryDirectory() as folder:
        os.chdir(folder)
        for version, name in (("v1", "shop"), ("v2", "shop2")):
            subprocess.run([beamas, ROOT / "examples" / version / "shop.S", f"{name}.beam"], check=True)
        clients = Clients(given.clients)
        given_up(beamnode, clients, checks)
        full(beamnode, clients, checks)
        if not clients.has_erlang:
            print("erlc isn't installed: clients/kanguriwe.erl isn't tried")
        os.chdir(ROOT)
    print(f"given_up: {checks.count - checks.failed} of {checks.count} hold")
    sys.exit(bool(checks.failed))


if __name__ == "__main__":
    main()
