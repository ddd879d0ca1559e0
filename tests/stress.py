#!/usr/bin/env python3
"""Random commands from several clients to the built `beamnode serve`, while its schedulers run the processes that they start: loads,
purges, spawns, messages, rows, clocks, break spots. Each client takes a connection after another, each connection has some commands. After
so many connections the node has to end with status 0: it has then closed its journal with all seats, of which it is proved that the
journal replays to the state. Every reply has to be one of the protocol, and none may be JournalFull: the clients wait where the journal
grows by more than --entries a second. It builds nothing: `rt run` in crates/beamnode and crates/beamas makes their out/ folders. It needs
cc. Not part of `rt ci`.

    tests/stress.py [--seconds 60] [--schedulers 4] [--clients 4] [--entries 25000] [--seed 1] [--beamas BEAMAS] [BEAMNODE]

Each byte that the node asked for and hasn't given back is counted (`blocks.py`); what the C library has beside these blocks isn't. After
the first minute and at the end the node is brought to rest: no client is connected, and all modules are deleted and purged, so that no
process lives. Of its bytes those are taken off that it keeps for ever, by name:

- journal: the block of its entries, which is the longest, 64 bytes an entry, with the room that it has for more. Seats have no memory;
- code, lists, names, spots, messages, calls: what entries hold beside that, the code of files, the lists of them that are loaded together,
  names of modules, also of break spots, messages with their receivers, and with what processes were started;
- reasons: those of processes whose function wasn't there. Other reasons, and values, are in no block, or in one that an entry holds;
- tables: a place for each process that was started, by a command or by another process, what finds those that go next, a mark of each, and
  room for all of them to be held. Their room is doubled when it is full.

Bytes are whole numbers, so what an entry holds is measured without an error, on a node of its own: it has to be the same from one time to
the next. The tables are those of a node with as many processes. The memory that a node keeps for sessions isn't counted. What is left may grow from the first minute to the end by a tenth."""

import argparse
import collections
import contextlib
import pathlib
import random
import re
import socket
import subprocess
import sys
import tempfile
import threading
import time

from blocks import Counter
from sessions import DATA, ROOT

sys.path[1:1] = [str(ROOT / "bench"), str(ROOT / "clients")]
from beamclient import Failed, answer  # noqa: E402
from beamctl import FRAMES  # noqa: E402
from commands import connect, frame, receive  # noqa: E402

BATCH, ENTRY, LOOK = 50, 64, 10.0
# The bytes that a node keeps for sessions (crates/beam_serve/src/memory_reserve.rt).
RESERVE = 64_000_000
# After how many seconds the node is brought to rest first, and by which factor its memory may have grown at the end.
FIRST, MOST_GROWTH = 60.0, 1.1
MESSAGE = "{a,[1,2]}"
MODULES = {"crew1": "crew", "crew2": "crew", "t": "t", "r": "r", "w": "w"}
# Calls with arguments with which they end at once, and one whose function isn't there.
CALLS = {"crew:loop": "[0]", "crew:pair": "[0]", "crew:take": "[0]", "crew:sender": "[<0.1.0>,0]", "t:sum": "[0]"}
UNDEFINED = "none:none"
# How many processes a node begins with: just above a power of two, so that the tables have room for those that are measured. And how
# many of them start one after another, so that the tables' room is that of processes that start in their order.
BEGIN, ONE_BY_ONE = 4_100, 64
# How often a measured act is done at once, and how many processes one of them starts.
TIMES, CHILDREN = 30, 20
SPOT = "current:crew:2:0"
REASON = re.compile(r"\Apid \d+ ended (normal|killed|\{undef,\[\]\})$", re.MULTILINE)


def compiled(beamas, folder):
    """Two versions of a module that loops and sends, and modules of the stories, which compute, receive and wait."""
    text = (ROOT / "bench" / "crew.S").read_text()
    texts = {"crew1": text, "crew2": text.replace("{integer,1}", "{integer,2}", 1).replace("{move,{atom,ping}", "{move,{atom,pang}")}
    texts |= {name: (DATA / "stories" / f"{name}.S").read_text() for name in ("t", "r", "w")}
    for name, text in texts.items():
        pathlib.Path(f"{folder}/{name}.S").write_text(text)
        subprocess.run([beamas, f"{folder}/{name}.S", f"{folder}/{name}.beam"], check=True)
    return [f"{folder}/{name}.beam" for name in texts]


def module_of(path):
    return MODULES[pathlib.Path(path).stem]


def command(chance, files, newest):
    """A command by its name, and the words that it takes. Most are about the processes that were started last."""
    pid = str(max(1, newest - chance.randint(0, 20)))
    module = chance.choice(["crew", "crew", "t", "r", "w", "none"])
    spot = f"{chance.choice(['current', 'old'])}:crew:{chance.choice([2, 3, 6, 8, 12, 17])}:{chance.randint(0, 2)}"
    upgrade = [chance.choice(["strict", "soft", "hard"]), *chance.choices(files, k=chance.randint(0, 3))]
    call = chance.choice([("crew:loop", f"[{chance.randint(0, 500_000)}]"), ("crew:pair", f"[{chance.randint(0, 1_000)}]"),
                          ("crew:take", f"[{chance.randint(0, 50)}]"), ("crew:sender", f"[<0.{pid}.0>,{chance.randint(0, 200)}]"),
                          ("t:sum", f"[{chance.randint(0, 5_000)}]"), ("none:none", "[]")])
    return chance.choice([
        ("load", [chance.choice(files)]), ("atomic", upgrade), ("delete", [module]), ("soft_purge", [module]), ("purge", [module]),
        ("spawn", call), ("spawn", call), ("spawn", call), ("send", [pid, chance.choice(["stop", "one", MESSAGE])]),
        ("steps", [pid, str(chance.randint(0, 5_000))]), ("deliver", [pid]), ("clock", [str(chance.randint(0, 100_000))]),
        ("timeout", [pid]), ("break", [spot]), ("clear", [spot]), ("clear", [spot]), ("resume", [pid]), ("resume", [pid]), ("step", [pid]),
        ("inspect", [pid]), ("versions", [module])])


def keeps(name, words):
    """The bytes that stay of a command that was done, by the kinds and the names of the things that are measured."""
    match name:
        case "load":
            return [("code", words[0])]
        case "atomic":
            return [*(("code", path) for path in words[1:]), ("lists", len(words) - 1)]
        case "delete" | "soft_purge" | "purge" | "versions":
            return [("names", words[0])]
        case "break" | "clear":
            return [("spots", "crew")]
        case "send":
            return [("messages", words[1])]
        case "spawn":
            return [("calls", words[0])]
    return []


class Client(threading.Thread):
    """Makes connections of some random commands each, one after another, with rests at its pace."""

    def __init__(self, port, files, seed, until, pace):
        super().__init__()
        self.port, self.files, self.chance, self.until, self.pace = port, files, random.Random(seed), until, pace
        self.told, self.connections, self.newest, self.fault = collections.Counter(), 0, BEGIN, None
        self.kept, self.is_connected = collections.Counter(), threading.Lock()

    def run(self):
        try:
            while time.monotonic() < self.until:
                if self.pace.rests:
                    time.sleep(0.01)
                    continue
                with self.is_connected, self.connection() as connection:
                    self.give_some(connection)
        except (Exception, SystemExit) as fault:  # main reports what a thread raises
            self.fault = fault

    def connection(self):
        self.connections += 1
        return connect(self.port)

    def give_some(self, connection):
        for _ in range(self.chance.randint(1, BATCH)):
            if self.pace.rests:
                return
            time.sleep(self.pace.seconds)
            self.give(connection, *command(self.chance, self.files, self.newest))

    def give(self, connection, name, words):
        try:
            said = ask(connection, name, *words)
            self.told[name, "done"] += 1
            if name == "spawn":
                self.newest = number_of(said)
            self.kept.update(keeps(name, words))
        except Failed as refusal:
            self.told[name, str(refusal)] += 1


# ---- Commands


def framed(name, *words):
    kind, body = FRAMES[name]
    return frame(kind, body(*words))


def reply(connection):
    return receive(connection, int.from_bytes(receive(connection, 4), "big"))


def ask(connection, name, *words):
    """The answer in words. Raises Failed where it is a refusal."""
    connection.sendall(framed(name, *words))
    return answer(FRAMES[name][0], reply(connection)).text


def number_of(pid):
    return int(pid.split(".")[1])


def ask_often(connection, commands, times):
    """Gives commands `times` times, some at once."""
    frames, left = [framed(*command) for command in commands], times
    while left:
        now = min(left, max(1, BATCH // len(frames)))
        connection.sendall(now * b"".join(frames))
        for _ in range(now * len(frames)):
            reply(connection)
        left -= now


def views(connection, pids):
    """The view of each of these processes."""
    for first in range(0, len(pids), BATCH):
        batch = pids[first:first + BATCH]
        connection.sendall(b"".join(framed("inspect", str(pid)) for pid in batch))
        for _ in batch:
            yield reply(connection)[1:].decode()


def see(connection, pids, word):
    """Waits until the first line of each of these processes' views has a word."""
    while not all([word in view.partition("\n")[0] for view in views(connection, pids)]):
        time.sleep(0.01)


def fill(connection, number, last, at_once=BATCH):
    """Starts processes after the one of a number, up to another, some at once: they have ended before the next ones start."""
    while number < last:
        now = min(last - number, at_once)
        ask_often(connection, [("spawn", UNDEFINED, "[]")], now)
        see(connection, range(number + 1, number + now + 1), "ended")
        number += now


def begin(connection):
    """The processes with which each node begins."""
    fill(connection, 0, ONE_BY_ONE, at_once=1)
    fill(connection, ONE_BY_ONE, BEGIN)


# ---- Memory


@contextlib.contextmanager
def counted(counter, *words):
    """A node whose blocks are counted: its process, its port, and a function that reads its blocks."""
    with counter.program([words[0], "serve", "--port", "0", *words[1:]], reserve=RESERVE) as (process, blocks):
        port = int(process.stdout.readline().rsplit(b":")[-1])
        if not blocks().bytes:
            sys.exit(f"{words[0]} has an allocator of its own")
        yield process, port, blocks


def settled(blocks):
    """The blocks of a node that has executed all that it was given."""
    before = None
    while (now := blocks()).bytes != before:
        before = now.bytes
        time.sleep(0.3)
    return now


class Measuring:
    """A node on which the bytes that stay of things are measured."""

    def __init__(self, connection, blocks):
        self.connection, self.blocks = connection, blocks

    def bytes(self):
        now = settled(self.blocks)
        return now.bytes - now.longest

    def cost_of(self, act, times):
        """The bytes that stay of a thing, of which an act makes `times`. The first act is left out, and the next ones have to give the same."""
        looks = [self.bytes()]
        for _ in range(3):
            act()
            looks.append(self.bytes())
        _, one, other = (after - before for before, after in zip(looks, looks[1:]))
        if one != other or one % times:
            sys.exit(f"what is measured isn't the same: {looks}, {times} times")
        return one // times

    def cost(self, *commands, times=TIMES):
        return self.cost_of(lambda: ask_often(self.connection, commands, times), times)

    def send(self, message):
        """Sends a message `TIMES` times to a process that then ends."""
        pid = number_of(ask(self.connection, "spawn", "crew:take", f"[{TIMES}]"))
        ask_often(self.connection, [("send", str(pid), message)], TIMES)


def costs_of(node, files):
    """The bytes that stay of each thing that `keeps` names, and of the reason of a process whose function wasn't there."""
    nothing = [("inspect", "1"), ("clock", "7"), ("steps", "1", "5"), ("resume", "1"), ("send", "1", "one"), ("break", "current:none:2:0")]
    undefined = node.cost(("spawn", "crew:loop", "[0]"))
    costs = {("names", module): node.cost(("versions", module)) for module in ("crew", "t", "r", "w", "none")}
    for path in files:
        module = module_of(path)
        costs["code", path] = node.cost(("load", path), ("purge", module)) - costs["names", module]
    costs["lists", 0] = node.cost(("atomic", "hard"))
    for count in (1, 2, 3):
        paths = files[-count:]
        costs["lists", count] = node.cost(("atomic", "hard", *paths)) - sum(costs["code", path] for path in paths)
    costs["spots", "crew"] = node.cost(("break", SPOT), ("clear", SPOT)) // 2
    costs |= {("calls", call): node.cost(("spawn", call, arguments)) for call, arguments in CALLS.items()}
    costs["reasons", "undef"] = undefined - costs["calls", "crew:loop"]
    costs["calls", UNDEFINED] = node.cost(("spawn", UNDEFINED, "[]")) - costs["reasons", "undef"]
    for message in ("stop", "one", MESSAGE):
        costs["messages", message] = (node.cost_of(lambda: node.send(message), 1) - costs["calls", "crew:take"]) // TIMES
    few, many = (node.cost(("spawn", "crew:starter", f"[{count}]"), times=5) for count in (1, CHILDREN))
    if node.cost(*nothing) or few != many:
        sys.exit("what is to keep nothing, looks, refusals and processes that others start, keeps something")
    return costs


def is_undefined(view):
    """Whether a process ended since its function wasn't there."""
    found = REASON.match(view)
    if not found:
        sys.exit(f"a process has ended otherwise than is counted: {view}")
    return found[1].startswith("{")


def tables(counter, program, counts, cost):
    """The bytes of the tables of a node after each of these counts of processes, each of which keeps `cost` bytes beside the tables."""
    with counted(counter, program) as (_, port, blocks):
        empty, found = settled(blocks).bytes, []
        with connect(port) as connection:
            begin(connection)
        for count, before in zip(counts, [BEGIN, *counts]):
            with connect(port) as connection:
                fill(connection, before, count)
            now = settled(blocks)
            found.append(now.bytes - now.longest - empty - count * cost)
        return found


def resident(pid):
    """The bytes of a process that are in memory: all of them, and those of its longest mapping."""
    sizes = [int(line.split()[1]) << 10 for line in pathlib.Path(f"/proc/{pid}/smaps").read_text().splitlines() if line.startswith("Rss:")]
    return sum(sizes), max(sizes)


class Pace(threading.Thread):
    """Looks at the node's journal, the longest mapping: how many entries it has, and how long clients are to wait."""

    def __init__(self, pid, most):
        super().__init__(daemon=True)
        self.pid, self.most, self.seconds, self.rests, self.ends, self.entries = pid, most, 0.005, False, False, 0
        self.begin = self.told = time.monotonic()

    def run(self):
        at = self.begin
        while not self.ends:
            time.sleep(1)
            try:
                whole, journal = resident(self.pid)
            except (OSError, ValueError):
                return
            now, before, self.entries = time.monotonic(), self.entries, journal // ENTRY
            rate, at = (self.entries - before) / (now - at), now
            self.seconds = min(1.0, (self.seconds + 0.0005) * max(0.5, min(2.0, rate / (0.8 * self.most))))
            if now - self.told > LOOK:
                self.told += LOOK
                print(f"{now - self.begin:.0f} s: {self.entries} entries, {rate:.0f} a second; {whole / 2**20:.1f} MiB", flush=True)


class Rest:
    """A node at rest: its bytes, those of its journal, how many processes were started, and how often each thing was done that is kept."""

    def __init__(self, seconds, blocks, count, kept):
        self.seconds, self.bytes, self.journal, self.count, self.kept = seconds, blocks.bytes, blocks.longest, count, kept

    def left(self, costs, are_undefined, tables):
        """The bytes beside those that the node keeps; it prints the latter by their names."""
        kept = self.kept + collections.Counter({("reasons", "undef"): sum(are_undefined[:self.count])})
        parts = collections.Counter({"journal": self.journal, "tables": tables})
        for (kind, name), times in kept.items():
            parts[kind] += costs[kind, name] * times
        left = self.bytes - sum(parts.values())
        named = ", ".join(f"{kind} {size / 2**20:.2f}" for kind, size in parts.items())
        print(f"at rest after {self.seconds:.0f} s: {self.count} processes; MiB {self.bytes / 2**20:.2f}: {named}, rest {left} bytes")
        return left


def rest(pace, blocks, clients, own):
    """Brings the node to rest, by a client of its own, and looks at it."""
    with contextlib.ExitStack() as stack:
        pace.rests = True
        stack.callback(setattr, pace, "rests", False)
        for client in clients:
            stack.enter_context(client.is_connected)
        with own.connection() as connection:
            for module in sorted(set(MODULES.values())):
                for name in ("purge", "delete", "purge"):
                    own.give(connection, name, [module])
            own.give(connection, "spawn", [UNDEFINED, "[]"])
        kept = sum((client.kept for client in (*clients, own)), collections.Counter())
        return Rest(time.monotonic() - pace.begin, settled(blocks), own.newest, kept)


def measured(counter, program, files):
    """The costs, which it also prints."""
    with counted(counter, program) as (_, port, blocks), connect(port) as connection:
        begin(connection)
        costs = costs_of(Measuring(connection, blocks), files)
    named = (f"{kind} {pathlib.Path(str(name)).stem} {cost}" for (kind, name), cost in costs.items())
    print("bytes that stay:", ", ".join(named), flush=True)
    return costs


def stressed(pace, blocks, clients, own, seconds):
    """The rests of a node that clients give commands meanwhile, and of each process whether its function wasn't there."""
    for thread in (*clients, pace):
        thread.start()
    time.sleep(min(FIRST, seconds / 2))
    rests = [rest(pace, blocks, clients, own)]
    for client in clients:
        client.join()
    pace.ends = True
    rests.append(rest(pace, blocks, clients, own))
    with own.connection() as connection:
        return rests, [is_undefined(view) for view in views(connection, range(1, own.newest + 1))]


def fault(lefts):
    """The rests that grew more than they may."""
    first, last = lefts
    return f"the rest grew from {first} to {last} bytes" if last > MOST_GROWTH * first else None


def run(given, counter, files):
    costs = measured(counter, given.beamnode, files)
    # more connections than can come: the last ones, which do nothing, are made at the end
    most = 250 * int(given.seconds + 1)
    words = ["--schedulers", str(given.schedulers), "--connections", str(most), "--clients", str(given.clients)]
    with counted(counter, given.beamnode, *words) as (process, port, blocks):
        with connect(port) as connection:
            begin(connection)
        pace, until = Pace(process.pid, given.entries), time.monotonic() + given.seconds
        threads = own, *clients = [Client(port, files, given.seed + at, until, pace) for at in range(given.clients + 1)]
        own.kept["calls", UNDEFINED] = BEGIN
        rests, are_undefined = stressed(pace, blocks, clients, own, given.seconds)
        taken = 1 + sum(client.connections for client in threads)
        for _ in range(most - taken):
            socket.create_connection(("127.0.0.1", port)).close()
        # workers find no work before the node ends
        status = process.wait(timeout=600)
    sizes = tables(counter, given.beamnode, [it.count for it in rests], costs["calls", UNDEFINED] + costs["reasons", "undef"])
    lefts = [it.left(costs, are_undefined, size) for it, size in zip(rests, sizes)]
    told = sum((client.told for client in threads), collections.Counter())
    for (name, what), count in sorted(told.items()):
        print(f"{name:12} {what:14} {count}")
    full = sum(count for (_, what), count in told.items() if what == "JournalFull")
    print(f"{full} JournalFull")
    faults = [str(it) for it in (*(client.fault for client in threads), fault(lefts)) if it]
    faults += [f"{full} refused"] * (full > 0)
    print(f"{sum(told.values())} commands in {taken} connections, {pace.entries} entries, status {status}", *faults)
    sys.exit(bool(faults or status))


def main():
    parser = argparse.ArgumentParser(description=__doc__, formatter_class=argparse.RawDescriptionHelpFormatter)
    parser.add_argument("--seconds", type=float, default=60)
    parser.add_argument("--schedulers", type=int, default=4)
    parser.add_argument("--clients", type=int, default=4, help="of this script, and of the node: at most 16")
    parser.add_argument("--entries", type=int, default=25_000, help="of the journal, a second")
    parser.add_argument("--seed", type=int, default=1)
    parser.add_argument("--beamas", default=str(ROOT / "crates/beamas/out/beamas"))
    parser.add_argument("beamnode", nargs="?", default=str(ROOT / "crates/beamnode/out/beamnode"))
    given = parser.parse_args()
    with tempfile.TemporaryDirectory() as folder:
        run(given, Counter(folder), compiled(given.beamas, folder))


if __name__ == "__main__":
    main()
