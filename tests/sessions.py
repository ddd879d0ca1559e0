#!/usr/bin/env python3
"""Replies of the built `beamnode pipe` and `beamnode serve`: those of the rows of kind `session`, and those of both programs to the same
commands, of all kinds, with all replies and refusals that can be had of both. Ends with status 1 and names where something else is
answered than is wanted. It builds nothing: `rt run` in crates/beamnode and crates/beamas makes their out/ folders. Not part of `rt ci`.

    tests/sessions.py [--tries 200] [--beamas BEAMAS] [BEAMNODE]

The processes of `serve` run by themselves, those of `pipe` when they are told to. So where a case says `rest`, it waits for the ones and
tells the others, until the process waits, is held or has ended; what that takes isn't compared. Commands between two rests are sent in
one write. Where they come before a scheduler that `serve` would also wake, as `steps` right after `spawn`, the case is marked `early`:
it is tried again, with a new node, until the scheduler came later."""

import argparse
import contextlib
import os
import pathlib
import re
import shlex
import socket
import struct
import subprocess
import sys
import tempfile
import time

ROOT = pathlib.Path(__file__).resolve().parent.parent
DATA = ROOT / "crates" / "vectors" / "data"

sys.path.insert(0, str(ROOT / "clients"))
from beamctl import FRAMES, contents  # noqa: E402

KINDS = FRAMES | {"load_strict": (2, contents)}

# sleep() waits for 1,000,000 ms or for a message that it takes; loop(N) counts down from N.
LISTING = """{module,s}. {exports,[{sleep,0},{loop,1}]}. {attributes,[]}. {labels,7}.
{function,sleep,0,2}. {label,1}. {func_info,{atom,s},{atom,sleep},0}.
{label,2}. {wait_timeout,{f,2},{integer,1000000}}. timeout. {move,{atom,late},{x,0}}. return.
{function,loop,1,5}. {label,4}. {func_info,{atom,s},{atom,loop},1}.
{label,5}. {test,is_eq_exact,{f,6},[{x,0},{integer,0}]}. return.
{label,6}. {gc_bif,'-',{f,0},1,[{x,0},{integer,1}],{x,0}}. {call_only,1,{f,5}}.
"""
STICKY = "{module,erlang}. {exports,[]}. {attributes,[]}. {labels,1}.\n"

CASES = {
    "code": """
        load t.beam; versions t; load t.beam; versions t; load_strict t.beam; soft_purge t; load_strict t.beam; purge t
        delete t; delete t; versions t; soft_purge t; versions t; delete t; purge t; soft_purge t; versions none""",
    "a server goes over to new code": """
        load server1.beam; spawn u:loop []; rest 1; load server2.beam; soft_purge u; load_strict server1.beam; inspect 1; delete u
        send 1 upgrade; rest 1; inspect 1; soft_purge u; versions u; send 1 {stop,now}; rest 1; inspect 1""",
    "a purge, and a third load, end who lingers": """
        load server1.beam; spawn u:loop []; spawn u:loop []; rest 1; rest 2; load server2.beam; purge u; inspect 1; purge u; versions u
        spawn u:loop []; rest 3; load server1.beam; load server2.beam; inspect 3; versions u""",
    "break spots": """
        load t.beam; break current:t:5:1; break current:t:5:1; spawn t:sum [4]; rest 1; inspect 1; steps 1 1; step 1; inspect 1; step 1
        send 1 {a,[1,2|x]}; inspect 1; deliver 1; deliver 1; inspect 1; timeout 1; resume 1; rest 1; inspect 1; step 1; load t.beam
        clear current:t:5:1; clear old:t:5:1; clear old:t:5:1; soft_purge t; resume 1; rest 1; inspect 1; soft_purge t; resume 1; step 1""",
    "break spots that are nowhere": """
        break current:t:5:1; load t.beam; break current:t:7:0; break old:t:5:1; break current:u:5:1; break current:t:-1:0
        break current:t:5:-1; break current:t:5:100; clear current:t:7:0; clear current:t:5:1""",
    "upgrade lists": """
        load t.beam; load server1.beam; atomic strict t.beam server2.beam; versions t; versions u; atomic strict server1.beam t.beam
        spawn u:loop []; rest 1; atomic soft server1.beam t.beam; atomic strict t.beam; atomic soft t.beam server2.beam; inspect 1
        versions t; versions u; atomic hard t.beam server2.beam; inspect 1; atomic soft server1.beam; atomic soft; atomic hard""",
    "upgrade lists that are refused": """
        load t.beam; atomic hard t.beam t.beam; atomic hard t.beam server1.beam t.beam; atomic hard t.beam erlang.beam t.beam
        atomic hard t.beam none.beam; atomic hard server1.beam 0=58 none.beam; versions t; versions u; atomic strict server1.beam t.beam
        atomic strict server1.beam""",
    "processes that aren't there": """
        steps 9 1; deliver 9; timeout 1; resume 1; step 1; inspect 1; steps 0 1; inspect 4294967295; send 1 a; send nobody a
        load t.beam; spawn t:sum [4]; rest 1; steps 1 1; deliver 1; timeout 1; resume 1; step 1; inspect 1; send 1 a""",
    "functions that aren't there": """
        spawn none:none []; rest 1; inspect 1; load t.beam; spawn t:sum []; rest 2; inspect 2; spawn t:sum [a]; rest 3; inspect 3""",
    "a process that waits": """
        load server1.beam; spawn u:loop []; rest 1; steps 1 1; deliver 1; timeout 1; resume 1; step 1; inspect 1""",
    "files that can't be loaded": """
        load 0=58; load 7=B1; load 23=00; load 124=58; load 72=04; load 72=0E; load 121=13; load 67=05; load 71=03; load 183=04; load 143=02
        load none.beam; load literals.beam; load_strict 67=05; load erlang.beam; load_strict erlang.beam; versions t""",
    "a clock": "clock 1099511627776; clock 5; clock 1099511627776; clock 18446744073709551615; clock 18446744073709551614",
    "early: rows": "load t.beam; spawn t:sum [4]; steps 1 100; steps 1 1; inspect 1",
    "early: some rows": "load s.beam; spawn s:loop [100000]; steps 1 3; inspect 1; steps 1 0; soft_purge s; steps 1 2",
    "early: a message": "load server1.beam; spawn u:loop []; rest 1; send 1 stop; deliver 1; deliver 1; steps 1 100",
    "early: a timeout": """
        load s.beam; spawn s:sleep []; rest 1; timeout 1; clock 1099511627776; timeout 1; timeout 1; steps 1 100; inspect 1""",
    "no such kind": "frame 00000000",
    "no such command": "versions t; frame 0000000163",
    "a frame that is too long": "versions t; frame 00800001",
    "a body of another form": "versions t; frame 000000080801020304050607",
    "a list of another form": "versions t; frame 00000006120300000000",
}


def read(stream, count):
    data = stream.read(count)
    if len(data) < count:
        raise EOFError(f"the node ended the session after {data!r}")
    return data


class Session:
    """A session over two streams."""

    def __init__(self, replies, send):
        self.replies = replies
        self.send = send

    def reply(self):
        size = read(self.replies, 4)
        return size + read(self.replies, int.from_bytes(size, "big"))

    def ask(self, words):
        self.send(frame(words))
        return self.reply()

    def state(self, pid):
        """The first word of the view of a process, and how many signals are in transit to it."""
        text = self.ask(["inspect", pid])[5:].decode()
        return text.split()[2], int(text.split()[-1]) if "transit" in text else 0


def frame(words):
    if words[0] == "frame":
        return bytes.fromhex(words[1])
    kind, body = KINDS[words[0]]
    body = body(*words[1:])
    return struct.pack(">IB", len(body) + 1, kind) + body


class Pipe(Session):
    def __init__(self, program):
        self.process = subprocess.Popen([program, "pipe"], stdin=subprocess.PIPE, stdout=subprocess.PIPE, stderr=subprocess.PIPE, bufsize=0)
        super().__init__(open(self.process.stdout.fileno(), "rb", closefd=False), self.process.stdin.write)

    def rest(self, pid):
        for _ in range(1000):
            state, signals = self.state(pid)
            if is_at_rest(state, signals):
                return
            if signals:
                self.ask(["deliver", pid])
            self.ask(["steps", pid, "4000"])
        raise TimeoutError

    def end(self):
        """The bytes that are written after the last reply, and how the program ends."""
        self.process.stdin.close()
        rest = self.replies.read()
        errors = self.process.stderr.read().decode()
        return rest, self.process.wait(), errors.removeprefix("beamnode: pipe: ").strip()


class Serve(Session):
    def __init__(self, program, schedulers):
        words = [program, "serve", "--port", "0", "--schedulers", str(schedulers), "--connections", "1"]
        self.process = subprocess.Popen(words, stdout=subprocess.PIPE, stderr=subprocess.PIPE)
        port = int(self.process.stdout.readline().rsplit(b":")[-1])
        self.connection = socket.create_connection(("127.0.0.1", port))
        super().__init__(self.connection.makefile("rb"), self.connection.sendall)

    def rest(self, pid):
        for _ in range(5000):
            if is_at_rest(*self.state(pid)):
                return
            time.sleep(0.001)
        raise TimeoutError

    def end(self):
        """The bytes after the last reply, and how the program ends: with status 0, and the journal closed with all seats. A session that
        failed is logged as a warning."""
        self.connection.shutdown(socket.SHUT_WR)
        rest = self.replies.read()
        self.connection.close()
        errors = self.process.communicate(timeout=60)[1].decode()
        failure = re.sub(r"^\S+ \[WARN +\S+\] ", "", errors).strip()
        return rest, self.process.returncode or int(failure != ""), failure


def is_at_rest(state, signals):
    return state in ("ended", "held") or (state == "waiting" and not signals)


def told(session, commands):
    """The replies, one a command, and how the session ends. Commands up to a rest are sent in one write."""
    replies, burst = [], []
    for words in [*commands, ["rest"]]:
        if words[0] != "rest":
            burst.append(words)
            continue
        session.send(b"".join(map(frame, burst)))
        replies += [session.reply() for _ in burst]
        burst = []
        if words[1:]:
            session.rest(words[1])
    return replies, session.end()


def fails(title, commands, wanted, found):
    """Where the replies differ, by the command's words."""
    lines = [f"{title}: {shlex.join(words)}: pipe {one.hex()}, serve {other.hex()}"
             for words, one, other in zip(commands, wanted[0], found[0]) if one != other]
    if wanted[1] != found[1]:
        lines.append(f"{title}: pipe ends with {wanted[1]}, serve with {found[1]}")
    return lines


def served(program, schedulers, commands):
    session = Serve(program, schedulers)
    try:
        return told(session, commands)
    finally:
        session.process.kill()
        session.process.wait()


def case(program, tries, schedulers, title, text):
    """The commands, the replies of `pipe`, and what differs."""
    lines = [shlex.split(line.strip()) for line in re.split("[;\n]", text) if line.strip()]
    commands = [words for words in lines if words[0] != "rest"]
    wanted = told(Pipe(program), lines)
    for _ in range(tries if title.startswith("early") else 1):
        missed = fails(title, commands, wanted, served(program, schedulers, lines))
        if not missed:
            break
    return commands, wanted[0], missed


def rows():
    """The rows of kind `session` with one session over a device that gives and takes whole: the bytes that are given and written, the name
    of the failure, and whether the replies of `serve` are the same: no process runs, and no clock is set."""
    names = {}

    def spelled(text):
        text = re.sub("⟨([0-9]+)×(.*?)⟩", lambda found: int(found[1]) * found[2].strip("x"), text)
        return re.sub("«(.*?)»", lambda found: spelled(names[found[1]]), text)

    for number, line in enumerate((DATA / "sessions.txt").read_text().splitlines(), 1):
        kind, *columns = line.split("\t")
        if kind == "define":
            names[columns[0]] = columns[1]
        if kind == "session" and columns[0] == "whole":
            given, (wanted, _, end) = bytes.fromhex(spelled(columns[1])), spelled(columns[2]).partition(" ")
            end = end.split()[0].partition("(")[0].replace("Served", "")
            is_same = "STARTED" not in columns[2] and "ED»0000000502" not in columns[2] and "000000090A" not in columns[1]
            # a socket that is closed before all was read may lose what was written
            is_same = is_same and (not end or len(given) < 4096)
            yield f"line {number} of sessions.txt", given, bytes.fromhex(wanted), end, is_same


def spoken(session, given):
    """The bytes that are written where these bytes are given, and the name of the failure."""
    with contextlib.suppress(BrokenPipeError):
        session.send(given)
    written, _, failure = session.end()
    return written, failure


def row(program, title, given, wanted, end, is_same):
    """How many replies were compared, and what differs."""
    programs = {"pipe": lambda: Pipe(program)} | ({"serve": lambda: Serve(program, 4)} if is_same else {})
    missed = []
    for name, start in programs.items():
        found = spoken(start(), given)
        if found != (wanted, end):
            missed.append(f"{title}: wanted {wanted.hex()} {end}, {name} {found[0].hex()} {found[1]}")
    return len(programs) * count_of(wanted), missed


def count_of(written):
    count = 0
    while written:
        written = written[4 + int.from_bytes(written[:4], "big"):]
        count += 1
    return count


def is_busy(program):
    """Whether rows of a process that is checked out are refused as `Busy`, which `pipe` never answers."""
    session = Serve(program, 1)
    try:
        session.ask(["load", "s.beam"])
        session.ask(["spawn", "s:loop", "[1000000000]"])
        return any(session.ask(["steps", "1", "1"]) == bytes.fromhex("000000020606") for _ in range(1000))
    finally:
        session.process.kill()
        session.process.wait()


def make_files(beamas):
    """The files that the cases load, in the present folder."""
    pathlib.Path("s.S").write_text(LISTING)
    pathlib.Path("erlang.S").write_text(STICKY)
    for name in ("server1", "server2"):
        pathlib.Path(f"{name}.S").write_text((DATA / "stories" / f"{name}.S").read_text())
    for name in ("s", "erlang", "server1", "server2"):
        subprocess.run([beamas, f"{name}.S", f"{name}.beam"], check=True)
    t = (ROOT / "examples" / "t.beam").read_bytes()
    pathlib.Path("t.beam").write_bytes(t)
    pathlib.Path("none.beam").write_bytes(b"")
    pathlib.Path("literals.beam").write_bytes((DATA / "otp" / "x01_refused.beam").read_bytes())
    for change in re.findall("[0-9]+=[0-9A-F]{2}", CASES["files that can't be loaded"]):
        at, value = change.split("=")
        pathlib.Path(change).write_bytes(t[:int(at)] + bytes.fromhex(value) + t[int(at) + 1:])


def main():
    parser = argparse.ArgumentParser(description=__doc__, formatter_class=argparse.RawDescriptionHelpFormatter)
    parser.add_argument("--tries", type=int, default=200)
    parser.add_argument("--beamas", type=os.path.abspath, default=str(ROOT / "crates/beamas/out/beamas"))
    parser.add_argument("beamnode", nargs="?", type=os.path.abspath, default=str(ROOT / "crates/beamnode/out/beamnode"))
    given = parser.parse_args()
    missed, of_rows, of_cases, seen = [], 0, 0, set()
    with tempfile.TemporaryDirectory() as folder:
        os.chdir(folder)
        make_files(given.beamas)
        for values in rows():
            count, differs = row(given.beamnode, *values)
            of_rows, missed = of_rows + count, missed + differs
        for title, text in CASES.items():
            for schedulers in (1, 4):
                commands, replies, differs = case(given.beamnode, given.tries, schedulers, title, text)
                seen |= {f"command {KINDS[words[0]][0]}" for words in commands if words[0] in KINDS}
                seen |= {f"reply {reply[4]}" if reply[4] not in (6, 7) else f"reply {reply[4]} {reply[5]}" for reply in replies}
                of_cases, missed = of_cases + len(replies), missed + differs
        if not is_busy(given.beamnode):
            missed.append("no steps of a process that is checked out were refused as Busy")
        os.chdir(ROOT)
    wanted = [f"command {kind}" for kind in range(1, 19)] + [f"reply {kind}" for kind in (*range(6), 8)]
    wanted += [f"reply 6 {number}" for number in (2, 3, 4, 5, 7, 8, 9, 11, 12)] + [f"reply 7 {number}" for number in (1, 2, 3)]
    missed += [f"no {it}" for it in wanted if it not in seen]
    print(f"{of_rows} replies of rows and {of_cases} of `serve` beside those of `pipe`: {len(missed)} differences")
    print(*missed, sep="\n", end="" if not missed else "\n")
    sys.exit(bool(missed))


if __name__ == "__main__":
    main()
