#!/usr/bin/env python3
"""Commands to a node that `beamnode serve` runs, with the answers in words.

    $ beamctl.py --port 4000 load examples/t.beam
    current 1, old none
    $ beamctl.py --port 4000 call t:sum '[4]'
    10
    $ beamctl.py --port 4000 spawn t:sum '[9]'
    <0.2.0>
    $ beamctl.py --port 4000 wait 2
    <0.2.0> ended normal
    $ beamctl.py --socket /run/kanguriwe/node stop
    stopped

Without a command it reads commands from standard input, a line each, in one session; on a terminal each line is a session,
so that others get in meanwhile. A process is its number or <0.NUMBER.0>. Terms are Erlang text: integers, atoms, strings,
tuples, lists and pids. After `call`, `ask` and `kill` the node has the module beamctl_helper, whose file is in beamctl's folder.

Status 0: the node did what was asked. 1: it refused, nothing came in time, or the connection or a file failed; the refusal's
name is on standard error. 2: a wrong command line. 3: the function that was called raised an exception.

After `no reply within N seconds` the command may still be done; after `no first reply within N seconds` it wasn't sent. The
protocol is in docs/PROTOCOL.md. beamctl needs Python 3.10 and its standard library alone.
"""

import argparse
import collections
import json
import math
import os
import re
import resource
import struct
import sys
import time
from collections.abc import Iterator, Sequence

from beamclient import (
    FRAME_ERRORS, LONGEST_FRAME, PIPELINED, REFUSALS, Answer, Failed, Reply, Session, TermReader, answer, atom, connect, integer,
    list_of, pid, pid_text, term, tuple_of, utf8, whole)

MOST_PROCESSES = 2**28 - 1
HELPER = "beamctl_helper"
HELPER_FILE = os.path.join(os.path.dirname(os.path.realpath(__file__)), HELPER + ".beam")
SECONDS_FOR_A_REPLY = 10.0
SECONDS_FOR_AN_ANSWER = 5.0
SECONDS_FOR_AN_END = 10.0
# The greatest time that a process can wait for, apart from infinity.
MOST_MILLISECONDS = 2**32 - 1
TOO_LONG = "too long to show"
# What the refusal of Steps says of a live process.
STATES = {"Stopped": "held", "NotReady": "waiting", "Busy": "running"}
STACK = 2**26


# ---- Words of the command line


def unsigned(text: str, size: int) -> bytes:
    if not re.fullmatch("[0-9]{1,20}", text) or int(text) >= 256**size:
        raise ValueError(f"{text} is no number from 0 to 2^{8 * size}-1")
    return int(text).to_bytes(size, "big")


def port(text: str) -> int:
    return int.from_bytes(unsigned(text, 2), "big")


def seconds(text: str) -> float:
    value = float(text)
    if not 0 < value < math.inf:
        raise ValueError(text)
    return value


def time_limit(text: str) -> float:
    """Seconds, or infinity for `none` or 0."""
    try:
        value = math.inf if text == "none" else float(text)
    except ValueError:
        value = math.nan
    if not value >= 0:
        raise argparse.ArgumentTypeError(f"{text} is neither seconds nor none")
    return value or math.inf


def process_number(text: str) -> bytes:
    """A process, as 7 or <0.7.0>, in four bytes."""
    found = re.fullmatch(r"<0\.([0-9]+)\.0>", text)
    if not found and not re.fullmatch("[0-9]+", text):
        raise ValueError(f"{text} is no process: a number, or <0.NUMBER.0>")
    return unsigned(found[1] if found else text, 4)


def process_pid(text: str) -> bytes:
    return pid(int.from_bytes(process_number(text), "big"))


# Texts that are read as a process, and not as a name.
IS_PROCESS = re.compile("[0-9]+$|<0")


def receiver(text: str) -> bytes:
    """A process, or the characters of a name."""
    return process_pid(text) if IS_PROCESS.match(text) else atom(text)


def function(text: str) -> tuple[bytes, bytes]:
    """The atoms of MODULE:FUNCTION."""
    module, colon, name = text.partition(":")
    if not colon or not module or not name:
        raise ValueError(f"{text} isn't MODULE:FUNCTION")
    return atom(module), atom(name)


def arguments(text: str) -> bytes:
    """A list of arguments, given with its brackets."""
    if not text.lstrip().startswith(("[", '"')):
        raise ValueError(f"{text} is no list of arguments: [4] for one argument")
    return term(text)


def contents(path: str) -> bytes:
    # At the prompt quotes keep a name with blanks together.
    path = path[1:-1] if len(path) > 1 and path[0] == path[-1] == '"' else path
    with open(path, "rb") as file:
        return file.read(LONGEST_FRAME)


# ---- The protocol's commands


def spawn_body(text: str, given: str) -> bytes:
    return whole(tuple_of(*function(text), arguments(given)))


def send_body(to: str, message: str) -> bytes:
    return whole(tuple_of(receiver(to), term(message)))


SPOT_TEXT = re.compile("(current|old):(.*):(-?[0-9]{1,20}):(-?[0-9]{1,20})", re.DOTALL)


def spot_body(text: str) -> bytes:
    found = SPOT_TEXT.fullmatch(text)
    if not found:
        raise ValueError(f"{text} isn't MODULE:FUNCTION/ARITY, current:MODULE:LABEL:ROWS or old:MODULE:LABEL:ROWS")
    version, module, label, rows = found.groups()
    return whole(tuple_of(atom(version), atom(module), integer(int(label)), integer(int(rows))))


MODES = ["strict", "soft", "hard"]


def upgrade_body(mode: str, *paths: str) -> bytes:
    files = [contents(path) for path in paths]
    return bytes([MODES.index(mode)]) + struct.pack(">I", len(files)) + b"".join(struct.pack(">I", len(file)) + file for file in files)


# The kind of each, and what makes a frame's body of its words.
FRAMES = {
    "load": (1, contents), "delete": (3, utf8), "soft_purge": (4, utf8), "purge": (5, utf8),
    "spawn": (6, spawn_body), "send": (7, send_body),
    "steps": (8, lambda process, rows: process_number(process) + unsigned(rows, 4)),
    "deliver": (9, process_number), "clock": (10, lambda text: unsigned(text, 8)), "timeout": (11, process_number),
    "break": (12, spot_body), "clear": (13, spot_body), "resume": (14, process_number), "step": (15, process_number),
    "inspect": (16, process_number), "versions": (17, utf8), "atomic": (18, upgrade_body),
}


# ---- Labels of functions, for break spots


def chunks(file: bytes) -> Iterator[tuple[bytes, bytes]]:
    at = 12
    while at + 8 <= len(file):
        size = int.from_bytes(file[at + 4 : at + 8], "big")
        yield file[at : at + 4], file[at + 8 : at + 8 + size]
        at += 8 + (size + 3) // 4 * 4


def atoms_of(table: Reply) -> list[str]:
    names = []
    for _ in range(table.number(4)):
        names.append(table.take(table.number(1)).decode())
    return names


def labels_of_file(file: bytes) -> dict[tuple[str, int], int]:
    """The entry labels of the functions in a file's tables: those that are exported, and with LocT the others."""
    parts = dict(chunks(file))
    names = atoms_of(Reply(parts[b"AtU8"]))
    labels = {}
    for part in (b"ExpT", b"LocT"):
        table = Reply(parts.get(part, b"\0\0\0\0"))
        for _ in range(table.number(4)):
            name, arity, label = table.number(4), table.number(4), table.number(4)
            labels[names[name - 1], arity] = label
    return labels


LISTED = re.compile(r"^\{function,\s*(.+),\s*([0-9]+),\s*([0-9]+)\}\.", re.MULTILINE)


def labels_of_listing(text: str) -> dict[tuple[str, int], int]:
    return {(name.strip("'"), int(arity)): int(label) for name, arity, label in LISTED.findall(text)}


def entry_label(path: str, name: str, arity: int) -> int:
    file = contents(path)
    try:
        labels = labels_of_file(file) if file.startswith(b"FOR1") else labels_of_listing(file.decode())
    except (Failed, KeyError, IndexError, ValueError):
        raise Failed(f"{path}: no file or listing of a module") from None
    if (name, arity) not in labels:
        raise Failed(f"{path}: {name}/{arity} isn't among its functions: a file has the exported ones, its listing (.S) all")
    return labels[name, arity]


# ---- Commands


class NotEnded(Failed):
    """A process that hasn't ended in time."""


class Client:
    """A session, what this program knows of the node, and how long it waits for what a command wants, if --timeout says so:
    infinity for no end, None if it doesn't."""

    def __init__(self, session: Session):
        self.session = session
        self.limit: float | None = None
        self.files: dict[str, str] = {}
        self.has_helper = False

    def set_limit(self, given: float | None) -> None:
        """Takes what --timeout says."""
        self.limit = given
        limit = SECONDS_FOR_A_REPLY if given is None else given
        self.session.timeout = None if limit == math.inf else limit

    def ask(self, kind: int, body: bytes) -> Answer:
        return answer(kind, self.session.ask(kind, body))

    def state(self, number: bytes) -> str:
        """The state of a process, `ended` also for one that was never started. It asks for Steps of no rows, which changes nothing and
        makes no view: that of a large state takes long, holds the node up meanwhile, and may be too long for a reply."""
        try:
            self.ask(8, number + bytes(4))
        except Failed as fault:
            if fault.error == REFUSALS[2]:
                return "ended"
            if fault.error not in STATES:
                raise
            return STATES[fault.error]
        return "running"

    def ended(self, number: bytes) -> dict:
        """The view of a process that has ended; its reason is None if that is too long. Raises NoProcess if it was never started."""
        try:
            return self.ask(16, number).value
        except Failed as fault:
            if fault.error != FRAME_ERRORS[1]:
                raise
        return {"pid": pid_text(int.from_bytes(number, "big")), "state": "ended", "reason": None}

    def see_alive(self, number: bytes) -> str:
        """The state of a process that hasn't ended."""
        if (state := self.state(number)) == "ended":
            raise Failed("NoProcess", f"NoProcess: {self.ended(number)['pid']} has ended")
        return state

    def wait(self, number: bytes, limit: float) -> dict:
        """The view of a process when it has ended. It asks again after pauses that grow to a second; in longer ones it ends
        its session, so that others can be served. If its place is taken then, it tries again."""
        end = time.monotonic() + limit
        pause = 0.002
        state = self.state(number)
        while state != "ended":
            if time.monotonic() >= end:
                raise NotEnded(f"{pid_text(int.from_bytes(number, 'big'))} hasn't ended within {limit:g} seconds")
            if pause > 0.1:
                self.session.leave()
            time.sleep(max(0.0, min(pause, end - time.monotonic())))
            pause = min(pause * 1.5, 1.0)
            try:
                state = self.state(number)
            except Failed as fault:
                if fault.error != "NoPlace":
                    raise
        return self.ended(number)

    def load_helper(self) -> None:
        """Loads the helper module, if the node has no current code of it. Old code is removed first, unless a process lingers in it."""
        if self.has_helper:
            return
        if not self.ask(17, HELPER.encode()).value["current"]:
            self.ask(4, HELPER.encode())
            try:
                self.ask(2, contents(HELPER_FILE))
            except OSError as fault:
                raise Failed(f"{HELPER_FILE}: {fault.strerror}") from None
        self.has_helper = True

    def start(self, module: bytes, name: bytes, given: bytes) -> bytes:
        """The number of a new process."""
        reply = self.session.ask(6, whole(tuple_of(module, name, given)))
        answer(6, reply)
        return reply[1:5]

    def value(self, name: str, given: list[bytes], limit: float) -> str:
        """The value that a function of the helper module returns, in a process of its own. Raises Failed for an exception."""
        self.load_helper()
        reason = self.wait(self.start(atom(HELPER), atom(name), list_of(given)), limit)["reason"]
        if reason is None:
            raise Failed(FRAME_ERRORS[1])
        found = re.fullmatch(r"\{(returned|error|exit|throw),(.*)\}", reason, re.DOTALL)
        if found and found[1] == "returned":
            return found[2]
        kind, reason = found.groups() if found else ("exit", reason)
        raise Failed(kind, f"{kind}: {reason}", 3, reason=reason)

    def native(self, name: str, *given: bytes, badarg: str = "badarg") -> str:
        """The value of a function of module erlang, called by a process of the node; badarg is what its badarg means."""
        try:
            return self.value("call", [atom("erlang"), atom(name), list_of(list(given))], self.session.timeout or math.inf)
        except NotEnded:
            raise self.session.no_reply() from None
        except Failed as fault:
            if fault.more == {"reason": "badarg"}:
                raise Failed(badarg.split(":")[0], badarg) from None
            raise

    def started(self) -> int:
        """How many processes were started. It looks at the processes whose numbers are powers of two, and then
        halves the interval between the last one that is there and the next."""
        low, high = 0, MOST_PROCESSES + 1
        powers = [2**power for power in range(28)]
        for number, seen in zip(powers, self.views(powers)):
            low, high = (number, high) if seen else (low, min(high, number))
        while high - low > 1:
            middle = (low + high) // 2
            (seen,) = self.views([middle])
            low, high = (middle, high) if seen else (low, middle)
        return low

    def views(self, numbers: Sequence[int]) -> Iterator[dict | None]:
        """The views of processes; None for a process that was never started. Of one whose view is too long it is the pid, with None for
        the state. The node ends the session then, and those after it come over a new one."""
        frames = ((16, number.to_bytes(4, "big")) for number in numbers)
        for number, reply in zip(numbers, self.session.ask_all(frames, may_repeat=True)):
            try:
                yield answer(16, reply).value
            except Failed as fault:
                if fault.error == FRAME_ERRORS[1]:
                    yield {"pid": pid_text(number), "state": None}
                elif fault.error == REFUSALS[2]:
                    yield None
                else:
                    raise

    def look(self, numbers: Sequence[int]) -> list[tuple[int, dict]]:
        """The processes that were started, with their views. Of one whose view is too long it has the pid, the state, and None for where
        it is or why it ended."""
        found = [(number, seen) for number, seen in zip(numbers, self.views(numbers)) if seen]
        for number, seen in found:
            if seen["state"] is None:
                seen["state"] = self.state(number.to_bytes(4, "big"))
                seen["reason" if seen["state"] == "ended" else "at"] = None
        return found


# Each command is a generator of answers, of the client and what the command line gave.


def plain(name: str, *words: str):
    """A command of the protocol, of these words of the command line."""
    kind, body = FRAMES[name]

    def run(client: Client, given):
        yield client.ask(kind, body(*(getattr(given, word) for word in words)))
    return run


def remember(client: Client, path: str, file: bytes) -> None:
    """Notes that the module in the file was loaded from it."""
    try:
        client.files[atoms_of(Reply(dict(chunks(file))[b"AtU8"]))[0]] = path
    except (Failed, KeyError, IndexError, ValueError):
        pass


def load(client: Client, given):
    for path in given.file:
        file = contents(path)
        yield client.ask(2 if given.strict else 1, file)
        remember(client, path, file)


def atomic(client: Client, given):
    kind, body = FRAMES["atomic"]
    yield client.ask(kind, body(given.mode, *given.file))
    for path in given.file:
        remember(client, path, contents(path))


def call(client: Client, given):
    module, name = function(given.function)
    value = client.value("call", [module, name, arguments(given.arguments)], client.limit or math.inf)
    yield Answer(value, {"value": value})


def ask(client: Client, given):
    """Sends {Self, MESSAGE}, or MESSAGE alone if Self occurs in it, and waits for the first message that comes back."""
    read = TermReader(given.message, "$self")
    message = read.term if read.met_self else tuple_of(atom("$self"), read.term)
    if IS_PROCESS.match(given.to):
        client.see_alive(process_number(given.to))
    limit = client.limit or SECONDS_FOR_AN_ANSWER
    milliseconds = atom("infinity") if limit == math.inf else integer(min(round(limit * 1000), MOST_MILLISECONDS))
    try:
        value = client.value("ask", [receiver(given.to), message, milliseconds], limit + SECONDS_FOR_AN_ANSWER)
    except Failed as fault:
        if fault.more == {"reason": "timeout"}:
            raise Failed(f"no answer from {given.to} within {limit:g} seconds") from None
        if fault.more == {"reason": "badarg"}:
            raise Failed(REFUSALS[2]) from None
        raise
    yield Answer(value, {"value": value})


def wait(client: Client, given):
    for number in [process_number(text) for text in given.process]:
        seen = client.wait(number, client.limit or math.inf)
        yield Answer(f"{seen['pid']} ended {seen['reason'] or 'with a reason that is ' + TOO_LONG}", seen)


def kill(client: Client, given):
    number, reason = process_number(given.process), term(given.reason)
    state = client.see_alive(number)
    client.native("exit", process_pid(given.process), reason)
    yield Answer("done: it is held, and takes the signal after resume" if state == "held" else "done", "done")


NAME_FAULT = "badarg: the name is taken, or the process has a name"


def register(client: Client, given):
    client.see_alive(process_number(given.process))
    client.native("register", atom(given.name), process_pid(given.process), badarg=NAME_FAULT)
    yield Answer("done", "done")


def unregister(client: Client, given):
    client.native("unregister", atom(given.name), badarg=REFUSALS[2])
    yield Answer("done", "done")


def whereis(client: Client, given):
    value = client.native("whereis", atom(given.name))
    yield Answer(value, {"pid": None if value == "undefined" else value})


def break_spot(name: str):
    kind, body = FRAMES[name]

    def run(client: Client, given):
        yield client.ask(kind, body(spot_text(client, given)))
    return run


def spot_text(client: Client, given) -> str:
    """A spot by numbers: the first row after the label that a module's file has for M:F/A."""
    named = re.fullmatch("([^:]+):(.+)/([0-9]{1,3})", given.spot, re.DOTALL)
    if SPOT_TEXT.fullmatch(given.spot) or not named:
        return given.spot
    module, name, arity = named.groups()
    label = entry_label(given.file or client.files.get(module, module + ".beam"), name, int(arity))
    return f"current:{module}:{label}:0"


COLUMNS = [("PID", "pid"), ("STATE", "state"), ("MAILBOX", "mailbox"), ("TRANSIT", "transit"), ("AT", "at")]


def cell(value: object) -> str:
    return TOO_LONG if value is None else str(value)


def table(columns: list[tuple[str, str]], seen: list[dict]) -> str:
    rows = [[title for title, _ in columns], *([cell(line.get(key, "")) for _, key in columns] for line in seen)]
    widths = [max(map(len, column)) for column in zip(*rows)]
    return "\n".join("  ".join(map(str.ljust, row, widths)).rstrip() for row in rows)


def with_end(seen: dict) -> dict:
    """A view in which an ended process has its reason for its place."""
    return {**seen, "at": seen["reason"]} if seen["state"] == "ended" else seen


def ps(client: Client, given):
    count = client.started()
    first = max(1, count - given.last + 1) if given.last else 1
    seen = [seen for _, seen in client.look(range(first, count + 1)) if given.all or seen["state"] != "ended"]
    if first > 1:
        print(f"beamctl: {count} processes were started; these are of the last {given.last} (--last 0: of all)", file=sys.stderr)
    yield Answer(table(COLUMNS, [with_end(line) for line in seen]), seen)


def may_linger(seen: dict, instance: int) -> bool:
    """Whether a live process's place or a frame's return place lies in that instance. They may, if they are too long to show."""
    if seen["at"] is None:
        return True
    return any(place.endswith(f" instance {instance}") for place in [seen["at"], *(frame["return"] for frame in seen["frames"])])


def lingers(client: Client, given):
    """The processes that are in old code or return to it, and those that are too long to show. Catch tags and places after timeouts
    aren't shown."""
    old = client.ask(17, utf8(given.module)).value["old"]
    found = client.look(range(1, client.started() + 1)) if old else []
    seen = [line for _, line in found if line["state"] != "ended" and may_linger(line, old)]
    yield Answer(table(COLUMNS, seen), seen)


def top(client: Client, given):
    """Looks at the live processes again and again, and shows in which share of the looks each was running."""
    count = client.started()
    live = list(range(max(1, count - given.last + 1) if given.last else 1, count + 1))
    looks, ran = collections.Counter(), collections.Counter()
    turn = 0
    while True:
        asked = live + list(range(count + 1, count + PIPELINED + 1))
        found = client.look(asked)
        count = max([count, *(number for number, _ in found)])
        found = [(number, seen) for number, seen in found if seen["state"] != "ended"]
        live = [number for number, _ in found]
        for number, seen in found:
            looks[number] += 1
            ran[number] += seen["state"] == "running"
            seen["ran"] = f"{round(100 * ran[number] / looks[number])}%"
        yield top_answer([seen for _, seen in found], given.lines)
        turn += 1
        if turn == given.count:
            return
        client.session.leave()
        time.sleep(given.interval)


def top_answer(seen: list[dict], lines: int) -> Answer:
    states = collections.Counter(line["state"] for line in seen)
    head = f"{len(seen)} processes" + "".join(f", {count} {state}" for state, count in sorted(states.items()))
    seen.sort(key=lambda line: (-line.get("mailbox", 0) - line.get("transit", 0), -int(line["ran"][:-1])))
    text = table([COLUMNS[0], ("RAN", "ran"), *COLUMNS[1:]], seen[:lines])
    clear = "\x1b[H\x1b[2J" if sys.stdout and sys.stdout.isatty() else ""
    return Answer(f"{clear}{head}\n{text}\n", {"processes": len(seen), **states, "top": seen[:lines]})


# ---- The end of a node, for which the socket beside its own, or the port of its page, is asked by HTTP


def http(address: int | str, request: str, fields: str, timeout: float | None) -> tuple[int, str]:
    """The status of the answer to a request over the Unix socket of that path, or over that port, and the answer's text."""
    host = f"localhost:{address}" if isinstance(address, int) else "localhost"
    with connect(address, timeout) as connection, connection.makefile("rb") as reply:
        connection.sendall(f"{request} HTTP/1.1\r\nHost: {host}\r\n{fields}\r\n".encode())
        head, _, body = reply.read(LONGEST_FRAME).partition(b"\r\n\r\n")
    found = re.match(rb"HTTP/1\.[01] ([0-9]{3})\b", head)
    if not found:
        raise Failed("a reply that can't be read")
    return int(found[1]), body.decode(errors="replace").strip()


def what_is_left(address: int | str, timeout: float) -> str | None:
    """What a node that is to end still does, in its words; None if it has ended."""
    try:
        return http(address, "GET /readyz", "", timeout)[1]
    except (FileNotFoundError, ConnectionRefusedError):
        return None
    except (OSError, Failed):
        # It ended while it was asked, or is too busy to answer.
        return ""


def stop_address(client: Client, given) -> int | str:
    """Where the node is asked to stop: at the port of its page, or at the socket beside its own."""
    if given.http is not None:
        return given.http
    if isinstance(client.session.address, int):
        raise WrongWords("stop needs --socket, or --http")
    return client.session.address + ".http"


def token_field(name: str | None) -> str:
    """The field of a request with the token of that file."""
    if name is None:
        return ""
    with open(name, encoding="ascii") as file:
        return f"Authorization: Bearer {file.read().strip()}\r\n"


def stop(client: Client, given):
    address = stop_address(client, given)
    fields = "X-Kanguriwe: 1\r\nContent-Length: 0\r\n" + token_field(given.http_token)
    client.session.leave()
    try:
        status, said = http(address, "POST /stop", fields, client.session.timeout)
    except TimeoutError:
        raise client.session.no_reply() from None
    except OSError as fault:
        raise Failed(f"{address}: {fault.strerror or fault}") from None
    if status != 202:
        raise Failed(f"{address}: {status} {said}")
    end, said = time.monotonic() + given.wait, ""
    while (left := what_is_left(address, max(1.0, end - time.monotonic()))) is not None:
        said = left or said
        if time.monotonic() >= end:
            raise Failed(f"the node hasn't ended within {given.wait:g} seconds" + (f": {said}" if said else ""))
        time.sleep(0.05)
    yield Answer("stopped", "stopped")


# ---- The command line


class WrongWords(Exception):
    """What is wrong with the words, and the usage, if it helps."""

    def __init__(self, what: str, usage: str = ""):
        super().__init__(f"beamctl: {what}")
        self.usage = usage


class Words(argparse.ArgumentParser):
    def error(self, message: str):
        raise WrongWords(message, self.format_usage())


def whole_number(text: str) -> int:
    return int.from_bytes(unsigned(text, 4), "big")


SPOT = ("spot", {"metavar": "M:F/A", "help": "the function's first row; or current:MODULE:LABEL:ROWS, so many rows after a label"})
SPOT_FILE = ("--file", {"help": "the module's file or listing, in which the function's label is; MODULE.beam if left out"})
PROCESS = ("process", {"metavar": "PID"})
FUNCTION = ("function", {"metavar": "M:F"})
ARGUMENTS = ("arguments", {"metavar": "LIST", "nargs": "?", "default": "[]", "help": "as [4], or ['\"text\"'] in a shell"})
MODULE = ("module", {"metavar": "MODULE"})
NAME = ("name", {"metavar": "NAME"})
LAST = ("--last", {"type": whole_number, "default": 10_000, "metavar": "N", "help": "of the last N that were started (0: of all)"})
NOT_HERE = "; for nodes without schedulers: here it is mostly NotReady, Busy or BackwardClock"

COMMANDS = [
    ("ps", ps, "the live processes; a look at each is an entry of the journal",
     [("--all", {"action": "store_true", "help": "also those that have ended"}), LAST]),
    ("top", top, "the same again and again, the fullest mailboxes first",
     [("--interval", {"type": seconds, "default": 1.0, "metavar": "SECONDS"}),
      ("--count", {"type": whole_number, "default": 0, "metavar": "N", "help": "looks (0: no end)"}),
      ("--lines", {"type": whole_number, "default": 20, "metavar": "N"}), LAST]),
    ("lingers", lingers, "the processes that are in a module's old code or return to it, or are too long to show", [MODULE]),
    ("inspect", plain("inspect", "process"), "a process: registers, frames, mailbox", [PROCESS]),
    ("load", load, "make the files' modules current; what was current becomes old",
     [("file", {"metavar": "FILE", "nargs": "+"}), ("--strict", {"action": "store_true", "help": "refuse where there is old code"})]),
    ("atomic", atomic, "make the modules of all files current together, in their order, or none",
     [("file", {"metavar": "FILE", "nargs": "+"}),
      ("--mode", {"choices": MODES, "default": "strict", "metavar": "MODE",
                  "help": "where a module has old code: strict (the default) refuses, soft removes it unless a process lingers in it, "
                          "hard removes it and ends those that linger"})]),
    ("versions", plain("versions", "module"), "the instances of a module", [MODULE]),
    ("delete", plain("delete", "module"), "make current code old", [MODULE]),
    ("soft_purge", plain("soft_purge", "module"), "remove old code if no process lingers in it", [MODULE]),
    ("purge", plain("purge", "module"), "remove old code and end the processes that linger in it", [MODULE]),
    ("call", call, "call a function and print its value", [FUNCTION, ARGUMENTS]),
    ("spawn", plain("spawn", "function", "arguments"), "start a process", [FUNCTION, ARGUMENTS]),
    ("wait", wait, "wait until processes have ended, and print why", [("process", {"metavar": "PID", "nargs": "+"})]),
    ("send", plain("send", "to", "message"), "send a message",
     [("to", {"metavar": "PID_OR_NAME"}), ("message", {"metavar": "TERM"})]),
    ("ask", ask, "send {Self, TERM}, or TERM if Self is in it, and print the first message that comes back",
     [("to", {"metavar": "PID_OR_NAME"}), ("message", {"metavar": "TERM"})]),
    ("kill", kill, "send an exit signal", [PROCESS, ("reason", {"metavar": "REASON", "nargs": "?", "default": "kill"})]),
    ("register", register, "give a process a name", [NAME, PROCESS]),
    ("unregister", unregister, "take a name away", [NAME]),
    ("whereis", whereis, "the process of a name", [NAME]),
    ("break", break_spot("break"), "hold each process that comes to a row", [SPOT, SPOT_FILE]),
    ("clear", break_spot("clear"), "no more hold processes there", [SPOT, SPOT_FILE]),
    ("step", plain("step", "process"), "run one row of a held process", [PROCESS]),
    ("resume", plain("resume", "process"), "let a held process go", [PROCESS]),
    ("steps", plain("steps", "process", "rows"), "run a process" + NOT_HERE,
     [PROCESS, ("rows", {"metavar": "ROWS"})]),
    ("deliver", plain("deliver", "process"), "deliver what is on its way to a process" + NOT_HERE, [PROCESS]),
    ("clock", plain("clock", "milliseconds"), "set the clock" + NOT_HERE, [("milliseconds", {"metavar": "MS"})]),
    ("timeout", plain("timeout", "process"), "wake a process whose deadline has come" + NOT_HERE, [PROCESS]),
    ("stop", stop, "end the node in good order, and wait until it has ended; it needs --socket, or --http and --http-token",
     [("--http", {"type": port, "metavar": "PORT", "help": "the port of its page"}),
      ("--http-token", {"metavar": "FILE", "help": "the file of the page's token"}),
      ("--wait", {"type": seconds, "default": SECONDS_FOR_AN_END, "metavar": "SECONDS", "help": "how long (10 if left out)"})]),
]


def add_options(parser: argparse.ArgumentParser, **more) -> None:
    parser.add_argument("--json", action="store_true", help="print each answer, or error, as a line of JSON", **more)
    parser.add_argument("--timeout", type=time_limit, metavar="SECONDS",
                        help="how long to wait for each reply (10 if left out), and for what wait, call and ask wait for (if left out: "
                             "ask 5, wait and call without end); 0 or none: without end", **more)


def add_commands(parser: argparse.ArgumentParser, **more) -> None:
    commands = parser.add_subparsers(metavar="COMMAND", **more)
    for name, run, about, words in COMMANDS:
        command = commands.add_parser(name, help=about, description=about)
        command.set_defaults(run=run)
        add_options(command, default=argparse.SUPPRESS)
        for word, settings in words:
            command.add_argument(word, **settings)


def command_line() -> Words:
    parser = Words(description=__doc__, formatter_class=argparse.RawDescriptionHelpFormatter)
    address = parser.add_mutually_exclusive_group(required=True)
    address.add_argument("--port", dest="address", type=port, metavar="PORT", help="where `beamnode serve` listens on 127.0.0.1")
    address.add_argument("--socket", dest="address", metavar="PATH", help="its Unix socket")
    add_options(parser)
    add_commands(parser)
    return parser


def show(value: Answer, as_json: bool) -> None:
    print(json.dumps(value.value) if as_json else value.text, flush=True)


def show_fault(fault: Failed, as_json: bool) -> None:
    if as_json:
        print(json.dumps({"error": fault.error, **fault.more}), flush=True)
    else:
        print(f"beamctl: {fault}", file=sys.stderr)


def run(client: Client, given) -> int:
    """Runs one command, and answers its status. Raises WrongWords."""
    client.set_limit(given.timeout)
    try:
        for found in given.run(client, given):
            show(found, given.json)
    except Failed as fault:
        show_fault(fault, given.json)
        return fault.status
    except RecursionError:
        raise WrongWords("a term that nests too deep") from None
    except (ValueError, OverflowError) as fault:
        raise WrongWords(str(fault)) from None
    except BrokenPipeError:
        raise
    except OSError as fault:
        show_fault(Failed(f"{fault.filename}: {fault.strerror}" if fault.filename else str(fault)), given.json)
        return 1
    return 0


def words_of(line: str) -> list[str]:
    """The words of a line: blanks part them, but for those in quotes and brackets. A # that begins a word begins a comment."""
    words, word, depth, quote = [], "", 0, ""
    signs = iter(line)
    for sign in signs:
        if quote:
            quote = "" if sign == quote else quote
            sign += next(signs, "") if sign == "\\" else ""
        elif sign in "'\"":
            quote = sign
        elif sign in "[{":
            depth += 1
        elif sign in "]}":
            depth -= 1
        elif sign == "#" and not word:
            break
        elif sign.isspace() and depth <= 0:
            words, word, sign = words + [word] * bool(word), "", ""
        word += sign
    return words + [word] * bool(word)


def is_terminal() -> bool:
    return sys.stdin is not None and sys.stdin.isatty()


def lines_of_input(client: Client) -> Iterator[str]:
    """Lines of standard input. While a person types there is no session, so that others can be served."""
    if not is_terminal():
        for line in sys.stdin or ():
            yield line
        return
    try:
        import readline  # noqa: F401: it edits the lines that input reads
    except ImportError:
        pass
    while True:
        client.session.leave()
        try:
            yield input("beamctl> ")
        except EOFError:
            print()
            return
        except KeyboardInterrupt:
            print()


def prompt(client: Client, settings) -> int:
    """Runs the commands, one a line. Answers the greatest of their statuses, or 0 on a terminal."""
    parser = Words("", description="A command a line. quit, or the end of the input, ends.", add_help=False)
    parser.set_defaults(json=settings.json, timeout=settings.timeout)
    add_commands(parser, required=True)
    worst = 0
    for line in lines_of_input(client):
        words = words_of(line)
        if words in (["quit"], ["exit"]):
            break
        if words == ["help"]:
            parser.print_help()
        elif words:
            worst = max(worst, do_line(client, parser, words))
    return 0 if is_terminal() else worst


def do_line(client: Client, parser: Words, words: list[str]) -> int:
    try:
        return run(client, parser.parse_args(words))
    except WrongWords as fault:
        print(fault, file=sys.stderr)
        return 2
    except SystemExit:
        return 0
    except KeyboardInterrupt:
        print()
        return 130


def main() -> int:
    # Terms nest 4,096 deep, and a call is some 500 bytes of stack in Python 3.10.
    sys.setrecursionlimit(30_000)
    most = resource.getrlimit(resource.RLIMIT_STACK)[1]
    if most == resource.RLIM_INFINITY or most > STACK:
        resource.setrlimit(resource.RLIMIT_STACK, (STACK, most))
    # A stream that is closed is None.
    for stream, errors in ((sys.stdin, "surrogateescape"), (sys.stdout, "backslashreplace"), (sys.stderr, "backslashreplace")):
        if stream:
            stream.reconfigure(errors=errors)
    try:
        given = command_line().parse_args()
        client = Client(Session(given.address, SECONDS_FOR_A_REPLY))
        return run(client, given) if hasattr(given, "run") else prompt(client, given)
    except WrongWords as fault:
        print(f"{fault.usage}{fault}", file=sys.stderr)
        return 2
    except KeyboardInterrupt:
        return 130
    except BrokenPipeError:
        # The reader of the output is gone; nothing is left to be flushed to it.
        os.dup2(os.open(os.devnull, os.O_WRONLY), sys.stdout.fileno())
        return 1


if __name__ == "__main__":
    sys.exit(main())
