#!/usr/bin/env python3
"""What clients/beamctl.py makes of replies: each refusal, frame error and fault of a file by its number, replies that are no
replies, and none at all, at each command and as the first reply of a connection; and what `stop` makes of the answers of a node's
socket for HTTP. Small servers in this process give them. Prints how many hold; status 1 names what doesn't."""

import contextlib
import io
import itertools
import json
import os
import random
import socket
import struct
import sys
import tempfile
import threading
import traceback

ROOT = os.path.join(os.path.dirname(os.path.abspath(__file__)), "..")
sys.dont_write_bytecode = True
sys.path.insert(0, os.path.join(ROOT, "clients"))
import beamctl  # noqa: E402

FILE = os.path.join(ROOT, "examples", "t.beam")


class Answers:
    """A server whose answer to each frame is what `reply` gives of the frame's kind; to the first one of a connection it is what
    `first` gives of how many connections there were. None is no answer. `body` is that of the last frame. Where it `drops`, answers
    that the system hasn't sent are lost when the server ends a connection, as they are where commands are unread."""

    def __init__(self):
        self.reply = lambda kind: b""
        self.first = lambda connections: REFUSED
        self.connections = 0
        self.body, self.drops = b"", False
        self.listener = socket.create_server(("127.0.0.1", 0))
        self.port = self.listener.getsockname()[1]
        threading.Thread(target=self.serve, daemon=True).start()

    def serve(self):
        while True:
            connection, _ = self.listener.accept()
            self.connections += 1
            with connection, contextlib.suppress(OSError), connection.makefile("rb") as frames:
                goes_on = frames.read(len(FIRST)) == FIRST and self.give(connection, self.first(self.connections))
                while goes_on and (length := int.from_bytes(frames.read(4), "big")):
                    kind, *self.body = frames.read(length)
                    goes_on = self.give(connection, self.reply(kind))
                if self.drops:
                    connection.setsockopt(socket.SOL_SOCKET, socket.SO_LINGER, struct.pack("ii", 1, 0))

    def give(self, connection, answer):
        """Whether the connection goes on after the answer."""
        connection.sendall(answer or b"")
        return answer is None or whole(answer) and answer[4] != 7


def whole(answer: bytes) -> bool:
    return len(answer) > 4 and int.from_bytes(answer[:4], "big") == len(answer) - 4


def frame(*body: int) -> bytes:
    return struct.pack(">I", len(body)) + bytes(body)


def control(address: int | str, words: list[str], timeout: str | None) -> tuple[object, str]:
    """The status, and what is printed; a traceback, if there is one."""
    printed = io.StringIO()
    printed.reconfigure = lambda **_: None
    option = "--port" if isinstance(address, int) else "--socket"
    sys.argv = ["beamctl.py", option, str(address), *(["--timeout", timeout] if timeout else []), *words]
    with contextlib.redirect_stdout(printed), contextlib.redirect_stderr(printed):
        try:
            status = beamctl.main()
        except BaseException:
            return "traceback", traceback.format_exc()
    return status, printed.getvalue()


# Resume of process 0, by which each connection has to begin.
FIRST = frame(14, 0, 0, 0, 0)
REFUSED = frame(6, 2)
COMMANDS = [
    ["load", FILE], ["load", "--strict", FILE], ["atomic", FILE, FILE], ["delete", "t"], ["soft_purge", "t"], ["purge", "t"], ["versions", "t"],
    ["spawn", "t:sum", "[4]"], ["send", "1", "a"], ["steps", "1", "1"], ["deliver", "1"], ["clock", "1"], ["timeout", "1"],
    ["break", "t:sum/1", "--file", FILE], ["clear", "current:t:1:1"], ["step", "1"], ["resume", "1"], ["inspect", "1"],
    ["call", "t:sum", "[4]"], ["ask", "1", "a"], ["kill", "1"], ["register", "a", "1"], ["unregister", "a"], ["whereis", "a"],
    ["wait", "1"], ["ps"], ["lingers", "t"], ["top", "--count", "1"],
]
# docs/PROTOCOL.md, Refusals and Frames.
REFUSALS = {
    1: "NoMemory", 2: "NoProcess", 3: "BackwardClock", 4: "NotReady", 5: "Stopped", 6: "Busy", 7: "Sticky", 8: "NotPurged",
    9: "Duplicated", 10: "JournalFull", 11: "BadSpot", 13: "TooMany", 14: "Stranger", 15: "refusal 15", 255: "refusal 255"}
FILE_FAULTS = {
    (1, 1): "NotForm", (1, 2): "Truncated", (1, 3): "CompressedFile", (1, 4): "DuplicateChunk",
    (2, 1): "MissingChunk", (2, 2): "BadTable", (2, 3): "CompressedLiterals", (2, 4): "BadLiteral",
    (3, 1): "UnsupportedOpcode", (3, 2): "BadOperand", (3, 3): "Truncated",
    (4, 1): "BadLabel", (4, 2): "BadHead", (4, 3): "BadExport", (4, 4): "UnknownBif", (4, 5): "LimitExceeded",
    (4, 6): "FrameMismatch",
    (0, 0): "fault", (1, 0): "fault", (9, 9): "fault", (2, 200): "fault"}
FRAME_ERRORS = {1: "TooLong", 2: "BadKind", 3: "BadCommand", 9: "frame error 9"}
# Bytes that aren't a reply: none, a cut length, a length of 0, a cut body, kinds that are none, a wrong kind, cut and wrong bodies.
BROKEN = [
    b"", b"\0\0", frame(), b"\0\0\0\5\1", b"\xff\xff\xff\xff\4", frame(8), frame(255), frame(0), frame(1), frame(2, 1), frame(3, 0),
    frame(3, 0, 0, 0, 1, 9), frame(3, 0, 0, 0, 1, 3), frame(3, 0, 0, 0, 1, 3, 131, 70), frame(3, 0, 0, 0, 1, 3, *[104, 1] * 20_000),
    frame(3, 0, 0, 0, 1, 3, 131, 119, 1, 255, 131, 106), frame(3, 0, 0, 0, 1, 3, 131, 90, 255, 255, 119, 1, 97), frame(4), frame(4, 255), frame(4, *b"pid x"), frame(4, *b"pid 1 running\n"),
    frame(4, *b"pid 1 running\n\n"), frame(4, *b"pid 1 running\ny0 = 1\n"), frame(4, *b"pid 1 running\nmailbox x\n"),
    frame(4, *b"pid 99999999999 ended a\n"), frame(5, 0), frame(6), frame(6, 12), frame(6, 12, 1), frame(7), frame(8, 0, 0, 0, 1),
    frame(8, 0, 0, 0, 1, 0, 0, 0, 2), frame(8, 255, 255, 255, 255)]


def main() -> int:
    server = Answers()
    count, failed = 0, 0

    def check(what: str, holds: bool, found) -> None:
        nonlocal count, failed
        count += 1
        if not holds:
            failed += 1
            print(f"{what}: {found}")

    def check_text(words: list[str], reply: bytes, text: str) -> None:
        server.reply = lambda kind: reply
        found = control(server.port, words, "30")
        check(f"{words[0]} of {text}", found == (1, f"beamctl: {text}\n"), found)

    for words in COMMANDS:
        for number, name in REFUSALS.items():
            # ps and top ask for processes until there is none, wait asks until the process has ended.
            if not (name == "NoProcess" and words[0] in ("ps", "top") or name in beamctl.STATES and words[0] == "wait"):
                check_text(words, frame(6, number), name)
    for (layer, number), name in FILE_FAULTS.items():
        check_text(["load", FILE], frame(6, 12, layer, number), f"BadFile: {name} ({layer},{number})")
    for number, name in FRAME_ERRORS.items():
        check_text(["versions", "t"], frame(7, number), name)

    random.seed(1)
    for words in COMMANDS:
        for reply in BROKEN:
            server.reply = lambda kind: reply
            found = control(server.port, words, "0.05")
            check(f"{words[0]} of {reply[:40].hex(' ')}", found[0] in (0, 1), found)
        for _ in range(40):
            replies = {}
            server.reply = lambda kind: replies.setdefault(
                kind, frame(beamctl_reply(kind), *random.randbytes(random.randrange(12))))
            found = control(server.port, words, "0.05")
            check(f"{words[0]} of {replies}", found[0] in (0, 1, 3), found)
    with tempfile.TemporaryDirectory() as folder:
        for name, (found, wanted) in {**without_replies(server), **over_sockets(folder)}.items():
            check(name, found == wanted, found)
    for _ in range(20):
        found = long_among_many(server)
        check("ps of processes that are too long to show", found == (COUNT, list(LONG)), found)
    print(f"ctl_replies: {count - failed} of {count} hold")
    return int(failed > 0)


NO_REPLY = "beamctl: no reply within 0.05 seconds: it may still be done\n"
NO_PLACE = "beamctl: no first reply within 0.05 seconds: nothing was sent that changes anything. All places may be taken\n"


def without_replies(server: Answers) -> dict[str, tuple[object, object]]:
    """By what is tried: what comes where a reply, or the first one, doesn't come, and what has to come."""
    checks = {}
    server.reply = lambda kind: None
    for words in COMMANDS:
        checks[f"{words[0]} without a reply"] = control(server.port, words, "0.05"), (1, NO_REPLY)
    checks["--json without a reply"] = control(server.port, ["--json", "ps"], "0.05"), (1, '{"error": "NoReply"}\n')
    server.first = lambda connections: None
    for words in COMMANDS:
        checks[f"{words[0]} without a first reply"] = control(server.port, words, "0.05"), (1, NO_PLACE)
    checks["--json without a first reply"] = control(server.port, ["--json", "ps"], "0.05"), (1, '{"error": "NoPlace"}\n')

    server.reply = lambda kind: frame(5, 0, 0, 0, 1, 0, 0, 0, 2)
    for reply in [*BROKEN, frame(7, 2), frame(0)]:
        server.first = lambda connections: reply
        status = 0 if reply[4:5] == b"\6" else 1
        checks[f"a first reply {reply[:40].hex(' ')}"] = control(server.port, ["versions", "t"], "0.05")[0], status

    # A process that waits, then two connections without a first reply, then it has ended.
    begun = server.connections
    server.first = lambda connections: None if 1 < connections - begun < 4 else REFUSED
    server.reply = lambda kind: (
        frame(6, 4) if server.connections == begun + 1 else REFUSED if kind == 8 else frame(4, *b"pid 1 ended normal\n"))
    beamctl.SECONDS_FOR_A_REPLY = 0.05
    checks["wait without a place meanwhile"] = control(server.port, ["wait", "1"], None), (0, "<0.1.0> ended normal\n")
    return checks


# What `stop` has to send.
STOP = b"POST /stop HTTP/1.1\r\nHost: localhost\r\nX-Kanguriwe: 1\r\nContent-Length: 0\r\n\r\n"
READY = b"GET /readyz HTTP/1.1\r\nHost: localhost\r\n\r\n"
STOPPING = 202, '{"stopping":true}'
LEFT = 503, "stopping: 2 sessions are open"


def http(status: int, text: str) -> bytes:
    return f"HTTP/1.1 {status} text\r\nContent-Length: {len(text)}\r\nConnection: close\r\n\r\n{text}".encode()


def give_http(path: str, answers) -> None:
    """Listens at a path and gives the answers, one a connection, the first of them to STOP and the others to READY. None is no answer.
    After the last one the socket refuses."""
    listener = socket.socket(socket.AF_UNIX)
    listener.bind(path)
    listener.listen()

    def serve():
        with listener:
            for wanted, answer in zip(itertools.chain([STOP], itertools.repeat(READY)), answers):
                connection, _ = listener.accept()
                with connection, contextlib.suppress(OSError):
                    if connection.recv(65536) != wanted:
                        connection.sendall(http(400, "another request"))
                    elif answer is None:
                        connection.recv(1)
                    else:
                        connection.sendall(answer)
    threading.Thread(target=serve, daemon=True).start()


def over_sockets(folder: str) -> dict[str, tuple[object, object]]:
    """By what is tried over a Unix socket: what comes, and what has to come."""
    forever = itertools.repeat(http(*LEFT))
    late = "the node hasn't ended within 0.2 seconds"
    tried = {
        "stop": ([http(*STOPPING), *[http(*LEFT)] * 3], ["stop"], "5", (0, "stopped\n")),
        "stop --json": ([http(*STOPPING)], ["stop", "--json"], "5", (0, '"stopped"\n')),
        "stop of a node that ends while it is asked": ([http(*STOPPING), b"", http(*LEFT)[:9], b"\xff" * 99], ["stop"], "5", (0, "stopped\n")),
        "stop of a node that doesn't end":
            (itertools.chain([http(*STOPPING)], forever), ["stop", "--wait", "0.2"], "5", (1, f"beamctl: {late}: {LEFT[1]}\n")),
        "stop --json of a node that doesn't end":
            (itertools.chain([http(*STOPPING)], forever), ["--json", "stop", "--wait", "0.2"], "5", (1, f'{{"error": "{late}: {LEFT[1]}"}}\n')),
        "stop of a node that says nothing more":
            (itertools.chain([http(*STOPPING)], itertools.repeat(None)), ["stop", "--wait", "0.2"], "5", (1, f"beamctl: {late}\n")),
        "stop without an answer": ([None], ["stop"], "0.05", (1, NO_REPLY)),
        "stop of what is no HTTP": ([b"220 ready\r\n"], ["stop"], "5", (1, "beamctl: a reply that can't be read\n")),
        "stop with an empty answer": ([b""], ["stop"], "5", (1, "beamctl: a reply that can't be read\n")),
        "stop that is refused": ([http(403, "no field")], ["stop"], "5", (1, "beamctl: PATH.http: 403 no field\n")),
    }
    checks = {}
    for number, (name, (answers, words, timeout, wanted)) in enumerate(tried.items()):
        path = os.path.join(folder, str(number))
        give_http(path + ".http", answers)
        status, text = control(path, words, timeout)
        checks[name] = (status, text.replace(path, "PATH")), wanted

    path = os.path.join(folder, "full")
    with contextlib.ExitStack() as stack:
        listener = stack.enter_context(socket.socket(socket.AF_UNIX))
        listener.bind(path)
        listener.listen(0)
        with contextlib.suppress(BlockingIOError):
            while True:
                waiting = stack.enter_context(socket.socket(socket.AF_UNIX))
                waiting.setblocking(False)
                waiting.connect(path)
        checks["a socket where too many wait"] = control(path, ["versions", "t"], "0.05"), (1, NO_PLACE)
    return checks


COUNT, LONG = 150, (1, 5, 70, 71, 72, 140)


def of_many(server: Answers) -> bytes:
    """The answer to Steps or Inspect where 150 processes wait, of which six are too long to show."""
    number = int.from_bytes(server.body[:4], "big")
    if number > COUNT:
        return REFUSED
    return frame(7, 1) if number in LONG else frame(4, *f"pid {number} waiting\nat a:b/0 label 1 + 0 instance 1\n".encode())


def long_among_many(server: Answers) -> tuple[int, list[int]]:
    """How many processes ps shows, and which of them as too long."""
    server.first, server.drops = lambda connections: REFUSED, True
    server.reply = lambda kind: frame(6, 4) if kind == 8 else of_many(server)
    status, text = control(server.port, ["--json", "ps"], "5")
    shown = json.loads(text) if status == 0 else []
    return len(shown), [at for at, line in enumerate(shown, 1) if line["at"] is None]


def beamctl_reply(kind: int) -> int:
    from beamclient import REPLIES

    return REPLIES.get(kind, 4)


if __name__ == "__main__":
    sys.exit(main())
