"""What a client of `beamnode serve` in Python needs: terms as bytes and as text, a session, and replies in words.

    session = Session(4000, timeout=None)
    print(answer(17, session.ask(17, b"t")).text)       current 1, old none

The first line asks for nothing; 17 is the command Versions of docs/PROTOCOL.md. 4000 is the node's port; the path of its Unix socket
may stand in that place, as text. beamctl.py is built of this. Needs Python 3.10 and its standard library alone.
"""

import collections
import contextlib
import dataclasses
import math
import re
import socket
import struct
import time
from collections.abc import Iterable, Iterator

LONGEST_FRAME = 8_388_608
# How many commands are sent before the first one's reply is read. They fit the buffers of any socket: a node that waits for its
# replies to be read reads no commands.
PIPELINED = 64
# What a connection begins with, kind and body: a Resume of process 0. No node has that process, so it is always refused, changes
# nothing and enters nothing in the journal, also where that is full.
FIRST_COMMAND = 14, bytes(4)
ENDED = "the node ended the session"

REFUSALS = dict(enumerate(
    ["NoMemory", "NoProcess", "BackwardClock", "NotReady", "Stopped", "Busy", "Sticky", "NotPurged", "Duplicated",
     "JournalFull", "BadSpot", "BadFile", "TooMany", "Stranger"], 1))
FILE_FAULTS = {
    1: ["NotForm", "Truncated", "CompressedFile", "DuplicateChunk"],
    2: ["MissingChunk", "BadTable", "CompressedLiterals", "BadLiteral"],
    3: ["UnsupportedOpcode", "BadOperand", "Truncated"],
    4: ["BadLabel", "BadHead", "BadExport", "UnknownBif", "LimitExceeded", "FrameMismatch"],
}
FRAME_ERRORS = {1: "TooLong", 2: "BadKind", 3: "BadCommand"}
# The kind of reply to each kind of command, where it isn't a refusal (6) or a frame error (7).
REPLIES = {1: 5, 2: 5, 3: 1, 4: 1, 5: 1, 6: 2, 7: 0, 8: 3, 9: 0, 10: 0, 11: 0, 12: 1, 13: 1, 14: 0, 15: 3, 16: 4, 17: 5,
           18: 8}
RESERVED = set(
    "after and andalso band begin bnot bor bsl bsr bxor case catch cond div else end fun if let maybe not of or orelse "
    "receive rem try when xor".split())


class Failed(Exception):
    """A request that failed: the name of the failure, its other fields, all of that in words, and a status."""

    def __init__(self, error: str, text: str = "", status: int = 1, **more):
        super().__init__(text or error)
        self.error, self.status, self.more = error, status, more


@dataclasses.dataclass
class Answer:
    """An answer in words, and what --json prints of it."""

    text: str
    value: object


# ---- External terms, without the 131 that begins a whole one


def integer(value: int) -> bytes:
    if 0 <= value < 256:
        return bytes([97, value])
    if -(2**31) <= value < 2**31:
        return struct.pack(">Bi", 98, value)
    if not -(2**59) <= value < 2**59:
        raise ValueError(f"{value} is outside of -2^59 to 2^59-1")
    digits = abs(value).to_bytes(8, "little").rstrip(b"\0")
    return bytes([110, len(digits), value < 0]) + digits


def atom(name: str) -> bytes:
    if len(name) > 255:
        raise ValueError("an atom has at most 255 characters")
    text = utf8(name)
    return (bytes([119, len(text)]) if len(text) < 256 else struct.pack(">BH", 118, len(text))) + text


def utf8(text: str) -> bytes:
    try:
        return text.encode()
    except UnicodeEncodeError:
        raise ValueError(f"{ascii(text)} is no UTF-8") from None


def pid(number: int, serial: int = 0) -> bytes:
    if max(number, serial) >= 2**32:
        raise ValueError(f"<0.{number}.{serial}> is no pid")
    return bytes([88]) + atom("nonode@nohost") + struct.pack(">III", number, serial, 0)


def reference(words: list[int]) -> bytes:
    if len(words) > 5 or max(words) >= 2**32:
        raise ValueError(f"{reference_text(words)} is no reference")
    return struct.pack(">BH", 90, len(words)) + atom("nonode@nohost") + struct.pack(f">I{len(words)}I", 0, *words)


def tuple_of(*elements: bytes) -> bytes:
    return struct.pack(">BI", 105, len(elements)) + b"".join(elements)


NIL = bytes([106])


def list_of(elements: list[bytes], tail: bytes = NIL) -> bytes:
    return struct.pack(">BI", 108, len(elements)) + b"".join(elements) + tail if elements else tail


def whole(term: bytes) -> bytes:
    return bytes([131]) + term


# ---- Erlang text to external terms

TOKEN = re.compile(
    r"""\s* (?: (?P<integer> -?[0-9]+ )
              | (?P<atom> [a-z][A-Za-z0-9_@]* )
              | (?P<self> Self\b )
              | '(?P<quoted> (?: [^'\\] | \\x\{[0-9A-Fa-f]{1,6}\} | \\[^x] )* )'
              | "(?P<string> (?: [^"\\] | \\x\{[0-9A-Fa-f]{1,6}\} | \\[^x] )* )"
              | <0\.(?P<pid> [0-9]+\.[0-9]+ )>
              | \#Ref<0\.(?P<reference> [0-9]+ (?: \.[0-9]+ )* )>
              | (?P<mark> [][{}|,] )
              | (?P<end> \Z )
              | (?P<other> . ) )""",
    re.VERBOSE | re.DOTALL | re.ASCII)
ESCAPE = re.compile(r"\\(?:x\{(.*?)\}|(.))", re.DOTALL)
ESCAPED = {"n": "\n", "r": "\r", "t": "\t", "s": " ", "e": "\x1b", "b": "\b", "f": "\f", "v": "\v", "d": "\x7f", "0": "\0"}


def unescaped(text: str) -> str:
    return ESCAPE.sub(lambda found: chr(int(found[1], 16)) if found[1] else ESCAPED.get(found[2], found[2]), text)


class TermReader:
    """Reads a term's text. The word Self is taken where it stands for an atom."""

    def __init__(self, text: str, own: str | None = None):
        self.own = own
        self.met_self = False
        # The last one comes first.
        self.tokens = [(found.lastgroup, found[found.lastgroup]) for found in TOKEN.finditer(text)][::-1]
        self.term = self.read()
        if self.tokens[-1][0] != "end":
            raise ValueError(f"{text} is more than a term")

    def read(self) -> bytes:
        match self.tokens.pop():
            case "integer", digits:
                if len(digits) > 20:
                    raise ValueError(f"{digits} is outside of -2^59 to 2^59-1")
                return integer(int(digits))
            case "atom", name if name not in RESERVED:
                return atom(name)
            case "self", _ if self.own:
                self.met_self = True
                return atom(self.own)
            case "quoted", name:
                return atom(unescaped(name))
            case "string", text:
                return list_of([integer(ord(sign)) for sign in unescaped(text)])
            case "pid", numbers:
                return pid(*map(int, numbers.split(".")))
            case "reference", words:
                return reference([int(word) for word in words.split(".")][::-1])
            case "mark", "{":
                return tuple_of(*self.elements("}")[0])
            case "mark", "[":
                elements, mark = self.elements("]|")
                return list_of(elements, self.tail() if mark == "|" else NIL)
            case _, value:
                raise ValueError(f"no term where {value} stands" if value else "the text ends inside of a term")

    def elements(self, marks: str) -> tuple[list[bytes], str]:
        """Takes terms with commas between them up to one of the marks; the first mark may stand after no term."""
        elements = []
        if self.tokens[-1] == ("mark", marks[0]):
            return elements, self.tokens.pop()[1]
        while True:
            elements.append(self.read())
            kind, mark = self.tokens.pop()
            if kind == "mark" and mark in marks:
                return elements, mark
            if mark != ",":
                raise ValueError(f"{mark or 'the end'} after an element of a tuple or list")

    def tail(self) -> bytes:
        tail = self.read()
        if self.tokens.pop() != ("mark", "]"):
            raise ValueError("a list that goes on after its tail")
        return tail


def term(text: str) -> bytes:
    return TermReader(text).term


# ---- External terms to Erlang text


def atom_text(name: str) -> str:
    if re.fullmatch("[a-z][A-Za-z0-9_@]*", name) and name not in RESERVED:
        return name
    quoted = name.replace("\\", "\\\\").replace("'", "\\'")
    return "'" + re.sub("[\x00-\x1f\x7f]", lambda sign: f"\\x{{{ord(sign[0]):X}}}", quoted) + "'"


def list_text(elements: list[str], tail: str) -> str:
    if tail.startswith("["):
        return "[" + ",".join([*elements, tail[1:-1]] if tail != "[]" else elements) + "]"
    return "[" + ",".join(elements) + "|" + tail + "]" if elements else tail


def pid_text(number: int, serial: int = 0) -> str:
    return f"<0.{number}.{serial}>"


def reference_text(words: list[int]) -> str:
    """The words, the last one first."""
    return "#Ref<0." + ".".join(map(str, words[::-1])) + ">"


class Reply:
    """The bytes of a reply, which are taken from the front."""

    def __init__(self, data: bytes):
        self.data = data
        self.at = 0

    def take(self, count: int) -> bytes:
        self.at += count
        if self.at > len(self.data):
            raise Failed("a reply that is too short")
        return self.data[self.at - count : self.at]

    def number(self, size: int) -> int:
        return int.from_bytes(self.take(size), "big")

    def whole(self) -> str:
        """The text of a term after its 131."""
        self.take(1)
        return self.term()

    def terms(self, count: int) -> list[str]:
        return [self.term() for _ in range(count)]

    def term(self) -> str:
        tag = self.number(1)
        match tag:
            case 97:
                return str(self.number(1))
            case 98:
                return str(int.from_bytes(self.take(4), "big", signed=True))
            case 110:
                size, negative = self.number(1), self.number(1)
                return "-" * negative + str(int.from_bytes(self.take(size), "little"))
            case 118 | 119:
                return atom_text(self.take(self.number(2 if tag == 118 else 1)).decode())
            case 88:
                self.term()
                number, serial, _creation = self.number(4), self.number(4), self.number(4)
                return pid_text(number, serial)
            case 90:
                count = self.number(2)
                self.term()
                _creation, words = self.number(4), [self.number(4) for _ in range(count)]
                return reference_text(words)
            case 104 | 105:
                return "{" + ",".join(self.terms(self.number(1 if tag == 104 else 4))) + "}"
            case 106:
                return "[]"
            case 107:
                return "[" + ",".join(map(str, self.take(self.number(2)))) + "]"
            case 108:
                return list_text(self.terms(self.number(4)), self.term())
        raise Failed(f"a reply with a term of tag {tag}")


# ---- A session: commands as frames, and replies


def connect(address: int | str, timeout: float | None) -> socket.socket:
    """A connection to a port of 127.0.0.1, or to the Unix socket of that path."""
    if isinstance(address, int):
        connection = socket.create_connection(("127.0.0.1", address), timeout)
        connection.setsockopt(socket.IPPROTO_TCP, socket.TCP_NODELAY, 1)
        return connection
    connection = socket.socket(socket.AF_UNIX)
    try:
        connection.settimeout(timeout)
        end = time.monotonic() + (timeout or math.inf)
        while not is_connected(connection, address):
            if time.monotonic() >= end:
                raise TimeoutError
            time.sleep(0.01)
    except BaseException:
        connection.close()
        raise
    return connection


def is_connected(connection: socket.socket, path: str) -> bool:
    """Connects a Unix socket. False where so many others wait to be accepted that the system refuses this one for now."""
    try:
        connection.connect(path)
    except BlockingIOError:
        return False
    return True


class Session:
    """A session with the node, which begins with the first command. While it lasts it occupies one of the node's client threads. The
    address is the node's port, or the path of its Unix socket.

    What is sent while all of these are occupied waits in the system's buffers, and is done when one is free, also if the client has
    given up by then. So a connection begins with a command that does nothing, and no other one is sent before its reply is there."""

    def __init__(self, address: int | str, timeout: float | None):
        self.address = address
        self.where = f"127.0.0.1:{address}" if isinstance(address, int) else address
        self.timeout = timeout
        self.connection: socket.socket | None = None
        self.replies = None

    def leave(self) -> None:
        if self.connection:
            self.replies.close()
            self.connection.close()
            self.connection = None

    def begin(self) -> None:
        """Connects, and waits for the first reply."""
        try:
            connection = connect(self.address, self.timeout)
            self.connection, self.replies = connection, connection.makefile("rb")
            self.write(*FIRST_COMMAND)
            first = self.receive()
        except TimeoutError:
            raise Failed("NoPlace", f"no first reply{self.within()}: nothing was sent that changes anything. "
                                    "All places may be taken") from None
        if first[0] != 6:
            raise Failed(f"a first reply of kind {first[0]}")

    def within(self) -> str:
        return f" within {self.timeout:g} seconds" if self.timeout else ""

    def no_reply(self) -> Failed:
        return Failed("NoReply", f"no reply{self.within()}: it may still be done")

    def write(self, kind: int, body: bytes) -> None:
        # What a node wrote before it ended the session can still be read, so that tells how it ended.
        with contextlib.suppress(ConnectionError):
            self.connection.sendall(struct.pack(">IB", len(body) + 1, kind) + body)

    def send(self, kind: int, body: bytes) -> None:
        if not self.connection:
            self.begin()
        self.write(kind, body)

    def receive(self) -> bytes:
        try:
            length = int.from_bytes(self.replies.read(4), "big")
            reply = self.replies.read(min(length, LONGEST_FRAME))
        except ConnectionError:
            raise Failed(ENDED) from None
        if not length or len(reply) < length:
            raise Failed(ENDED)
        return reply

    def ask_all(self, commands: Iterable[tuple[int, bytes]], may_repeat: bool = False) -> Iterator[bytes]:
        """The replies, kind and body, to commands, of which some are sent before the first reply is read. After a frame error
        the node reads no more of the session, so the commands after it are sent again in a new one. Where it ends the session so
        early that replies are lost, those without a reply are sent again if they may be done twice. Raises Failed: NoPlace if a new
        connection had no first reply in time, so that no command without a reply was done; NoReply if a reply didn't come in time, so
        that its command, and those sent after it, may still be done."""
        waiting = collections.deque()
        if self.connection:
            self.connection.settimeout(self.timeout)
        try:
            for kind, body in commands:
                if len(body) >= LONGEST_FRAME:
                    raise Failed(FRAME_ERRORS[1])
                waiting.append((kind, body))
                self.send(kind, body)
                if len(waiting) == PIPELINED:
                    yield self.next_reply(waiting, may_repeat)
            while waiting:
                yield self.next_reply(waiting, may_repeat)
        except TimeoutError:
            raise self.no_reply() from None
        except OSError as fault:
            raise Failed(f"{self.where}: {fault.strerror or fault}") from None
        finally:
            if waiting:
                self.leave()

    def next_reply(self, waiting: collections.deque, may_repeat: bool) -> bytes:
        are_sent = True
        try:
            reply = self.receive()
        except Failed:
            if not may_repeat or len(waiting) == 1:
                raise
            # The system drops replies when a node closes a connection in which commands are unread. Alone a command has its reply.
            self.leave()
            self.send(*waiting[0])
            reply, are_sent = self.receive(), False
        waiting.popleft()
        if reply[0] == 7:
            self.leave()
            are_sent = False
        if not are_sent:
            for kind, body in waiting:
                self.send(kind, body)
        return reply

    def ask(self, kind: int, body: bytes) -> bytes:
        (reply,) = self.ask_all([(kind, body)])
        return reply


# ---- Replies in words


def rows_answer(reply: Reply) -> Answer:
    rows, state = reply.number(4), reply.number(1)
    if state == 3:
        reason, value = reply.whole(), reply.whole()
        ended = {"rows": rows, "state": "ended", "reason": reason, "value": value}
        return Answer(f"rows {rows}, ended {reason}, value {value}", ended)
    name = ("goes on", "waits", "held")[state]
    return Answer(f"rows {rows}, {name}", {"rows": rows, "state": name})


def versions_answer(reply: Reply) -> Answer:
    current, old = reply.number(4) or None, reply.number(4) or None
    return Answer(f"current {current or 'none'}, old {old or 'none'}", {"current": current, "old": old})


def upgraded_answer(reply: Reply) -> Answer:
    modules = [versions_answer(reply) for _ in range(reply.number(4))]
    return Answer("\n".join(module.text for module in modules), [module.value for module in modules])


def refusal(reply: Reply) -> Failed:
    number = reply.number(1)
    name = REFUSALS.get(number, f"refusal {number}")
    if name != "BadFile":
        return Failed(name)
    layer, number = reply.number(1), reply.number(1)
    faults = FILE_FAULTS.get(layer, [])
    fault = faults[number - 1] if 0 < number <= len(faults) else "fault"
    return Failed(name, f"{name}: {fault} ({layer},{number})", fault=fault, layer=layer, number=number)


def answer_in_words(data: bytes) -> Answer:
    reply = Reply(data)
    kind = reply.number(1)
    match kind:
        case 0:
            return Answer("done", "done")
        case 1:
            truth = reply.number(1) != 0
            return Answer("true" if truth else "false", truth)
        case 2:
            process = pid_text(reply.number(4))
            return Answer(process, {"pid": process})
        case 3:
            return rows_answer(reply)
        case 4:
            text = data[1:].decode()
            return Answer(view_text(text), view(text))
        case 5:
            return versions_answer(reply)
        case 6:
            raise refusal(reply)
        case 8:
            return upgraded_answer(reply)
    number = reply.number(1)
    raise Failed(FRAME_ERRORS.get(number, f"frame error {number}"))


def answer(command: int, data: bytes) -> Answer:
    """The reply to a command of that kind in words. Raises Failed for a refusal, a frame error, and bytes that aren't such a reply."""
    if data[0] not in (REPLIES[command], 6, 7):
        raise Failed(f"a reply of kind {data[0]}")
    try:
        return answer_in_words(data)
    except (AttributeError, IndexError, ValueError, RecursionError, OverflowError, MemoryError):
        raise Failed("a reply that can't be read") from None


VIEW = re.compile(r"pid (\d+) (?:(running|waiting|held)|ended (.*))", re.DOTALL)
COUNTS = re.compile(r"mailbox (\d+) save (\d+) transit (\d+)")


def view_text(text: str) -> str:
    """The text of a process, which begins with its pid."""
    return re.sub(r"\Apid (\d+)", lambda found: pid_text(int(found[1])), text).removesuffix("\n")


def view(text: str) -> dict:
    """The fields of the text of a process."""
    first, *lines = text.removesuffix("\n").split("\n")
    found = VIEW.fullmatch(first)
    if not found:
        raise Failed("a reply that can't be read")
    number, state, reason = found.groups()
    if not state:
        return {"pid": pid_text(int(number)), "state": "ended", "reason": reason}
    seen = {"pid": pid_text(int(number)), "state": state, "at": "", "next": "", "x": {}, "frames": [],
            "mailbox": 0, "save": 0, "transit": 0}
    for line in lines:
        word, _, rest = line.partition(" ")
        if word in ("at", "next"):
            seen[word] = rest
        elif word == "frame":
            seen["frames"].append({"return": rest.removeprefix("return "), "y": {}})
        elif word == "mailbox":
            seen.update(zip(("mailbox", "save", "transit"), map(int, COUNTS.fullmatch(line).groups())))
        else:
            register = seen["x"] if word[0] == "x" else seen["frames"][-1]["y"]
            register[word] = rest.removeprefix("= ")
    return seen
