#!/usr/bin/env python3
"""What a built `beamnode replay` tells of a journal's file: a node writes one under commands of a client, and is looked at; then the lines
of its entries, ranges of them, the text of its processes and a session over its state have to agree with each other and with the node.
Prints how many checks held; status 1 and each that didn't. It builds nothing. Not part of `rt ci`.

    tests/replay.py [--beamas BEAMAS] [BEAMNODE]
"""

import argparse
import pathlib
import re
import struct
import subprocess
import sys
import tempfile
import time

ROOT = pathlib.Path(__file__).resolve().parent.parent
sys.path.insert(0, str(ROOT / "clients"))
from beamclient import Session, atom, integer, list_of, pid, term, tuple_of, whole  # noqa: E402

# keep() takes no message. fail(X) adds 1 to X. big() has a term in y0 that shares its parts, whose text has more than 8,388,608 bytes.
LISTING = """{module,k}. {exports,[{keep,0},{fail,1},{big,0}]}. {attributes,[]}. {labels,11}.
{function,keep,0,2}. {label,1}. {func_info,{atom,k},{atom,keep},0}.
{label,2}. {loop_rec,{f,4},{x,0}}. {loop_rec_end,{f,2}}. {label,4}. {wait,{f,2}}.
{function,fail,1,6}. {label,5}. {func_info,{atom,k},{atom,fail},1}.
{label,6}. {gc_bif,'+',{f,0},1,[{x,0},{integer,1}],{x,0}}. return.
{function,big,0,8}. {label,7}. {func_info,{atom,k},{atom,big},0}.
{label,8}. {allocate,1,0}. {move,nil,{y,0}}.
""" + "{put_tuple2,{y,0},{list,[{y,0},{y,0}]}}.\n" * 24 + """{label,9}. {loop_rec,{f,10},{x,0}}. {loop_rec_end,{f,9}}. {label,10}. {wait,{f,9}}.
"""
LOAD, SPAWN, SEND, STEPS, SET_BREAK, INSPECT, VERSIONS = 1, 6, 7, 8, 12, 16, 17
RAN, VIEW = 3, 4

held = failed = 0


def expect(what: str, holds: bool, more="") -> None:
    global held, failed
    if holds:
        held += 1
    else:
        failed += 1
        print(f"doesn't hold: {what} {more}")


def spawn(module: str, function: str, *arguments: bytes) -> tuple[int, bytes]:
    return SPAWN, whole(tuple_of(atom(module), atom(function), list_of(list(arguments))))


def send(to: bytes, message: str) -> tuple[int, bytes]:
    return SEND, whole(tuple_of(to, term(message)))


def number(value: int) -> bytes:
    return struct.pack(">I", value)


def spot(label: int) -> bytes:
    return whole(tuple_of(atom("current"), atom("k"), integer(label), integer(0)))


COMMANDS = [
    spawn("k", "keep"), send(pid(1), "{buy,2}"), send(pid(1), '[\'Ab\',"text",-3|x]'), send(pid(1), str(list(range(400, 700)))),
    spawn("k", "fail", atom("a")), spawn("k", "big"), spawn("k", "none", integer(7), term("{a,[]}")), (VERSIONS, b"k"),
    send(atom("nobody"), "hello"), (SET_BREAK, spot(2)), (LOAD, b""), (INSPECT, number(1)),
]
# What the lines of the entries are, in their order, whose events come from the client.
SENT = [
    "Load k", "Spawn k:keep", "Send <0.1.0> {buy,2}", "Send <0.1.0> ['Ab',[116,101,120,116],-3|x]", "Send <0.1.0> (more than 1000 bytes)",
    "Spawn k:fail a", "Spawn k:big", "Spawn k:none 7 {a,[]}", "Versions k", "SetBreak current:k:2:0",
]


def frames_of(data: bytes) -> list[bytes]:
    found = []
    while data:
        size = int.from_bytes(data[:4], "big")
        found.append(data[4:4 + size])
        data = data[4 + size:]
    return found


class Replays:
    def __init__(self, beamnode: str, file: pathlib.Path):
        self.beamnode, self.file = beamnode, file

    def run(self, *words, **more) -> subprocess.CompletedProcess:
        return subprocess.run([self.beamnode, "replay", *map(str, words), str(self.file)], capture_output=True, timeout=60, **more)

    def text(self, *words) -> str:
        ran = self.run(*words)
        expect(f"status of {words}", ran.returncode == 0 and not ran.stderr, ran)
        return ran.stdout.decode()

    def session(self, *words, commands: list[tuple[int, bytes]]) -> list[bytes]:
        frames = b"".join(struct.pack(">IB", len(body) + 1, kind) + body for kind, body in commands)
        ran = self.run(*words, "--pipe", input=frames)
        expect(f"status of a session {words}", ran.returncode == 0 and not ran.stderr, ran.stderr)
        return frames_of(ran.stdout)


def write_journal(options, folder: pathlib.Path) -> tuple[pathlib.Path, dict[int, bytes]]:
    """A journal's file, and what the node showed of its processes."""
    (folder / "k.S").write_text(LISTING)
    subprocess.run([options.beamas, folder / "k.S", folder / "k.beam"], check=True)
    file = folder / "node.journal"
    node = subprocess.Popen([options.beamnode, "serve", "--port", "0", "--schedulers", "1", "--journal", file], stdout=subprocess.PIPE)
    session = Session(int(node.stdout.readline().decode().rsplit(":", 1)[1]), 60)
    session.ask(LOAD, (folder / "k.beam").read_bytes())
    for kind, body in COMMANDS:
        session.ask(kind, body)
    deadline = time.monotonic() + 30
    views = {}
    while time.monotonic() < deadline:
        last, views = views, {process: session.ask(INSPECT, number(process)) for process in (1, 2, 4)}
        if last == views:
            break
        time.sleep(0.2)
    session.leave()
    node.kill()
    node.wait()
    return file, views


def lines_and_ranges(replays: Replays) -> list[str]:
    report = replays.text()
    text = replays.text("--print", "..")
    expect("the report comes after the lines", text.endswith(report))
    lines = text[:-len(report)].splitlines()
    expect("a line for each entry", report.startswith(f"entries: {len(lines)}\n"), report)
    expect("numbers", [line.split()[0] for line in lines] == [str(at) for at in range(len(lines))])
    parts = [re.fullmatch(r"\d+ (?:(seat \d+) )?((\w+)(?: .*)?)", line) for line in lines]
    expect("each line has its parts", all(parts), lines)
    for name, count in re.findall(r"^  (\w+): (\d+)$", report, re.MULTILINE):
        expect("lines of a kind", sum(part[3] == name for part in parts) == int(count), name)
    expect("lines of the client", [part[2] for part in parts if part[1] and part[3] not in ("Clock", "Deliver", "Inspect", "Steps")] == SENT, lines)
    others = [part[2] for part in parts if not part[1]]
    expect("lines of the schedulers", all(re.fullmatch(r"Steps <0\.\d\.0> \d+|Deliver <0\.\d\.0>", line) for line in others), lines)
    size = len(lines)
    for start, end in ((0, 0), (0, 1), (2, 5), (size - 1, size), (3, size + 9), (size, size + 1)):
        found = replays.text("--print", f"{start}..{end}")
        expect("a range", found == "".join(line + "\n" for line in lines[start:end]) + report, (start, end, found))
    expect("a range without an end", replays.text("--print", "4..") == "\n".join(lines[4:]) + "\n" + report)
    expect("a range without a beginning", replays.text("--print", "..4") == "\n".join(lines[:4]) + "\n" + report)
    expect("no line after the last entry", replays.text("--print", "2..9", "--upto", "4").splitlines()[:3] == [*lines[2:4], "entries: 4"])
    return lines


def processes(replays: Replays, views: dict[int, bytes], lines: list[str]) -> None:
    report = replays.text()
    for process, view in views.items():
        expect("the node showed the process", view[0] == VIEW, view)
        found = replays.text("--inspect", process)
        expect("the text of a process", found == report + view[1:].decode(), (process, found, view))
    for process, fault in ((3, "TooLong"), (5, "NoProcess"), (2**32 - 1, "NoProcess")):
        ran = replays.run("--inspect", process)
        wanted = (1, report, f"beamnode: {replays.file}: {fault}\n")
        expect(fault, (ran.returncode, ran.stdout.decode(), ran.stderr.decode()) == wanted, ran)
    began = next(at for at, line in enumerate(lines) if "Spawn k:keep" in line)
    for upto in range(len(lines) + 1):
        ran = replays.run("--upto", upto, "--inspect", 1)
        expect("a process is there once it was started", ran.returncode == (0 if upto > began else 1), (upto, ran))


def sessions(replays: Replays, views: dict[int, bytes], lines: list[str]) -> None:
    asked = [(INSPECT, number(process)) for process in views]
    expect("a session shows what the node showed", replays.session(commands=asked) == list(views.values()))
    expect("a session without commands", replays.session(commands=[]) == [])
    # The process that failed is stepped through: it is at its first row, and a row later it has ended.
    began = next(at for at, line in enumerate(lines) if "Spawn k:fail" in line)
    upto = next(at for at, line in enumerate(lines) if at > began and "Steps <0.2.0>" in line)
    process = number(2)
    step = (STEPS, process + number(1))
    found = replays.session("--upto", upto, commands=[(INSPECT, process), step, step, (INSPECT, process)])
    expect("kinds of replies", [reply[0] for reply in found] == [VIEW, RAN, RAN, VIEW], found)
    expect("it ran", b"at entry k:fail/1" in found[0] and b"badarith" in found[3], found)
    found = replays.session("--upto", upto, commands=[(SET_BREAK, spot(6)), (STEPS, process + number(9)), (INSPECT, process)])
    expect("a breakpoint holds it", b"held" in found[2], found)
    ran = replays.run("--pipe", input=b"\0\0\0\5x")
    expect("a cut frame", (ran.returncode, ran.stderr) == (1, b"beamnode: pipe: CutFrame\n"), ran)


def refusals(replays: Replays) -> None:
    for words in (("--pipe", "--print", "0.."), ("--pipe", "--inspect", "1"), ("--inspect", "0"), ("--print", "2..1"), ("--print", "x")):
        ran = replays.run(*words)
        expect("a wrong line", ran.returncode == 2 and b"usage: " in ran.stderr, (words, ran))
    for words in (("--print", ".."), ("--inspect", "1")):
        with open("/dev/full", "wb") as full:
            ran = subprocess.run([replays.beamnode, "replay", *words, replays.file], stdout=full, stderr=subprocess.PIPE)
        expect("a full output", (ran.returncode, ran.stderr) == (1, b"beamnode: output: WriteFailed\n"), ran)


def main() -> int:
    parser = argparse.ArgumentParser()
    parser.add_argument("--beamas", default=str(ROOT / "crates/beamas/out/beamas"))
    parser.add_argument("beamnode", nargs="?", default=str(ROOT / "crates/beamnode/out/beamnode"))
    options = parser.parse_args()
    with tempfile.TemporaryDirectory() as name:
        file, views = write_journal(options, pathlib.Path(name))
        before = file.read_bytes()
        replays = Replays(options.beamnode, file)
        lines = lines_and_ranges(replays)
        processes(replays, views, lines)
        sessions(replays, views, lines)
        refusals(replays)
        expect("the file is as it was", file.read_bytes() == before)
    print(f"{held} checks held, {failed} didn't")
    return 1 if failed else 0


if __name__ == "__main__":
    sys.exit(main())
