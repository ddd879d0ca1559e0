#!/usr/bin/env python3
"""What the built programs do where memory is refused. Each run is a program with an allocator before the C library's, which refuses the
K-th request to the (K + N - 1)-th, for K = 1, 2, .. until no run makes so many, and for each N of --row. What a run gives has to be what
it gives with memory, or NoMemory; a refused command has to leave the node as it was, and, asked again, to give the answer that it gives
with memory; `steps` that was cut short has to come to the same end by the rows that were left out. It builds nothing: `rt run` in
crates/beamas, crates/beamdis and crates/beamnode makes their out/ folders. It needs cc. Status 1 where something is wrong. Not part of
`rt ci`.

    tests/refuse.py [--row 1,3,5] [--jobs 4] [--only WORD] [--programs FOLDER]

Of `pipe` each command has the state of all processes and modules looked at before it, and after a refusal. Of `serve`, whose processes run
meanwhile, the answers are compared, what the processes came to, and how the program ends. A session that ends for want of memory is begun
again; whether the command without a reply was done is seen by what it does."""

import argparse
import collections
import concurrent.futures
import contextlib
import dataclasses
import functools
import itertools
import os
import pathlib
import re
import shlex
import shutil
import socket
import struct
import subprocess
import sys
import tempfile
import time

from sessions import ROOT, Session, frame

SECONDS = 30
BATCH = 64
TRIES = 40
CONNECTIONS = 12
# How long a client waits for its first reply, in seconds.
PATIENCE = 3
# Commands that change the versions of the module that they name last.
CHANGES = ("load", "purge", "atomic")
NO_MEMORY = frame(["frame", "000000020601"])
NO_PROCESS = frame(["frame", "000000020602"])

ALLOCATOR = r"""
#define _GNU_SOURCE
#include <errno.h>
#include <fcntl.h>
#include <stdatomic.h>
#include <stdio.h>
#include <stdlib.h>
#include <sys/mman.h>
#include <unistd.h>
extern void *__libc_malloc(size_t), *__libc_calloc(size_t, size_t), *__libc_realloc(void *, size_t);
/* how many requests there were, marks, and requests between two marks, in a page that stays when the program has ended */
static atomic_long own[3], *requests = own;
static long first = -1, last = -1, mark = -1, begun, between;
static void begin(void) {
    begun = 1;
    if (getenv("REFUSE")) sscanf(getenv("REFUSE"), "%ld..%ld", &first, &last);
    if (getenv("REFUSE_MARK")) mark = atol(getenv("REFUSE_MARK"));
    int file = open(getenv("REFUSE_COUNT"), O_RDWR);
    void *page = mmap(0, sizeof own, PROT_READ | PROT_WRITE, MAP_SHARED, file, 0);
    if (page != MAP_FAILED) requests = page;
    close(file);
}
static int refused(size_t size) {
    if (!begun) begin();
    long number = atomic_fetch_add(requests, 1) + 1;
    if (size == mark) between = !between;
    if (size == mark || between) atomic_fetch_add(requests + (size == mark ? 1 : 2), 1);
    int no = between || size == mark || (first <= number && number <= last);
    if (no) errno = ENOMEM;
    return no;
}
void *malloc(size_t size) { return refused(size) ? 0 : __libc_malloc(size); }
void *calloc(size_t count, size_t size) { return refused(size) ? 0 : __libc_calloc(count, size); }
void *realloc(void *block, size_t size) { return size && refused(size) ? 0 : __libc_realloc(block, size); }
"""

# f(X) keeps X in one of two y registers. Where its last rows drop one of them the check refuses it.
FRAMED = """{module,f}. {exports,[{f,1}]}. {attributes,[]}. {labels,3}.
{function,f,1,2}. {label,1}. {func_info,{atom,f},{atom,f},1}.
{label,2}. {allocate,2,1}. {move,{x,0},{y,1}}. {move,nil,{x,0}}. {put_list,{y,1},{x,0},{x,0}}. {deallocate,2}. return.
"""
DROPS_TWO, DROPS_ONE = bytes.fromhex("12 20 13"), bytes.fromhex("12 10 13")
# build(N) makes a list of N elements.
LISTING = """{module,l}. {exports,[{build,1}]}. {attributes,[]}. {labels,5}.
{function,build,1,2}. {label,1}. {func_info,{atom,l},{atom,build},1}.
{label,2}. {move,nil,{x,1}}.
{label,3}. {test,is_eq_exact,{f,4},[{x,0},{integer,0}]}. {move,{x,1},{x,0}}. return.
{label,4}. {put_list,{x,0},{x,1},{x,1}}. {gc_bif,'-',{f,0},2,[{x,0},{integer,1}],{x,0}}. {jump,{f,3}}.
"""
# The worked stories: t:sum(4); a purge with a frame in old code; a receive that chooses; a wait for a time; a process at a break spot;
# one that builds a list.
PIPE = """
    load t.beam; spawn t:sum [4]; steps 1 3; steps 1 18; steps 1 1
    load g1.beam; spawn g:a []; steps 2 2; load g2.beam; steps 2 1; soft_purge g; purge g; purge g; versions g
    load r.beam; spawn r:get []; steps 3 100; send 3 a; send 3 b; deliver 3; steps 3 100; send 3 c; deliver 3; steps 3 100
    load w.beam; spawn w:f []; steps 4 100; clock 100; timeout 4; steps 4 100
    break current:t:5:1; spawn t:sum [2]; steps 5 100; step 5; resume 5; steps 5 1; clear current:t:5:1; resume 5; steps 5 100
    load l.beam; spawn l:build [20]; steps 6 1000
    spawn none:none []; steps 7 1; delete r; load_strict r.beam; soft_purge r; load_strict r.beam; spawn t:sum []"""
# Ends that are monitored: by a return, and by a message that a process sends in place of one; by a reason, an exit signal, a wrong
# argument; by a purge, a third load and an upgrade list; and DOWNs that arrive, one of them where its monitor was dropped.
MONITORS = """
    load served.beam; load watch.beam; load m.beam
    spawn served:serve [a]; steps 1 100; spawn watch:watch [[a,a]]; steps 2 100; spawn served:tell [b,a]; steps 3 100
    spawn watch:watch [[b]]; steps 4 100; send b last; deliver 3; steps 3 100; deliver 1; steps 1 100
    deliver 2; steps 2 100; send 2 stop; deliver 2; steps 2 100; deliver 4
    spawn m:w []; steps 5 100; steps 6 100; deliver 5; steps 5 100
    spawn served:serve [c]; steps 7 100; spawn served:serve [d]; steps 8 100; spawn watch:watch [[d,c]]; steps 9 100
    load served.beam; soft_purge served; purge served; deliver 9; purge served
    spawn served:serve [e]; steps 10 100; spawn watch:drop [e,[flush]]; steps 11 100; spawn watch:watch [[e]]; steps 12 100
    send 11 drop; deliver 11; load served.beam; load served.beam; steps 11 100; deliver 11; deliver 12
    spawn served:serve [f]; steps 13 100; spawn watch:watch [[f]]; steps 14 100
    purge served; atomic strict served.beam; atomic soft served.beam; atomic hard m.beam served.beam; deliver 14
    spawn served:serve [g]; steps 15 100; spawn watch:watch [[g]]; steps 16 100; spawn served:shoot [h,g]; steps 17 100
    send h {now,[1,2]}; deliver 17; steps 17 100; deliver 15; deliver 16"""
# Loads that the check of frames lets in and refuses.
FRAMES = """
    load framed.beam; load misframed.beam; load_strict misframed.beam; atomic hard t.beam misframed.beam; spawn f:f [a]; steps 1 3
    atomic soft framed.beam t.beam; steps 1 100; load misframed.beam; atomic strict misframed.beam"""
# The commands of each story, and the processes and modules that are looked at.
PIPES = {
    "pipe": (PIPE, range(1, 9), "tgrwl"),
    "pipe, monitors": (MONITORS, range(1, 18), ("served", "watch", "m")),
    "pipe, frames": (FRAMES, range(1, 2), "ft"),
}
# A story whose processes schedulers run: the last one is checked out, or about to be, when it is purged, and its slice is dropped.
SERVE = """
    load t.beam; spawn t:sum [4]; rest 1
    load g1.beam; break current:g:4:0; spawn g:a []; rest 2; load g2.beam; purge g; versions g
    load r.beam; spawn r:get []; rest 3; send 3 a; send 3 b; send 3 c; rest 3
    spawn t:sum [100000000]; begun 4; load t.beam; purge t; rest 4; load l.beam; spawn l:build [2000]; rest 5"""
# Two clients take turns: a purge and an upgrade list end processes that others monitor.
CLIENTS = """
    load served.beam; load watch.beam; spawn served:serve [a]; rest 1; spawn watch:watch [[a]]; rest 2; load served.beam; purge served
    rest 1; rest 2; send 2 stop; rest 2; spawn served:serve [b]; rest 3; spawn watch:watch [[b]]; rest 4; load t.beam
    atomic strict served.beam; purge served; rest 4; spawn t:sum [4]; rest 5; atomic soft t.beam; versions t; send 4 stop; rest 4"""
# The commands of each story, and how many clients give them.
SERVES = {"serve": (SERVE, 1), "serve, clients": (CLIENTS, 2)}
CALLS = {
    "t:sum(4)": "call --module t --function sum --args [4] t.beam",
    "e:c()": "call --module e --function c e.beam",
    "a receive in vain": "call -v --module r --function get t.beam r.beam",
    "a wait": "call --module w --function f w.beam",
    "code that is replaced": "call --module h --function n --args [3] h1.beam h2.beam h2.beam",
    "a bad argument": "call -v --module t --function sum --args [a] t.beam",
    "a budget": "call --steps 20 --module t --function sum --args [100] t.beam",
}
STORIES = ROOT / "crates" / "vectors" / "data" / "stories"
LISTINGS = ("t", "e", "g1", "g2", "h1", "h2", "r", "w", "served", "watch", "m")
AT_REST = re.compile(r"\Apid \d+ (?:held|ended|waiting(?s:.*)transit 0\b)")
# It computes, in the function of two arguments that sum/1 calls.
BEGUN = re.compile(r"(?m)^at t:sum/2 ")
WARNING = re.compile(r"(?m)^\S+ \[WARN  beam_(?:serve|log)::\w+\] (?:NoMemory|1 of 2 clients|[0-9]+ lines lost)\n")
IS_NO_MEMORY = re.compile(r"beam\w+: (?:[\w.]+: )?NoMemory\n\Z")


def lines(text):
    return [shlex.split(line) for line in re.split("[;\n]", text) if line.strip()]


@dataclasses.dataclass
class Found:
    """The answers of a run, how often something was refused or cut meanwhile, how it ended, and what is wrong."""

    answers: list = dataclasses.field(default_factory=list)
    events: collections.Counter = dataclasses.field(default_factory=collections.Counter)
    end: str = "as with memory"
    wrong: list = dataclasses.field(default_factory=list)
    requests: int = 0
    marks: int = 0
    between: int = 0

    def compare(self, ample):
        """An end before the last answer has to be one for want of memory; the answers up to there have to be those with ample memory."""
        wanted = ample.answers if self.end == "as with memory" else ample.answers[: len(self.answers)]
        self.wrong += [f"wanted {one}, found {other}" for one, other in zip(wanted, self.answers) if one != other]
        if len(wanted) != len(self.answers):
            self.wrong.append(f"{len(self.answers)} answers of {len(wanted)}")


class Allocator:
    """Starts programs whose requests of these numbers are refused."""

    def __init__(self, folder):
        self.library = f"{folder}/refuse.so"
        words = [shutil.which("cc") or sys.exit("no cc"), "-shared", "-fPIC", "-O2", "-w", "-x", "c", "-", "-o", self.library]
        subprocess.run(words, input=ALLOCATOR.encode(), check=True)

    @contextlib.contextmanager
    def program(self, words, refused, found, mark=None, **streams):
        """The process of a program. When it has ended it is known how many requests it made. A request of `mark` bytes begins or ends a
        time in which everything is refused."""
        with tempfile.NamedTemporaryFile() as counts:
            counts.write(bytes(4096))
            counts.flush()
            environment = {**os.environ, "LD_PRELOAD": self.library, "REFUSE_COUNT": counts.name}
            if refused:
                environment["REFUSE"] = f"{refused[0]}..{refused[-1]}"
            if mark:
                environment["REFUSE_MARK"] = str(mark)
            process = subprocess.Popen(words, env=environment, stdout=subprocess.PIPE, stderr=subprocess.PIPE, bufsize=0, **streams)
            try:
                yield process
            finally:
                process.kill()
                process.communicate()
                found.requests, found.marks, found.between = struct.unpack("<qqq", pathlib.Path(counts.name).read_bytes()[:24])


# ---- Programs that end by themselves


def tool(allocator, words, refused, ample):
    """Runs a program once: its status, its errors, its output, and the file OUT. Without memory it has written no file, and no output but
    a beginning of it; a place that `-v` asks for may be left out."""
    found = Found()
    with tempfile.TemporaryDirectory() as folder:
        file = pathlib.Path(folder, "OUT")
        with allocator.program([word.replace("OUT", str(file)) for word in words], refused, found) as process:
            output, errors = process.communicate(timeout=SECONDS)
        found.answers = [process.returncode, errors.decode(), output, file.read_bytes() if file.exists() else None]
    if ample and found.answers != ample.answers:
        status, told, wanted, _ = ample.answers
        if found.answers == [1, found.answers[1], wanted[: len(output)], None] and IS_NO_MEMORY.match(found.answers[1]):
            found.end, found.answers = "NoMemory", []
        elif found.answers == [status, told.splitlines(True)[0], wanted, None]:
            found.end, found.answers = "without its place", []
    return found


# ---- Sessions of pipe


class Asking:
    """Commands to a session, each asked again while it is refused, with the processes and modules that are looked at."""

    def __init__(self, session, found, processes, modules):
        self.session, self.found = session, found
        self.looks = [["inspect", str(pid)] for pid in processes] + [["versions", module] for module in modules]

    def until_there_is_memory(self, words, event, check=lambda: None):
        for _ in range(TRIES):
            reply = self.session.ask(words)
            if reply != NO_MEMORY:
                return reply
            self.found.events[event] += 1
            check()
        self.found.wrong.append(f"{shlex.join(words)} is refused for ever")
        return NO_MEMORY

    def look(self):
        return [self.until_there_is_memory(words, "refused looks") for words in self.looks]

    def done(self, words):
        """The answer to a command, before which and after each refusal of which the state is the same."""
        before = self.look()

        def check():
            if self.look() != before:
                self.found.wrong.append(f"{shlex.join(words)} was refused and changed the state")
        return self.until_there_is_memory(words, "refused commands", check)

    def rows(self, pid, wanted):
        """The outcome of `steps`, where a cut one is asked again for the rows that are left: how many rows were executed, and the state."""
        done = 0
        for _ in range(TRIES):
            reply = self.done(["steps", pid, str(wanted - done)])
            if reply[4] != 3:
                return reply
            done += int.from_bytes(reply[5:9], "big")
            if reply[9] or done == wanted:
                return done, reply[9:]
            self.found.events["cut steps"] += 1
        self.found.wrong.append(f"steps {pid} {wanted} comes to no end")
        return done

    def answer(self, words):
        return self.rows(words[1], int(words[2])) if words[0] == "steps" else self.done(words)


def pipe(allocator, beamnode, commands, processes, modules, refused, ample):
    found = Found()
    with allocator.program([beamnode, "pipe"], refused, found, stdin=subprocess.PIPE) as process:
        session = Session(open(process.stdout.fileno(), "rb", closefd=False), process.stdin.write)
        asking = Asking(session, found, processes, modules)
        try:
            for words in lines(commands):
                found.answers.append((words, asking.answer(words)))
            found.answers.append(asking.look())
        except (EOFError, BrokenPipeError):
            found.end = "the session ends" if found.answers else "NoMemory"
        output, errors = process.communicate(timeout=SECONDS)
    told = errors.decode()
    if found.end == "as with memory" and (output, told, process.returncode) != (b"", "", 0):
        found.wrong.append(f"status {process.returncode}, {told}")
    if found.end != "as with memory" and (told not in ("beamnode: NoMemory\n", "beamnode: pipe: NoMemory\n") or process.returncode != 1):
        found.wrong.append(f"ends with status {process.returncode}, {told}")
    return found


# ---- Sessions of serve


class Client:
    """The connections of a client to a node, one after another: the next one where a session ends for want of memory."""

    def __init__(self, connect):
        self.connect = connect
        self.again()

    def again(self):
        self.connection = self.connect()
        self.session = Session(self.connection.makefile("rb"), self.connection.sendall)

    def leave(self):
        self.session.replies.close()
        self.connection.close()

    def is_served(self):
        """Whether the client is served beside the others: a node without memory has fewer threads for clients."""
        self.connection.settimeout(PATIENCE)
        with contextlib.suppress(EOFError, ConnectionError):
            try:
                self.session.ask(["inspect", "1"])
            except TimeoutError:
                return False
        self.connection.settimeout(SECONDS)
        return True


class Serving:
    """Clients of a node that take turns."""

    def __init__(self, port, found, clients):
        self.port, self.found, self.left = port, found, CONNECTIONS
        self.clients = [Client(self.connect) for _ in range(clients)]
        self.turn = 0
        while len(self.clients) > 1 and not self.clients[-1].is_served():
            self.found.events["fewer clients"] += 1
            self.clients.pop().leave()

    def connect(self):
        if not self.left:
            raise EOFError("no connection is left")
        self.left -= 1
        return socket.create_connection(("127.0.0.1", self.port), timeout=SECONDS)

    def leave(self):
        """Makes the connections that are left, and closes them, so that the node ends."""
        for client in self.clients:
            client.leave()
        with contextlib.suppress(EOFError, ConnectionError):
            while True:
                self.connect().close()

    def ask(self, words, sign=None):
        """The reply, of a new session where one was lost, and of a new try where it is NoMemory."""
        client = self.clients[self.turn % len(self.clients)]
        for _ in range(TRIES):
            try:
                reply = client.session.ask(words)
            except (EOFError, ConnectionError):
                self.found.events["lost sessions"] += 1
                client.leave()
                client.again()
                if sign and sign():
                    return "done, but for its reply"
                continue
            if reply != NO_MEMORY:
                return reply
            self.found.events["refused commands"] += 1
        self.found.wrong.append(f"{shlex.join(words)} is refused for ever")
        return NO_MEMORY

    def see(self, pid, wanted):
        """The view of a process once it is as wanted."""
        until = time.monotonic() + SECONDS
        while time.monotonic() < until:
            text = self.ask(["inspect", pid])[5:].decode()
            if wanted.search(text):
                return text
            time.sleep(0.001)
        self.found.wrong.append(f"process {pid} goes on as {text}")
        return text

    def sign(self, words, versions, spawned):
        """Whether a command whose reply was lost was done: the state isn't the one before any more. A command that sends, or sets
        a break spot, is asked again."""
        match words[0]:
            case "spawn":
                return lambda: self.ask(["inspect", str(spawned)]) != NO_PROCESS
            case "load" | "purge" | "atomic":
                return lambda: self.ask(["versions", module_of(words)]) != versions
            case "break" | "send":
                return lambda: bool(self.ask(words))
        return None

    def story(self, commands):
        spawned = 0
        for self.turn, words in enumerate(lines(commands)):
            if words[0] == "rest":
                answer = self.see(words[1], AT_REST)
            elif words[0] == "begun":
                answer = bool(self.see(words[1], BEGUN))
            else:
                spawned += words[0] == "spawn"
                versions = self.ask(["versions", module_of(words)]) if words[0] in CHANGES else None
                answer = self.ask(words, self.sign(words, versions, spawned))
            self.found.answers.append((words, answer))


def module_of(words):
    return re.match("[a-z]+", words[-1]).group()


def settled(found, ample):
    """Replies that were lost are taken as the wanted ones: the answers after them show what these commands did."""
    if ample:
        pairs = itertools.zip_longest(found.answers, ample.answers[: len(found.answers)])
        found.answers = [two if one[1] == "done, but for its reply" else one for one, two in pairs]


def serve(allocator, beamnode, commands, clients, refused, ample):
    found = Found()
    words = [beamnode, "serve", "--port", "0", "--schedulers", "1", "--connections", str(CONNECTIONS), "--clients", str(clients)]
    with allocator.program(words, refused, found) as process:
        line = process.stdout.readline()
        try:
            if line:
                serving = Serving(int(line.rsplit(b":")[-1]), found, clients)
                serving.story(commands)
                serving.leave()
        except (EOFError, ConnectionError):
            found.end = "NoMemory"
        try:
            _, errors = process.communicate(timeout=SECONDS)
        except subprocess.TimeoutExpired:
            found.wrong.append("the node doesn't end")
            return found
    settled(found, ample)
    told = WARNING.sub("", errors.decode())
    if not line or found.end == "NoMemory":
        found.end = "NoMemory"
        if (told, process.returncode, found.answers) != ("beamnode: NoMemory\n", 1, []):
            found.wrong.append(f"ends with status {process.returncode} after {len(found.answers)} answers: {told}")
    elif (told, process.returncode) != ("", 0):
        found.wrong.append(f"status {process.returncode}, {told}")
    return found


# ---- The sweep


def sweep(title, run, row, pool):
    """Prints how the runs ended, and answers how many there were, and which are wrong."""
    ample = run(None, None)
    ends, events, wrong = collections.Counter(), collections.Counter(), [f"{title}, with memory: {it}" for it in ample.wrong]
    for first in itertools.count(1, BATCH) if not wrong else []:
        numbers = range(first, first + BATCH)
        batch = list(pool.map(lambda number: run(range(number, number + row), ample), numbers))
        reached = [(number, found) for number, found in zip(numbers, batch) if found.requests >= number]
        for number, found in reached:
            found.compare(ample)
            ends[found.end] += 1
            events += collections.Counter({event: 1 for event in found.events})
            wrong += [f"{title}, {row} from request {number} on: {it}" for it in found.wrong]
        if not reached:
            break
    told = ", ".join(f"{count} {name}" for name, count in [*sorted(ends.items()), *sorted(events.items())])
    print(f"{title}, {row} refused: {ample.requests} requests; runs: {told}; {len(wrong)} wrong", flush=True)
    return sum(ends.values()), wrong


def found_programs(folder):
    """beamas, beamdis and beamnode: in this folder, or each in the out/ of its crate there."""
    places = [(f"{folder}/{name}/out/{name}", f"{folder}/{name}") for name in ("beamas", "beamdis", "beamnode")]
    return [first if os.path.isfile(first) else second for first, second in places]


def runs(allocator, programs):
    """Each story by its title, as a function of the requests that are refused and of the answers that it gives with memory."""
    beamas, beamdis, beamnode = found_programs(programs)
    stories = {"beamas": functools.partial(tool, allocator, [beamas, "t.S", "OUT"]),
               "beamdis": functools.partial(tool, allocator, [beamdis, "e.beam"])}
    stories |= {f"call, {title}": functools.partial(tool, allocator, [beamnode, *shlex.split(words)]) for title, words in CALLS.items()}
    stories |= {title: functools.partial(pipe, allocator, beamnode, *story) for title, story in PIPES.items()}
    stories |= {title: functools.partial(serve, allocator, beamnode, *story) for title, story in SERVES.items()}
    for name in LISTINGS:
        shutil.copy(STORIES / f"{name}.S", f"{name}.S")
    pathlib.Path("l.S").write_text(LISTING)
    pathlib.Path("framed.S").write_text(FRAMED)
    for name in (*LISTINGS, "l", "framed"):
        subprocess.run([beamas, f"{name}.S", f"{name}.beam"], check=True)
    framed = pathlib.Path("framed.beam").read_bytes()
    assert framed.count(DROPS_TWO) == 1
    pathlib.Path("misframed.beam").write_bytes(framed.replace(DROPS_TWO, DROPS_ONE))
    return stories


def main():
    parser = argparse.ArgumentParser(description=__doc__, formatter_class=argparse.RawDescriptionHelpFormatter)
    parser.add_argument("--row", default="1,3,5", help="how many requests in a row are refused")
    parser.add_argument("--jobs", type=int, default=4, help="how many runs at once")
    parser.add_argument("--only", default="", help="the stories whose titles begin so: beamas, beamdis, call, pipe or serve")
    parser.add_argument("--programs", type=os.path.abspath, default=str(ROOT / "crates"), help="where the programs are")
    given = parser.parse_args()
    count, wrong = 0, []
    with tempfile.TemporaryDirectory() as folder, concurrent.futures.ThreadPoolExecutor(given.jobs) as pool:
        os.chdir(folder)
        for title, run in runs(Allocator(folder), given.programs).items():
            for row in map(int, given.row.split(",")) if title.startswith(given.only) else []:
                found = sweep(title, run, row, pool)
                count, wrong = count + found[0], wrong + found[1]
        os.chdir(ROOT)
    print(*wrong[:20], sep="\n", end="\n" if wrong else "")
    print(f"{count} runs, {len(wrong)} wrong")
    sys.exit(bool(wrong))


if __name__ == "__main__":
    main()
