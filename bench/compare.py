#!/usr/bin/env python3
"""What the built program takes for the functions of bench/loops.erl, beside OTP's emulator (erl, erlc) and, for some of them,
beside a plain interpreter in Rust (bench/plain.rs, by rustc). It builds none of the project's programs: `rt run` in
crates/beamas and crates/beamnode makes them. Not part of `rt ci`.

    bench/compare.py [--before BEAMNODE] [--first BEAMNODE] [--runs 5] [--only PATTERN] [BEAMNODE [BEAMAS]]

Times are of the processor, the least of the runs, which go in turn over the programs; what a run of the base takes is taken
away, or the start of the program. Where OTP is too fast to be measured it does more of the same. --before names another
beamnode, which runs the same in turn; --first one without frames, which runs the loop over registers alone. --only takes the lines whose titles have the regular expression, `memory`,
`loads` and `code` among them."""

import argparse
import os
import pathlib
import re
import subprocess
import sys
import tempfile
from dataclasses import dataclass

from commands import LOAD, ask, connect, node as serving

ROOT = pathlib.Path(__file__).resolve().parent.parent
BUDGET = "4000000000"
BUDGET_SPENT = 5
MANY_MODULES = 1000


@dataclass(frozen=True)
class Case:
    title: str
    function: str
    arguments: str
    unit: str
    count: int
    # How often OTP does the case in one run; and the arguments and the count of units with which it runs it instead.
    times: int = 1
    otp: tuple[str, int] | None = None
    # The function and the arguments whose time is taken away.
    base: tuple[str, str] = ("sum", "[0]")


def calls_of_fib(n):
    return 1 if n < 2 else 1 + calls_of_fib(n - 1) + calls_of_fib(n - 2)


def calls_of_tak(x, y, z):
    """The value of tak, and how many calls it takes."""
    if y >= x:
        return z, 1
    (a, i), (b, j), (c, k) = calls_of_tak(x - 1, y, z), calls_of_tak(y - 1, z, x), calls_of_tak(z - 1, x, y)
    value, last = calls_of_tak(a, b, c)
    return value, 1 + i + j + k + last


def crowd(title, count):
    """Messages and processes among `count` processes that wait."""
    return [
        Case(f"rows among {title}", "crowd", f"[{count},sum,3000000]", "row", 12_000_006, 1, (f"[{count},sum,60000000]", 240_000_006)),
        Case(f"there and back by pid among {title}", "crowd", f"[{count},ping,200000]", "message", 400_000),
        Case(f"there and back by name among {title}", "crowd", f"[{count},named,200000]", "message", 400_000),
        Case(f"spawn, answer and end among {title}", "crowd", f"[{count},spawns,200000]", "process", 200_000),
    ]


def with_base(cases, base):
    return [Case(**{**case.__dict__, "base": base}) for case in cases]


LOOPS = ("sum", "fib", "tak")
SUMS = "-module(sums).\n-export([sum/1]).\nsum(N) -> sum(N, 0).\nsum(0, S) -> S;\nsum(N, S) -> sum(N - 1, S + N).\n"
CASES = [
    Case("sum", "sum", "[3000000]", "row", 12_000_006, 20),
    Case("fib", "fib", "[25]", "call", calls_of_fib(25), 100),
    Case("tak", "tak", "[18,12,6]", "call", calls_of_tak(18, 12, 6)[1], 400),
    Case("calls with frames, 500 deep", "frames", "[2000,500]", "call", 1_000_000, 50),
    Case("frames with cleared registers", "cleared", "[300000]", "frame", 300_000, 100),
    Case("exceptions caught 100 frames up", "caught", "[5000,100]", "exception", 5_000, 100),
    Case("the own pid", "own", "[500000]", "pid", 500_000, 100),
    Case("lists of 1,000 built and reversed", "lists", "[1000,1000]", "element", 2_000_000, 25),
    Case("choice of 2", "choice2", "[500000]", "choice", 500_000, 100),
    Case("choice of 16", "choice16", "[500000]", "choice", 500_000, 100),
    Case("choice of 256", "choice256", "[500000]", "choice", 500_000, 100),
    Case("remote calls, 10 exports", "remote", "[500000,1]", "call", 500_000, 100),
    Case("remote calls, 5,000 exports", "remote", "[500000,1]", "call", 500_000, 100),
    Case("remote calls by four rows in turn", "remote4", "[125000,1]", "call", 500_000, 100),
    Case("there and back by pid", "ping", "[200000]", "message", 400_000),
    Case("there and back by name", "named", "[200000]", "message", 400_000),
    Case("spawn, answer and end", "spawns", "[200000]", "process", 200_000),
    Case("1,000,000 processes started", "idle", "[1000000]", "process", 1_000_000),
    Case("the last of 100,000 messages", "selective", "[100000,20]", "message", 2_000_000, base=("selective", "[100000,0]")),
    Case("100,000 sleeping processes", "sleepers", "[100000]", "process", 100_000),
    *with_base(crowd("10 processes", 10), ("idle", "[10]")),
    *with_base(crowd("1,000 processes", 1000), ("idle", "[1000]")),
    *with_base(crowd("1,000,000 processes", 1_000_000), ("idle", "[1000000]")),
    *with_base(crowd("1,000,000 processes and 1,000 modules", 1_000_000), ("idle", "[1000000]")),
]
PLAIN = {*LOOPS, "frames", "choice2", "choice16", "choice256", "lists", "remote", "ping", "named", "spawns"}


def spent(words, folder, wanted=0):
    """The processor seconds and the most KiB of a command that ends with the wanted status, and its output."""
    process = subprocess.Popen(
        words, cwd=folder, stdin=subprocess.DEVNULL, stdout=subprocess.PIPE, stderr=subprocess.STDOUT, text=True)
    printed = process.stdout.read()
    process.stdout.close()
    _, status, usage = os.wait4(process.pid, 0)
    process.returncode = os.waitstatus_to_exitcode(status)
    if process.returncode != wanted:
        sys.exit(f"{' '.join(words)}: {printed}")
    return usage.ru_utime + usage.ru_stime, usage.ru_maxrss, printed


def far(folder, exports):
    """The source of a module far with this many exports, of which the last is last/1, in a folder that is made for it."""
    names = [f"f{at}" for at in range(exports - 3)]
    heads = ", ".join(f"{name}/1" for name in [*names, "last"])
    bodies = "".join(f"{name}(X) -> {{{at}, X}}.\n" for at, name in enumerate(names))
    folder.mkdir()
    source = folder / "far.erl"
    source.write_text(f"-module(far).\n-export([{heads}]).\n{bodies}last(X) -> X.\n")
    return source


def compile_in(source, folder):
    """NAME.beam, which both the node and OTP run, in the folder."""
    subprocess.run(["erlc", "-o", folder, source], check=True)


def compile_sums(folder, beamas):
    """sums.node: the loop over registers, without module_info, which calls another module."""
    (folder / "sums.erl").write_text(SUMS)
    subprocess.run(["erlc", "-S", "-o", folder, folder / "sums.erl"], check=True)
    listing = (folder / "sums.S").read_text().partition("{function, module_info, 0")[0]
    listing = listing.replace("{module_info,0},{module_info,1},", "")
    labels = max(map(int, re.findall(r"\{label,(\d+)\}", listing))) + 1
    (folder / "sums.S").write_text(re.sub(r"\{labels, \d+\}", f"{{labels, {labels}}}", listing))
    subprocess.run([beamas, folder / "sums.S", folder / "sums.node"], check=True)


def compile_all(folder):
    compile_in(ROOT / "bench" / "loops.erl", folder)
    for exports in (10, 5000):
        source = far(folder / str(exports), exports)
        compile_in(source, source.parent)
    loaded = (folder / "10" / "far.beam").read_bytes()
    for at in range(MANY_MODULES):
        # another module's name is all that differs
        (folder / f"m{at}.beam").write_bytes(loaded.replace(b"\3far", b"\3%03x" % at))
    return [f"m{at}.beam" for at in range(MANY_MODULES)]


class Programs:
    """The programs to compare, and the files that they run."""

    def __init__(self, folder, nodes):
        self.folder = folder
        self.nodes = nodes
        self.many = compile_all(folder)
        self.plain = str(folder / "plain")
        subprocess.run(["rustc", "-O", "-o", self.plain, str(ROOT / "bench" / "plain.rs")], check=True)

    def node(self, name, case, function, arguments):
        exports = "5000" if "5,000 exports" in case.title else "10"
        files = ["loops.beam", f"{exports}/far.beam", *(self.many if "modules" in case.title else [])]
        module = "loops"
        if name == "first":
            module, files = "sums", ["sums.node"]
        words = [self.nodes[name], "call", "--module", module, "--function", function, "--args", arguments, "--steps", BUDGET]
        return spent([*words, *files], self.folder)

    def otp(self, case, function, arguments, times):
        """The processor seconds that the emulator reports, after a start of its own."""
        exports = "5000" if "5,000 exports" in case.title else "10"
        code = (f"F = fun F(0) -> ok; F(N) -> apply(loops, {function}, {arguments}), F(N - 1) end, "
                f"code:load_file(loops), code:load_file(far), statistics(runtime), F({times}), {{_, T}} = statistics(runtime), "
                "io:format(\"~p\", [T]), halt().")
        words = ["erl", "+S", "1:1", "+P", "2000000", "-noshell", "-pa", exports, ".", "-eval", code]
        return int(spent(words, self.folder)[2]) / 1000

    def seconds(self, case):
        """The processor seconds of each program, and how many units it did in them."""
        found = {}
        for name in self.nodes:
            if name != "first" or case.function == "sum":
                whole = self.node(name, case, case.function, case.arguments)[0]
                found[name] = whole - self.node(name, case, *case.base)[0], case.count
        if "modules" not in case.title:
            arguments, count = case.otp or (case.arguments, case.count)
            whole = self.otp(case, case.function, arguments, case.times)
            found["OTP"] = whole - self.otp(case, *case.base, 1), count * case.times
        if case.function in PLAIN:
            found["plain Rust"] = spent([self.plain, case.function, *case.arguments[1:-1].split(",")], self.folder)[0], case.count
        return found

    def nanoseconds(self, case, runs):
        """Nanoseconds a unit, of each program."""
        found = [self.seconds(case) for _ in range(runs)]
        return {name: min(run[name][0] for run in found) / found[0][name][1] * 1e9 for name in found[0]}


def print_times(programs, runs, only):
    columns = [*programs.nodes, "OTP", "plain Rust"]
    others = [name for name in columns if name != "node"]
    print(f"| ns | a | {' | '.join(columns)} | {' | '.join(f'node to {name}' for name in others)} |")
    print("|---|---|" + "---|" * (len(columns) + len(others)), flush=True)
    for case in CASES:
        if re.search(only, case.title):
            found = programs.nanoseconds(case, runs)
            cells = [f"{found[name]:.1f}" if name in found else "" for name in columns]
            cells += [f"{found['node'] / found[name]:.2f}" if found.get(name, 0) > 0 else "" for name in others]
            print(f"| {case.title} | {case.unit} | {' | '.join(cells)} |", flush=True)


def print_memory(programs):
    """Bytes of a process, from the most memory with many and with few: started and waiting, and ended."""
    case = Case("memory", "", "", "process", 0)
    few, many = 100_000, 1_000_000
    print("\n| bytes | node | OTP |\n|---|---|---|", flush=True)
    for title, function in (("a process that waits", "idle"), ("a process that has ended", "spawns")):
        node = [programs.node("node", case, function, f"[{count}]")[1] for count in (few, many)]
        cells = [f"{(node[1] - node[0]) * 1024 / (many - few):.0f}"]
        code = "apply(loops, {}, [{}]), halt()."
        words = ["erl", "+S", "1:1", "+P", "2000000", "-noshell", "-pa", "10", ".", "-eval"]
        otp = [spent([*words, code.format(function, count)], programs.folder)[1] for count in (few, many)]
        cells.append(f"{(otp[1] - otp[0]) * 1024 / (many - few):.0f}")
        print(f"| {title} | {' | '.join(cells)} |", flush=True)


def print_loads(programs, runs):
    """Milliseconds that files of bench/module.py take to load."""
    print("\n| ms | node | OTP | node to OTP |\n|---|---|---|---|", flush=True)
    words = [programs.nodes["node"], "call", "--module", "m", "--function", "f", "--steps", "0"]
    code = ('{ok, B} = file:read_file("load.beam"), statistics(runtime), {module, m} = erlang:load_module(m, B), '
            '{_, T} = statistics(runtime), io:format("~p", [T]), halt().')
    file = programs.folder / "load.beam"
    for kind in ("mixed", "atoms", "exports", "long"):
        for megabytes in (1, 2, 4, 8):
            subprocess.run([sys.executable, ROOT / "bench" / "module.py", kind, str(megabytes * 1_000_000), file], check=True)
            found = []
            for _ in range(runs):
                whole = spent([*words, file], programs.folder, BUDGET_SPENT)[0]
                start = spent([*words, ROOT / "examples" / "t.beam"], programs.folder, BUDGET_SPENT)[0]
                otp = spent(["erl", "+S", "1:1", "-noshell", "-eval", code], programs.folder)[2]
                found.append(((whole - start) * 1000, int(otp)))
            node, otp = map(min, zip(*found))
            print(f"| {kind}, {megabytes} MB | {node:.0f} | {otp} | {node / otp:.2f} |", flush=True)


def held(pid):
    """The bytes of a process that are no file's."""
    with open(f"/proc/{pid}/status") as status:
        return next(int(line.split()[1]) * 1024 for line in status if line.startswith("RssAnon"))


def print_code(programs):
    """Bytes that a loaded module takes, for each byte of its file: how much more the node holds once it is loaded, and the emulator's own figure."""
    print("\n| bytes for each of the file | node | OTP |\n|---|---|---|", flush=True)
    code = ('{ok, B} = file:read_file("load.beam"), M = erlang:memory(total), {module, m} = erlang:load_module(m, B), '
            'erlang:garbage_collect(), io:format("~p", [erlang:memory(total) - M]), halt().')
    file = programs.folder / "load.beam"
    for kind in ("mixed", "long"):
        for megabytes in (1, 8):
            subprocess.run([sys.executable, ROOT / "bench" / "module.py", kind, str(megabytes * 1_000_000), file], check=True)
            size = file.stat().st_size
            with serving(programs.nodes["node"]) as (pid, port), connect(port) as connection:
                before = held(pid)
                ask(connection, LOAD, file.read_bytes())
                node = held(pid) - before
            otp = int(spent(["erl", "+S", "1:1", "-noshell", "-eval", code], programs.folder)[2])
            print(f"| {kind}, {megabytes} MB | {node / size:.1f} | {otp / size:.1f} |", flush=True)


def main():
    parser = argparse.ArgumentParser(description=__doc__, formatter_class=argparse.RawDescriptionHelpFormatter)
    parser.add_argument("--before")
    parser.add_argument("--first")
    parser.add_argument("--runs", type=int, default=5)
    parser.add_argument("--only", default="")
    parser.add_argument("beamnode", nargs="?", default=str(ROOT / "crates/beamnode/out/beamnode"))
    parser.add_argument("beamas", nargs="?", default=str(ROOT / "crates/beamas/out/beamas"))
    given = parser.parse_args()
    others = {"before": given.before, "first": given.first}
    nodes = {"node": os.path.abspath(given.beamnode)} | {name: os.path.abspath(path) for name, path in others.items() if path}
    with tempfile.TemporaryDirectory() as name:
        programs = Programs(pathlib.Path(name), nodes)
        if given.first:
            compile_sums(pathlib.Path(name), os.path.abspath(given.beamas))
        print_times(programs, given.runs, given.only)
        if re.search(given.only, "memory"):
            print_memory(programs)
        if re.search(given.only, "loads"):
            print_loads(programs, given.runs)
        if re.search(given.only, "code"):
            print_code(programs)


if __name__ == "__main__":
    main()
