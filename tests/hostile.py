#!/usr/bin/env python3
"""What 8 MB of each kind cost the built programs, with all memory and with little: files that are mostly one table, one form of term or one
list of operands, texts of listings, and commands. Each row is a kind: how the program ends, the processor's milliseconds a megabyte for a
quarter of the size and for all of it, the greatest memory (no less than this script's own); then how it ends with 512 KiB of main stack
(`ulimit -s`), and with as much address space as --space says (`ulimit -v`). No run may end by a signal, with less memory each has to end in
the same way or for want of it, and four times the bytes may take no more than ten times as long. Status 1 otherwise. It builds nothing:
`rt run` in crates/beamas, crates/beamdis and crates/beamnode makes their out/ folders. Not part of `rt ci`.

    tests/hostile.py [--size 8000000] [--space 300000] [--only WORD] [--programs FOLDER]"""

import argparse
import dataclasses
import functools
import multiprocessing
import os
import pathlib
import resource
import struct
import subprocess
import sys
import tempfile

from refuse import found_programs
from sessions import ROOT

sys.path.insert(0, str(ROOT / "bench"))
from module import A, F, FUNC_INFO, I, LABEL, U, X, Module, chunk, instruction, module_of, number, operand  # noqa: E402

ALLOCATE, WAIT, SELECT_VAL, JUMP, CATCH, INIT_YREGS, LIST_OPERAND, Y = 12, 25, 59, 61, 62, 172, 0x17, 4
REGISTERS = 1023
NIL, TEXT = b"\x6a", b"\x6b\x0f\xa0" + b"x" * 4000
LOAD, SPAWN, SEND, STEPS, VERSIONS, ATOMIC_LOAD = 1, 6, 7, 8, 17, 18
STRICT, HARD = 0, 2


# ---- Files


class Table(Module):
    """A module with one function, and with further imports, literals and instructions."""

    def __init__(self, imports=b"", literals=(), code=b""):
        super().__init__([])
        self.imports, self.literals = imports, literals
        self.function(0, True)
        self.add(code)

    def tables(self):
        atoms, imports, exports = super().tables()
        count = 2 + len(self.imports) // 12
        return atoms, number(count) + imports[4:] + self.imports, exports

    def file(self):
        count, content = self.literals or (0, b"")
        chunks = super().file()[12:] + chunk(b"LitT", number(0) + number(count) + content)
        return b"FOR1" + number(len(chunks) + 4) + b"BEAM" + chunks


def tuple_of(size, element):
    """A literal that is a tuple of elements with these bytes, as many as fit the size."""
    count = size // len(element)
    term = b"\x83\x69" + number(count) + element * count
    return Table(literals=(1, number(len(term)) + term)).file()


def select(size):
    """One choice among many values. The list of its operands makes the size."""
    count = size // 2 - 100
    head = bytes([SELECT_VAL]) + operand(X, 0) + operand(F, 2) + bytes([LIST_OPERAND]) + operand(U, 2 * count)
    return Table(code=head + (operand(I, 7) + operand(F, 2)) * count).file()


class Framed(Module):
    """A module with one function, which has a frame with the most registers and ends in a jump to its last row."""

    def __init__(self):
        super().__init__([])
        first, entry = self.label(), self.label()
        self.functions = 1
        self.exports = [(2, 0, entry)]
        self.add(instruction(LABEL, (U, first)) + instruction(FUNC_INFO, (A, 1), (A, 2), (U, 0)) + instruction(LABEL, (U, entry)))
        self.add(instruction(ALLOCATE, (U, REGISTERS), (U, 0)))

    def tag(self, turn):
        label = self.label()
        return self.add(instruction(LABEL, (U, label)) + instruction(CATCH, (Y, turn % REGISTERS), (F, label)))

    def ended(self):
        last = self.label()
        self.add(instruction(LABEL, (U, last)) + instruction(JUMP, (F, last)))
        return self.file()


def tags(size):
    """A catch tag in each register, and then every second row, after a label, writes another one."""
    module, turn = Framed(), 0
    left = size - 200
    while left > 64:
        left -= module.tag(turn)
        turn += 1
    return module.ended()


def registers(size):
    """One row that clears registers, many times each."""
    module = Framed()
    for turn in range(REGISTERS):
        module.tag(turn)
    names = b"".join(operand(Y, n) for n in range(REGISTERS))
    turns = (size - 16000) // len(names)
    module.add(bytes([INIT_YREGS, LIST_OPERAND]) + operand(U, turns * REGISTERS) + names * turns)
    return module.ended()


def claimed(table, _size):
    """A small file whose table claims 4,294,967,295 entries."""
    file = Table(literals=(1, number(2) + b"\x83\x6a")).file()
    at = file.index(table) + (12 if table == b"LitT" else 8)
    return file[:at] + b"\xff" * 4 + file[at + 4 :]


FILES = {
    "code": lambda size: module_of("mixed", size).file(),
    "labels": lambda size: module_of("labels", size).file(),
    "atoms": lambda size: module_of("atoms", size).file(),
    "exports": lambda size: module_of("exports", size).file(),
    "imports": lambda size: Table(imports=b"".join(map(number, (3, 4, 2))) * (size // 12)).file(),
    "literals": lambda size: Table(literals=(size // 6, (number(2) + b"\x83\x6a") * (size // 6))).file(),
    "a tuple of nils": lambda size: tuple_of(size, NIL),
    "tuples (104)": lambda size: tuple_of(size, b"\x68\x01" + NIL),
    "tuples (105)": lambda size: tuple_of(size, b"\x69" + number(1) + NIL),
    "tuples, 4,096 deep": lambda size: tuple_of(size, b"\x68\x01" * 4094 + b"\x68\x00"),
    "texts (107)": lambda size: tuple_of(size, TEXT),
    "lists (108)": lambda size: tuple_of(size, b"\x6c" + number(4095) + b"\x61\x01" * 4095 + NIL),
    "integers (110)": lambda size: tuple_of(size, b"\x6e\x04\x00\xff\xff\xff\xff"),
    "references (90)": lambda size: tuple_of(size, b"\x5a\x00\x05\x77\x01a" + number(0) + b"\xff" * 20),
    "atoms (118)": lambda size: tuple_of(size, b"\x76\x00\x01a"),
    "atoms (119)": lambda size: tuple_of(size, b"\x77\x01a"),
    "operands": select,
    "tags": tags,
    "registers": registers,
} | {f"a claim of {name.decode()}": functools.partial(claimed, name) for name in (b"AtU8", b"ImpT", b"ExpT", b"LitT")}

# ---- Listings

HEADS = "{module,m}.\n{exports,[]}.\n{attributes,[]}.\n{labels,3}.\n"
FUNCTION = HEADS + "{function,f,0,2}.\n{label,1}.\n{func_info,{atom,m},{atom,f},0}.\n{label,2}.\n"


def filled(before, text, after, size):
    return (before + text * ((size - len(before) - len(after)) // len(text)) + after).encode()


def tags_of(size):
    """The module of `tags`, as a listing."""
    rows = "{label,%d}.\n{'catch',{y,%d},{f,%d}}.\n"
    count = (size - 300) // 46
    text = "".join(rows % (n + 3, n % REGISTERS, n + 3) for n in range(count)) + "{label,%d}.\n{jump,{f,%d}}.\n" % (count + 3, count + 3)
    return (FUNCTION.replace("{labels,3}", "{labels,%d}" % (count + 4)) + "{allocate,%d,0}.\n" % REGISTERS + text).encode()


LISTINGS = {
    "lines": lambda size: filled(HEADS, "\n", "", size),
    "comments": lambda size: filled(HEADS, "% nothing\n", "", size),
    "a comment": lambda size: filled(HEADS + "%", "x", "\n", size),
    "moves": lambda size: filled(FUNCTION, "{move,{x,0},{x,1}}.\n", "return.\n", size),
    "literals": lambda size: filled(FUNCTION, "{move,{literal,{[]}},{x,1}}.\n", "return.\n", size),
    "a tuple": lambda size: filled(FUNCTION + "{move,{literal,{[]", ",[]", "}},{x,1}}.\nreturn.\n", size),
    "operands": lambda size: filled(FUNCTION + "{select_val,{x,0},{f,2},{list,[{integer,7},{f,2}", ",{integer,7},{f,2}", "]}}.\n", size),
    "braces": lambda size: filled(FUNCTION, "{", "", size),
    "brackets": lambda size: filled(FUNCTION, "[", "", size),
    "digits": lambda size: filled(FUNCTION + "{move,{integer,", "7", "},{x,0}}.\n", size),
    "an atom": lambda size: filled(FUNCTION + "{move,{atom,", "a", "},{x,0}}.\n", size),
    "a text": lambda size: filled(FUNCTION + '{move,{literal,"', "a", '"},{x,0}}.\n', size),
    "tags": tags_of,
}

# ---- Commands


def frame(kind, body):
    return struct.pack(">IB", len(body) + 1, kind) + body


class Small(Module):
    """A module of this name with no function, or with f/0, which waits."""

    def __init__(self, name, waits=False):
        super().__init__([])
        self.names = [name, b"f"] if waits else [name]
        if waits:
            self.labels, self.functions, self.exports = 3, 1, [(2, 0, 2)]
            self.add(instruction(LABEL, (U, 1)) + instruction(FUNC_INFO, (A, 1), (A, 2), (U, 0)))
            self.add(instruction(LABEL, (U, 2)) + instruction(WAIT, (F, 2)))

    def tables(self):
        _, _, exports = super().tables()
        return number(len(self.names)) + b"".join(bytes([len(name)]) + name for name in self.names), number(0), exports


def names(count):
    return [b"m%05x" % at for at in range(count)]


def upgrade(mode, files):
    return frame(ATOMIC_LOAD, bytes([mode]) + number(len(files)) + b"".join(number(len(file)) + file for file in files))


def small_files(size, waits=False):
    """As many of the smallest files as fill one frame of the size, each of another name."""
    return [Small(name, waits).file() for name in names((size - 6) // (len(Small(b"m00000", waits).file()) + 4))]


def upgraded_again(size):
    """A list whose modules are all there, with old code: each is removed, and no process lingers there."""
    return upgrade(HARD, small_files(size)) * 3


def upgraded_over_processes(size):
    """Loads by the smallest files with a function, a process that waits in each, and two lists: the second one ends them all."""
    files = small_files(size, True)
    starts = b"".join(frame(SPAWN, b"\x83\x68\x03\x77\x06" + name + b"\x77\x01f" + NIL) for name in names(len(files)))
    return upgrade(STRICT, files) + starts + b"".join(frame(STEPS, number(pid + 1) + number(9)) for pid in range(len(files))) + upgrade(HARD, files) * 2


COMMANDS = {
    "an upgrade": lambda size: upgrade(STRICT, small_files(size)),
    "three upgrades": upgraded_again,
    "an upgrade, equal names": lambda size: upgrade(STRICT, small_files(size)[:1] * len(small_files(size))),
    "upgrades over processes": upgraded_over_processes,
    "a load": lambda size: frame(LOAD, module_of("mixed", size).file()),
    "versions": lambda size: frame(VERSIONS, b"t") * (size // 6),
    "a message of texts": lambda size: frame(SEND, b"\x83\x68\x02\x77\x01t\x69" + number(size // len(TEXT)) + TEXT * (size // len(TEXT))),
    "a frame that isn't whole": lambda size: frame(SEND, bytes(size))[: size // 2],
}


# ---- Runs


@dataclasses.dataclass
class Run:
    """How a program ended: its status, and the first line of its errors; the processor's seconds, and the greatest MiB."""

    status: int
    told: str
    seconds: float
    mebibytes: float

    @staticmethod
    def of(words, given, limits=()):
        def limit():
            for name, count in limits:
                resource.setrlimit(name, (count << 10, count << 10))
        with open(given, "rb") as source, tempfile.TemporaryFile() as errors:
            process = subprocess.Popen(words, stdin=source, stdout=subprocess.DEVNULL, stderr=errors, preexec_fn=limit)
            _, status, usage = os.wait4(process.pid, 0)
            process.returncode = os.waitstatus_to_exitcode(status)
            errors.seek(0)
            told = errors.readline().decode().strip().rpartition(": ")[2]
        return Run(process.returncode, told, usage.ru_utime + usage.ru_stime, usage.ru_maxrss / 1024)

    def end(self):
        return f"{self.status} {self.told}".strip()


def cases(programs):
    """Each kind by its title: the words of the program, and what makes the bytes of the file `given`, which is its input, too."""
    beamas, beamdis, beamnode = programs
    load = [beamnode, "call", "--module", "m", "--function", "f", "--steps", "0", "given"]
    yield from ((f"file, {name}", load, make) for name, make in FILES.items())
    yield from ((f"beamdis, {name}", [beamdis, "given"], FILES[name]) for name in ("code", "literals", "texts (107)", "operands"))
    yield from ((f"beamas, {name}", [beamas, "given", "made"], make) for name, make in LISTINGS.items())
    yield from ((f"pipe, {name}", [beamnode, "pipe"], make) for name, make in COMMANDS.items())


def measured(title, words, make, size, space):
    """Prints a row, and answers what is wrong."""
    runs = []
    for count in (size // 4, size):
        # in a process of its own: a program that this one starts is counted with all the memory that this one has had
        maker = multiprocessing.get_context("fork").Process(target=lambda: pathlib.Path("given").write_bytes(make(count)))
        maker.start()
        maker.join()
        runs.append((Run.of(words, "given"), os.path.getsize("given") / 1e6))
    (quarter, part), (whole, megabytes) = runs
    stack = Run.of(words, "given", [(resource.RLIMIT_STACK, 512)])
    little = Run.of(words, "given", [(resource.RLIMIT_AS, space)])
    rates = [f"{run.seconds / count * 1e3:.0f}" if count > 0.1 else "" for run, count in runs]
    print(f"| {title} | {whole.end()} | {rates[0]} | {rates[1]} | {whole.mebibytes:.0f} | {stack.end()} | {little.end()} |", flush=True)
    wrong = [f"{title}: ends with {run.end()}" for run in (whole, stack, little) if run.status < 0 or run.status > 5]
    if stack.end() != whole.end():
        wrong.append(f"{title}: ends with {stack.end()} where there is less main stack")
    if little.end() != whole.end() and not (little.status == 1 and little.told == "NoMemory"):
        wrong.append(f"{title}: ends with {little.end()} where there is less memory")
    if whole.seconds > max(0.3, 10 * quarter.seconds) and megabytes > part:
        wrong.append(f"{title}: {whole.seconds:.2f} s, and {quarter.seconds:.2f} s for a quarter")
    return wrong


def main():
    parser = argparse.ArgumentParser(description=__doc__, formatter_class=argparse.RawDescriptionHelpFormatter)
    parser.add_argument("--size", type=int, default=8_000_000)
    parser.add_argument("--space", type=int, default=300_000, help="KiB of address space")
    parser.add_argument("--only", default="", help="the kinds whose titles begin so")
    parser.add_argument("--programs", type=os.path.abspath, default=str(ROOT / "crates"), help="where the programs are")
    given = parser.parse_args()
    wrong, count = [], 0
    print("| kind | ends | ms a MB, a quarter | all | MiB | little stack | little memory |\n|---|---|---|---|---|---|---|")
    with tempfile.TemporaryDirectory() as folder:
        os.chdir(folder)
        for title, words, make in cases(found_programs(given.programs)):
            if title.startswith(given.only):
                wrong += measured(title, words, make, given.size, given.space)
                count += 1
        os.chdir(ROOT)
    print(*wrong, sep="\n", end="\n" if wrong else "")
    print(f"{count} kinds, {len(wrong)} wrong")
    sys.exit(bool(wrong))


if __name__ == "__main__":
    main()
