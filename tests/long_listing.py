#!/usr/bin/env python3
"""How beamdis prints a listing that is far longer than its file: long_listing.py [FILE_BYTES [ELEMENTS [MEGABYTES]]].

Writes a module of about so many bytes (1,000,000) whose instructions all move one literal, a tuple of so many integers
(1,250), and runs the built beamdis on it with its address space limited to so many megabytes (256) and its output in a
pipe. The text must be the expected one, byte for byte. Prints the sizes, the seconds and the greatest memory. It builds
nothing: `rt run` in crates/beamdis makes its out/ folder; DIS names another program. Not part of `rt ci`.
"""

import hashlib
import os
import resource
import subprocess
import sys
import tempfile
import time

ROOT = os.path.dirname(os.path.dirname(os.path.abspath(__file__)))

sys.path.insert(0, os.path.join(ROOT, "bench"))
from module import FUNC_INFO, A, LABEL, MOVE, RETURN, Module, U, X, chunk, instruction, number, operand  # noqa: E402

DIS = os.environ.get("DIS", os.path.join(ROOT, "crates", "beamdis", "out", "beamdis"))
LARGE_TUPLE_EXT, SMALL_INTEGER_EXT, LITERAL_OPERAND = 105, 97, 0x47


class LongListing(Module):
    """A function that moves one literal again and again, and the text of its listing."""

    def __init__(self, size, elements):
        super().__init__([])
        self.elements = elements
        first, entry = self.label(), self.label()
        self.add(instruction(LABEL, (U, first)) + instruction(FUNC_INFO, (A, 1), (A, 2), (U, 0)) + instruction(LABEL, (U, entry)))
        self.exports.append((2, 0, entry))
        self.functions = 1
        move = bytes([MOVE, LITERAL_OPERAND]) + operand(U, 0) + operand(X, 0)
        self.moves = max(0, size - len(self.file())) // len(move)
        self.add(move * self.moves + instruction(RETURN))

    def file(self):
        term = bytes([131, LARGE_TUPLE_EXT]) + number(self.elements) + bytes([SMALL_INTEGER_EXT, 120]) * self.elements
        literals = chunk(b"LitT", number(0) + number(1) + number(len(term)) + term)
        chunks = super().file()[12:] + literals
        return b"FOR1" + number(len(chunks) + 4) + b"BEAM" + chunks

    def text(self):
        """The text of the listing, in parts of some megabytes."""
        yield b"{module,m}.\n{exports,[{f,0}]}.\n{attributes,[]}.\n{labels,3}.\n"
        yield b"{function,f,0,2}.\n{label,1}.\n{func_info,{atom,m},{atom,f},0}.\n{label,2}.\n"
        line = b"{move,{literal,{" + b",".join([b"120"] * self.elements) + b"}},{x,0}}.\n"
        part = max(1, 4_000_000 // len(line))
        for _ in range(self.moves // part):
            yield line * part
        yield line * (self.moves % part) + b"return.\n"


def run(path, megabytes):
    """Status, bytes, digest, seconds and greatest kilobytes of a run."""

    def limit():
        resource.setrlimit(resource.RLIMIT_AS, (megabytes << 20, megabytes << 20))

    begin = time.monotonic()
    child = subprocess.Popen([DIS, path], stdout=subprocess.PIPE, preexec_fn=limit)
    count, digest = 0, hashlib.sha1()
    while block := child.stdout.read1(1 << 20):
        count += len(block)
        digest.update(block)
    _, status, usage = os.wait4(child.pid, 0)
    return os.waitstatus_to_exitcode(status), count, digest.digest(), time.monotonic() - begin, usage.ru_maxrss


def main():
    size, elements, megabytes = [int(word) for word in sys.argv[1:]] + [1_000_000, 1_250, 256][len(sys.argv) - 1 :]
    module = LongListing(size, elements)
    with tempfile.NamedTemporaryFile(suffix=".beam") as file:
        file.write(module.file())
        file.flush()
        status, count, digest, seconds, kilobytes = run(file.name, megabytes)
    wanted = hashlib.sha1()
    length = 0
    for part in module.text():
        length += len(part)
        wanted.update(part)
    print(f"file {len(module.file())} bytes, listing {length} bytes, written {count} bytes, status {status}")
    print(f"{seconds:.1f} seconds, at most {kilobytes} KiB of memory of {megabytes} MB of address space")
    sys.exit(0 if status == 0 and digest == wanted.digest() else "the text isn't the expected one")


if __name__ == "__main__":
    main()
