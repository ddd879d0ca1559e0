"""Writes a lawful module of nearly SIZE bytes for bench/load.sh: module.py KIND SIZE FILE. tests/long_listing.py uses its parts."""

import struct
import sys

LABEL, FUNC_INFO, END, CALL_ONLY, RETURN, LESS, EQUAL, MOVE, GC_BIF2, LINE = 1, 2, 3, 6, 19, 39, 43, 64, 125, 153
U, I, A, X, F = 0, 1, 2, 3, 5


def operand(tag, value):
    """The shortest spelling of an operand."""
    if value < 16:
        return bytes([value << 4 | tag])
    if value < 2048:
        return bytes([value >> 8 << 5 | 8 | tag, value & 255])
    length = max(2, value.bit_length() // 8 + 1)
    return bytes([(length - 2) << 5 | 24 | tag]) + value.to_bytes(length, "big")


def instruction(opcode, *operands):
    return bytes([opcode]) + b"".join(operand(tag, value) for tag, value in operands)


def number(value):
    return struct.pack(">I", value)


def chunk(name, content):
    return name + number(len(content)) + content + bytes(-len(content) % 4)


class Module:
    """Functions one after the other, with the tables that they name."""

    def __init__(self, names):
        self.names = [b"m", b"f", b"erlang", b"+", b"-"] + names
        self.code = []
        self.exports = []
        self.labels = 1
        self.functions = 0

    def label(self):
        self.labels += 1
        return self.labels - 1

    def add(self, text):
        self.code.append(text)
        return len(text)

    def function(self, blocks, exported):
        """Adds a function with `blocks` blocks after its entry, and answers how many bytes it takes."""
        arity, index = divmod(self.functions, len(self.names) - 1)
        first, entry = self.label(), self.label()
        size = self.add(
            instruction(LABEL, (U, first))
            + instruction(LINE, (U, 0))
            + instruction(FUNC_INFO, (A, 1), (A, index + 2), (U, arity))
            + instruction(LABEL, (U, entry))
        )
        for turn in range(blocks):
            size += self.block(entry, turn)
        size += self.add(instruction(RETURN))
        self.functions += 1
        if exported:
            self.exports.append((index + 2, arity, entry))
            size += 12
        return size

    def block(self, entry, turn):
        """Adds a test, arithmetic, a move and a call, and the label to which the test goes."""
        behind = self.label()
        return self.add(
            instruction(EQUAL if turn % 2 else LESS, (F, behind), (X, 0), (I, turn))
            + instruction(GC_BIF2, (F, 0), (U, 2), (U, 0), (X, 0), (X, 1), (X, 1))
            + instruction(GC_BIF2, (F, 0), (U, 2), (U, 1), (X, 0), (I, 1), (X, 0))
            + instruction(MOVE, (A, turn % len(self.names) + 1), (X, 2))
            + instruction(CALL_ONLY, (U, 2), (F, entry))
            + instruction(LABEL, (U, behind))
        )

    def short_block(self):
        return self.add(instruction(MOVE, (X, 0), (X, 1)) + instruction(LABEL, (U, self.label())))

    def tables(self):
        """The bytes of atoms, imports and exports."""
        atoms = number(len(self.names)) + b"".join(bytes([len(name)]) + name for name in self.names)
        imports = number(2) + b"".join(number(n) for n in (3, 4, 2, 3, 5, 2))
        exports = number(len(self.exports)) + b"".join(number(n) for export in self.exports for n in export)
        return atoms, imports, exports

    def file(self):
        head = b"".join(number(n) for n in (16, 0, 153, self.labels, self.functions))
        atoms, imports, exports = self.tables()
        code = head + b"".join(self.code) + instruction(END)
        chunks = chunk(b"AtU8", atoms) + chunk(b"Code", code) + chunk(b"ImpT", imports) + chunk(b"ExpT", exports)
        return b"FOR1" + number(len(chunks) + 4) + b"BEAM" + chunks


def names_of(count, length):
    """`count` atoms of about `length` bytes."""
    return [(b"name_%d_" % n).ljust(length, b"x") for n in range(count)]


def filled(size, names, blocks, export):
    """Functions until the file has the size: `blocks` blocks in each, and every `export`-th of them exported."""
    module = Module(names)
    left = size - len(module.file())
    while left > 64 * (blocks + 2):
        left -= module.function(blocks, module.functions % export == 0)
    return module


def labels(size):
    module = Module([])
    left = size - len(module.file())
    left -= module.function(0, True)
    while left > 64:
        left -= module.short_block()
    return module


def long(size):
    module = Module(names_of(1000, 12))
    module.function((size - len(module.file())) // 40 - 8, True)
    return module


def module_of(kind, size):
    if kind == "mixed":
        return filled(size, names_of(min(65530, size // 100), 16), 8, 4)
    if kind == "atoms":
        return filled(size, names_of(65530, min(120, size // 80000)), 8, 4)
    if kind == "exports":
        return filled(size, names_of(65530 if size > 2000000 else 10000, 11), 0, 1)
    return labels(size) if kind == "labels" else long(size)


def main():
    kind, size, path = sys.argv[1], int(sys.argv[2]), sys.argv[3]
    with open(path, "wb") as file:
        file.write(module_of(kind, size).file())


if __name__ == "__main__":
    main()
