"""Counts the blocks of memory that a program has, by an allocator before the C library's: how many bytes it asked for and hasn't given
back, by the number of binary digits of the blocks' sizes. It needs cc, and programs that ask by malloc, calloc and realloc alone."""

import contextlib
import mmap
import os
import shutil
import struct
import subprocess
import sys
import tempfile

ALLOCATOR = r"""
#include <fcntl.h>
#include <stdatomic.h>
#include <stdint.h>
#include <stdlib.h>
#include <sys/mman.h>
#include <unistd.h>
extern void *__libc_malloc(size_t), *__libc_calloc(size_t, size_t), *__libc_realloc(void *, size_t), __libc_free(void *);
/* the bytes of all blocks whose size has so many binary digits, and how many these are, in a page that others read */
static atomic_long own[128], *held = own;
/* what stands before a block */
struct head { _Alignas(16) size_t size; };
static void begin(void) {
    static atomic_int begun;
    if (atomic_exchange(&begun, 1)) return;
    int file = open(getenv("BLOCKS"), O_RDWR);
    void *page = mmap(0, sizeof own, PROT_READ | PROT_WRITE, MAP_SHARED, file, 0);
    if (page != MAP_FAILED) held = page;
    close(file);
}
static void count(size_t size, long blocks) {
    int digits = size ? 64 - __builtin_clzl(size) : 0;
    atomic_fetch_add(held + digits, blocks * (long)size);
    atomic_fetch_add(held + 64 + digits, blocks);
}
static size_t with_head(size_t size) { return size < PTRDIFF_MAX ? size + sizeof(struct head) : size; }
static void *give(struct head *head, size_t size) {
    if (!head) return 0;
    head->size = size;
    begin();
    count(size, 1);
    return head + 1;
}
void *malloc(size_t size) { return give(__libc_malloc(with_head(size)), size); }
void *calloc(size_t items, size_t each) {
    size_t size;
    if (__builtin_mul_overflow(items, each, &size)) size = PTRDIFF_MAX;
    return give(__libc_calloc(1, with_head(size)), size);
}
void free(void *block) {
    if (!block) return;
    struct head *head = (struct head *)block - 1;
    count(head->size, -1);
    __libc_free(head);
}
void *realloc(void *block, size_t size) {
    if (!block) return malloc(size);
    struct head *head = (struct head *)block - 1;
    size_t was = head->size;
    head = __libc_realloc(head, with_head(size));
    if (head) count(was, -1);
    return give(head, size);
}
"""
CLASSES = 64


class Blocks:
    """The blocks that a program has at a moment: their bytes, how many they are, and the bytes of the longest one, if it's the only one of
    its class. A block of `reserve` bytes isn't counted, if that isn't 0."""

    def __init__(self, words, reserve=0):
        sizes, numbers = list(words[:CLASSES]), list(words[CLASSES:])
        if reserve:
            sizes[reserve.bit_length()] -= reserve
            numbers[reserve.bit_length()] -= 1
        last = max((digits for digits, number in enumerate(numbers) if number), default=0)
        self.bytes, self.number = sum(sizes), sum(numbers)
        self.longest = sizes[last] if numbers[last] == 1 else None


class Counter:
    """Starts programs whose blocks are counted."""

    def __init__(self, folder):
        self.folder, self.library = folder, f"{folder}/blocks.so"
        words = [shutil.which("cc") or sys.exit("no cc"), "-shared", "-fPIC", "-O2", "-x", "c", "-", "-o", self.library]
        subprocess.run(words, input=ALLOCATOR.encode(), check=True)

    @contextlib.contextmanager
    def program(self, words, stdin=None, reserve=0):
        """The process of a program, and a function that reads its blocks. At the end of this block of code the process is ended."""
        with tempfile.NamedTemporaryFile(dir=self.folder) as file:
            file.truncate(mmap.PAGESIZE)
            environment = {**os.environ, "LD_PRELOAD": self.library, "BLOCKS": file.name}
            process = subprocess.Popen(words, env=environment, stdin=stdin, stdout=subprocess.PIPE)
            with mmap.mmap(file.fileno(), mmap.PAGESIZE, access=mmap.ACCESS_READ) as page:
                try:
                    yield process, lambda: Blocks(struct.unpack(f"{2 * CLASSES}q", page[:16 * CLASSES]), reserve)
                finally:
                    process.kill()
                    process.wait()
