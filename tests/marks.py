#!/usr/bin/env python3
"""A commit and slices while every request for memory is refused: the program of tests/marks.txt asks for a block of a size of its own
before and after each of them, and the allocator of tests/refuse.py refuses everything between. 1,500 rows that build lists and send nothing
are committed so, the slice of t:sum(4) does all its rows, and that of the lists stops before the first of them. Makes the program, unproved,
in a copy of the project (unproved.sh: `rt` has to be on the path, some four minutes of a processor). Status 1 where something else comes
of it. Not part of `rt ci`.

    tests/marks.py [--program MARKS] [--beamas BEAMAS]"""

import argparse
import contextlib
import os
import pathlib
import re
import shutil
import subprocess
import sys
import tempfile

from refuse import SECONDS, Allocator, Found
from sessions import ROOT

LISTS = 1500
LISTING = f"""{{module,l}}. {{exports,[{{lists,0}}]}}. {{attributes,[]}}. {{labels,4}}.
{{function,lists,0,2}}. {{label,1}}. {{func_info,{{atom,l}},{{atom,lists}},0}}.
{{label,2}}. {{move,nil,{{x,0}}}}. {'{put_list,{integer,1},{x,0},{x,0}}. ' * LISTS}
{{label,3}}. {{jump,{{f,3}}}}.
"""
CRATES = "beam_image beam_machine beam_receipts beam_shared beam_term"
WANTED = """commands refused: 0
1,500 lists, committed: 1501 rows, dropped 0
t:sum(4), run: 19 rows, dropped 0
1,500 lists, run: 1 rows, dropped 0
"""


@contextlib.contextmanager
def made():
    """The program, in a copy of the project that has a crate for it."""
    with tempfile.TemporaryDirectory() as folder:
        files = subprocess.run(["git", "ls-files", "-z", "crates", "crates.txt", "HANDLES", "tests/unproved.sh"], cwd=ROOT, check=True, capture_output=True).stdout
        for name in files.decode().split("\0")[:-1]:
            pathlib.Path(folder, name).parent.mkdir(parents=True, exist_ok=True)
            shutil.copy(ROOT / name, pathlib.Path(folder, name))
        pathlib.Path(folder, "crates/marks/src").mkdir(parents=True)
        shutil.copy(ROOT / "tests/marks.txt", pathlib.Path(folder, "crates/marks/src/main.rt"))
        with open(f"{folder}/crates.txt", "a") as crates:
            crates.write(f"marks: {CRATES}\n")
        subprocess.run([f"{folder}/tests/unproved.sh", "marks"], check=True)
        yield f"{folder}/out/programs/marks"


def run(program, beamas):
    """What the program prints, and how many marks it set, and requests between them."""
    mark = int(re.search(r"MARK: usize = ([0-9_]+)", (ROOT / "tests/marks.txt").read_text())[1].replace("_", ""))
    found = Found()
    with tempfile.TemporaryDirectory() as folder:
        pathlib.Path(folder, "l.S").write_text(LISTING)
        subprocess.run([beamas, f"{folder}/l.S", f"{folder}/l.beam"], check=True)
        with Allocator(folder).program([program, f"{folder}/l.beam", ROOT / "examples/t.beam"], None, found, mark) as process:
            output, errors = process.communicate(timeout=SECONDS)
    return output.decode() + errors.decode(), found.marks, found.between


def main():
    parser = argparse.ArgumentParser(description=__doc__, formatter_class=argparse.RawDescriptionHelpFormatter)
    parser.add_argument("--program", type=os.path.abspath, help="of tests/marks.txt; left out, it is made")
    parser.add_argument("--beamas", type=os.path.abspath, default=str(ROOT / "crates/beamas/out/beamas"))
    given = parser.parse_args()
    with contextlib.nullcontext(given.program) if given.program else made() as program:
        told, marks, requests = run(program, given.beamas)
    is_wanted = (told, marks) == (WANTED, 6) and requests > 0
    print(f"{told}{marks} marks, {requests} requests between them: {'as wanted' if is_wanted else 'wanted 6, some, and ' + WANTED}")
    sys.exit(not is_wanted)


if __name__ == "__main__":
    main()
