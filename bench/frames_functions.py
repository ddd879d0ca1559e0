#!/usr/bin/env python3
"""The text work of bench/frames.sh. No part of the tests.

    bench/frames_functions.py cut OUT LISTING..
        writes for each function of each listing (`erlc -S`) a listing of its own to the folder OUT, with as many labels. A call of another
        function of the module by its label is a call of another module there. OUT/names says which function each file has.
    bench/frames_functions.py count KNOWN REASONS NAMES SAID
        reads what beamas said of the listings that it refused, in the file SAID, and prints a line: how many were refused by one of the
        names of KNOWN, how many as FrameMismatch, and how many otherwise; and then what it said of the latter two, with the names of the
        functions (NAMES is a file as OUT/names). Adds a line to the file REASONS for each refusal: its name."""

import pathlib
import re
import sys

# A quoted atom or a string, a remark, the end of a form, or other text.
TOKEN = re.compile(r"""'(?:[^'\\]|\\.)*'|"(?:[^"\\]|\\.)*"|(?P<remark>%[^\n]*)|(?P<end>\.(?=\s|%|$))|[^'"%.]+|.""", re.DOTALL)
FUNCTION = re.compile(r"\{function,\s*('(?:[^'\\]|\\.)*'|\w[\w@]*),\s*(\d+),\s*(\d+)\}$", re.DOTALL)
LOCAL = re.compile(r"\{(call|call_only|call_last),\s*(\d+),\s*\{f,(\d+)\}(,\s*\d+)?\}$", re.DOTALL)
EXTERNAL = {"call": "call_ext", "call_only": "call_ext_only", "call_last": "call_ext_last"}
# The module that the other functions are in.
OTHERS = "others"
REFUSAL = re.compile(r"beamas: (.*): (\w+|status \d+)$")


def forms(text):
    """The forms of a listing, without their ends and without remarks."""
    form = []
    for token in TOKEN.finditer(text):
        if token["end"]:
            yield "".join(form).strip()
            form = []
        elif not token["remark"]:
            form.append(token[0])


def functions(text):
    """The name, the arity and the text of the listing of each function."""
    heads, found = {}, []
    for form in forms(text):
        if form.startswith("{function,"):
            name, arity, entry = FUNCTION.match(form).groups()
            found.append((name, arity, entry, [form]))
        elif found:
            found[-1][3].append(form)
        else:
            heads[form[1:].split(",", 1)[0].strip()] = form
    entries = {entry: (name, arity) for name, arity, entry, _ in found}
    for name, arity, entry, body in found:

        def outward(form):
            call = LOCAL.match(form)
            if not call or call[3] == entry:
                return form
            callee, count = entries[call[3]]
            return f"{{{EXTERNAL[call[1]]},{call[2]},{{extfunc,{OTHERS},{callee},{count}}}{call[4] or ''}}}"

        lines = [heads["module"], f"{{exports,[{{{name},{arity}}}]}}", "{attributes,[]}", heads["labels"], *map(outward, body)]
        yield name, arity, ".\n".join(lines) + ".\n"


def cut(out, listings):
    with open(out / "names", "a", encoding="utf-8") as names:
        for listing in map(pathlib.Path, listings):
            for index, (name, arity, text) in enumerate(functions(listing.read_text(encoding="utf-8"))):
                path = out / f"{listing.stem}.{index:04}.S"
                path.write_text(text, encoding="utf-8")
                names.write(f"{path}\t{listing.stem}:{name}/{arity}\n")


def count(known, reasons, names, said):
    titles = dict(line.split("\t") for line in pathlib.Path(names).read_text(encoding="utf-8").splitlines())
    beyond, mismatches, wrong, told, is_told = 0, 0, 0, [], False
    with open(reasons, "a", encoding="utf-8") as counted:
        for line in pathlib.Path(said).read_text(encoding="utf-8", errors="replace").splitlines():
            refusal = REFUSAL.match(line)
            if refusal:
                path, why = refusal.groups()
                counted.write(why + "\n")
                is_told = why not in known
                beyond += not is_told
                mismatches += why == "FrameMismatch"
                wrong += is_told and why != "FrameMismatch"
                line = f"{titles.get(path) or pathlib.Path(path).stem}: {why}"
            if is_told:
                told.append(line)
    print(beyond, mismatches, wrong)
    for line in told:
        print(line)


def main():
    if len(sys.argv) > 3 and sys.argv[1] == "cut":
        cut(pathlib.Path(sys.argv[2]), sys.argv[3:])
    elif len(sys.argv) == 6 and sys.argv[1] == "count":
        count(sys.argv[2].split(), *sys.argv[3:])
    else:
        sys.exit(__doc__)


if __name__ == "__main__":
    main()
