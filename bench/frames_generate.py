#!/usr/bin/env python3
"""Writes random modules of Erlang for bench/frames.sh: g0001.erl, g0002.erl, .. No part of the tests.

    bench/frames_generate.py COUNT SEED FOLDER

They keep to what the node's profile has: integers, atoms, lists, tuples, pids and references, and no binaries, floats, maps, funs or
links. What is asked for is code whose frames change often: nested cases and ifs whose branches leave early by error/1, error/2, exit/1 or
throw/1, often by the same words at several depths; tries with `of`, `catch` and `after`, whose stack traces are looked at and raised again;
catches; receives with and without timeouts, for references too; records that are made, matched, read and updated; calls within calls;
many values that live over calls; guards. A module leans towards one of these. They are compiled, and never run. A module is the same for
the same number and SEED, with every Python 3."""

import pathlib
import random
import sys

ATOMS = ["ok", "no", "a", "b", "error", "undefined", "true", "false", "done", "item"]
RECORDS = {"r": ["a", "b", "c", "d"], "s": ["x", "y"], "t": ["key", "left", "right"]}
RECORD_FORMS = "-record(r, {a, b = 0, c = [], d}).\n-record(s, {x, y = none}).\n-record(t, {key, left = nil, right = nil}).\n"
REMOTE = ["other:find", "other:step", "store:read", "store:write"]
# The kinds of expressions, and how much a module of a style leans to each.
KINDS = ["case", "if", "try", "catch", "receive", "record", "call", "value", "exit", "bool", "lc", "send"]
STYLES = {
    "cases":     [12, 3, 1, 1, 1, 2, 5, 4, 3, 2, 1, 1],
    "tries":     [4, 1, 9, 4, 1, 1, 5, 4, 3, 1, 1, 1],
    "receives":  [4, 1, 2, 1, 9, 1, 4, 4, 2, 1, 1, 4],
    "records":   [6, 1, 1, 1, 1, 9, 5, 4, 2, 2, 1, 1],
    "registers": [5, 2, 1, 1, 1, 1, 12, 6, 2, 2, 2, 1],
    "mixed":     [5, 2, 4, 3, 3, 3, 6, 4, 3, 2, 2, 2],
}


def indented(text):
    return text.replace("\n", "\n    ")


class Function:
    """The text of a function. An `environment` is the list of the variables that are bound where a text stands."""

    def __init__(self, module, name, arity):
        self.module, self.name, self.arity = module, name, arity
        self.count = 0
        # What is left of the function: each expression that isn't simple takes one.
        self.fuel = 4 + self.below(22)
        # The expressions by which the function leaves, the same at several places.
        self.exits = [self.plain_exit() for _ in range(1 + self.below(2))]
        self.tag = self.pick(["error", "no", "undefined"])

    # ---- chance: by random() alone, which is the same in each version

    def below(self, n):
        return int(self.module.random.random() * n)

    def pick(self, things):
        return things[self.below(len(things))]

    def chance(self, percent):
        return self.below(100) < percent

    def weighed(self, weights):
        at = self.below(sum(weights))
        for index, weight in enumerate(weights):
            at -= weight
            if at < 0:
                return index
        return 0

    def fresh(self, letter="V"):
        """A variable: V.. may be anything, as the compiler sees it; K.. it may know to be something."""
        self.count += 1
        return f"{letter}{self.count}"

    # ---- texts that have no rows of their own, or few

    def atom(self):
        return self.pick(ATOMS)

    def simple(self, environment):
        what = self.below(10)
        if what < 7 and environment:
            return self.pick(environment)
        if what < 9:
            return self.atom()
        return self.pick(["0", "1", "2", "7", "100", "-1", "[]", "{}", "{a, b}", "[a, 1]"])

    def anything(self, environment):
        """An expression that may be of any type. Where the compiler sees that an operation never ends well, it leaves out all that follows."""
        names = [name for name in environment if name[0] == "V"]
        return self.pick(names) if names and self.chance(60) else self.remote(environment, 1)

    def remote(self, environment, most=3):
        return f"{self.pick(REMOTE)}({', '.join(self.simple(environment) for _ in range(1 + self.below(most)))})"

    def simples(self, environment, most):
        return ", ".join(self.simple(environment) for _ in range(self.below(most + 1)))

    def value(self, environment):
        one, two = self.anything(environment), self.simple(environment)
        what = self.below(12)
        if what < 3:
            return "{" + self.simples(environment, 4) + "}"
        if what < 5:
            return f"[{two} | {one}]"
        if what < 6:
            return "[" + self.simples(environment, 3) + "]"
        if what < 8:
            other = self.pick(["1", "2", "7", self.anything(environment)])
            return f"{one} {self.pick(['+', '-', '*', 'div', 'rem', 'band', 'bor', 'bxor', 'bsl', 'bsr'])} {other}"
        if what < 9:
            return self.pick([f"element(1, {one})", f"hd({one})", f"tl({one})", f"length({one})", f"tuple_size({one})", f"abs({one})",
                              f"setelement(2, {one}, {two})", f"max({one}, {two})", f"{one} ++ [{two}]", "self()"])
        return two

    def test(self, environment):
        """An expression that may stand in a guard and has a boolean value."""
        names = [name for name in environment if name[0] == "V"] or environment
        one, two = self.pick(names), self.simple(environment)
        return self.pick([
            f"is_atom({one})", f"is_integer({one})", f"is_tuple({one})", f"is_list({one})", f"is_pid({one})", f"is_reference({one})",
            f"{one} > {two}", f"{one} =:= {two}", f"{one} == {two}", f"{one} =/= {two}", f"{one} =< {two}", f"{one} + 1 > {two}",
            f"element(1, {one}) =:= {self.atom()}", f"tuple_size({one}) =:= 2", f"length({one}) > 1", f"hd({one}) == {two}",
            f"is_record({one}, {self.pick(sorted(RECORDS))})"])

    def guard(self, environment):
        if not environment or not self.chance(30):
            return ""
        joints = [", ", " andalso ", " orelse ", "; "]
        return f" when {self.test(environment)}" + (self.pick(joints) + self.test(environment) if self.chance(35) else "")

    def pattern(self, environment, depth=2):
        """A pattern, and the variables that it binds."""
        what = self.below(12)
        if what < 2 or depth == 0:
            return (self.atom() if self.chance(60) else self.pick(["0", "1", "[]"])), []
        if what == 2 and environment:
            return self.pick(environment), []
        if what < 4:
            name = self.fresh()
            return name, [name]
        if what < 8:
            parts = [self.pattern(environment, depth - 1) for _ in range(1 + self.below(3))]
            tag = [self.atom()] if self.chance(70) else []
            return "{" + ", ".join(tag + [text for text, _ in parts]) + "}", [name for _, names in parts for name in names]
        if what < 10:
            head, tail = self.pattern(environment, depth - 1), self.fresh()
            return f"[{head[0]} | {tail}]", head[1] + [tail]
        name = self.pick(sorted(RECORDS))
        inner = self.pattern(environment, depth - 1)
        return f"#{name}{{{self.pick(RECORDS[name])} = {inner[0]}}}", inner[1]

    def plain_exit(self):
        return self.pick(["throw(no)", "error(no)", "exit(no)", "error(badarg)", "error(no, [])", "throw({error, no})", "exit({bad, here})",
                          "error({bad, here}, [a])", "error(function_clause)", "exit(normal)"])

    def leave(self, environment):
        if self.chance(75):
            return self.pick(self.exits)
        one = self.simple(environment)
        return self.pick([f"throw({one})", f"throw({{no, {one}}})", f"error({{bad, {one}}})", f"exit({one})", f"error({one}, [{one}])",
                          f"error({one})"])

    # ---- calls

    def call(self, environment, depth):
        arguments = lambda n: ", ".join(
            self.call(environment, depth - 1) if depth > 0 and self.chance(15) else self.simple(environment) for _ in range(n))
        if self.chance(30):
            name, arity = self.pick(self.module.heads)
            return f"{name}({arguments(arity)})"
        if self.chance(92):
            return f"{self.pick(REMOTE)}({arguments(1 + self.below(3))})"
        if self.chance(50):
            # an apply, if the name isn't known
            return f"other:{self.pick(environment or ATOMS)}({arguments(1)})"
        return self.pick(["whereis(item)", "make_ref()", f"tuple_to_list({arguments(1)})", f"list_to_tuple({arguments(1)})",
                          f"spawn(other, step, [{arguments(1)}])", f"is_process_alive({arguments(1)})"])

    # ---- bodies and expressions

    def body(self, environment, depth, most=3):
        """Some statements, and a value."""
        environment = list(environment)
        lines = []
        for _ in range(self.below(most + 1)):
            lines.append(self.statement(environment, depth))
        lines.append(self.expression(environment, depth))
        return ",\n".join(lines)

    def statement(self, environment, depth):
        """A text that may bind variables, which are added to the environment."""
        what, is_call = self.below(12), False
        if what < 5:
            text, is_call = self.call(environment, 1) if self.chance(40) else self.remote(environment), True
        elif what < 6:
            text = self.value(environment)
        else:
            text = self.expression(environment, depth - 1, False)
        what = self.below(10)
        if what < 3 and is_call:
            pattern, new = self.pattern(environment)
        elif what < 8:
            pattern = self.fresh("V" if is_call else "K")
            new = [pattern]
        else:
            return text
        environment.extend(new)
        return f"{pattern} = {text}"

    def clauses(self, environment, depth):
        """Clauses of a case, of the `of` of a try, or of a receive."""
        texts = []
        for _ in range(1 + self.below(3)):
            pattern, new = self.pattern(environment)
            inside = environment + new
            guard = self.guard(inside)
            texts.append(f"{pattern}{guard} ->\n    {indented(self.body(inside, depth - 1, 2))}")
        return texts

    def ending(self, environment, depth):
        """The body of the last clause, which takes all that is left: mostly it leaves."""
        if self.chance(65):
            return self.leave(environment)
        return self.simple(environment) if self.chance(50) else self.body(environment, depth - 1, 1)

    def expression(self, environment, depth, may_leave=True):
        if depth <= 0 or self.fuel <= 0:
            kind = self.pick(["call", "call", "value", "value", "exit"])
        else:
            kind = KINDS[self.weighed(STYLES[self.module.style])]
            self.fuel -= 1
        if kind == "exit" and not may_leave or kind == "call" and depth <= 0:
            return self.call(environment, 1)
        return getattr(self, "make_" + kind)(environment, depth)

    def make_value(self, environment, depth):
        return self.value(environment)

    def make_exit(self, environment, depth):
        return self.leave(environment)

    def make_call(self, environment, depth):
        if self.chance(50):
            return self.call(environment, 2)
        # many values that live over many calls
        names, lines, inside = [], [], list(environment)
        for _ in range(2 + self.below(7)):
            name = self.fresh()
            pattern = self.pick([name, name, "{ok, " + name + "}", "[" + name + " | _]", "{" + name + ", _}"])
            lines.append(f"{pattern} = {self.call(inside, 0) if pattern == name else self.remote(inside)}")
            names.append(name)
            inside.append(name)
            if self.chance(20):
                lines.append(self.call(inside, 0))
        kept = [n for n in names if self.chance(75)] or names
        kept = ", ".join(kept)
        last = self.pick([f"{{{kept}}}", f"[{kept}]", self.call(inside, 0), self.expression(inside, depth - 1)])
        return "begin\n    " + indented(",\n".join(lines + [last])) + "\nend"

    def make_case(self, environment, depth):
        if self.chance(45):
            return self.ladder(environment, depth)
        of = self.call(environment, 1) if self.chance(65) else self.anything(environment)
        clauses = self.clauses(environment, depth)
        if self.chance(75):
            clauses.append(f"_ ->\n    {indented(self.ending(environment, depth))}")
        return f"case {of} of\n    " + indented(";\n".join(clauses)) + "\nend"

    def ladder(self, environment, depth):
        """Steps that each need the one before to be fine, and otherwise leave by the same expression."""
        leave, inside = self.pick(self.exits), list(environment)
        steps = []
        for _ in range(2 + self.below(3)):
            name = self.fresh()
            pattern = self.pick(["{ok, " + name + "}", "{ok, " + name + "}", "[" + name + " | _]", "#s{x = " + name + "}", name])
            guard = self.guard([name]) if pattern == name else ""
            steps.append((self.call(inside, 1), pattern + (guard or (f" when is_integer({name})" if pattern == name else ""))))
            inside.append(name)
            if self.chance(40):
                inside = inside[self.below(len(inside)):]
        text = self.pick(["{" + self.simples(inside, 5) + "}", self.call(inside, 1), self.expression(inside, depth - 2)])
        for call, pattern in reversed(steps):
            other = leave if self.chance(80) else self.leave(environment)
            middle = [f"{{{self.tag}, _}} ->\n    {other}"] if self.chance(20) else []
            clauses = [f"{pattern} ->\n    {indented(text)}", *middle, f"_ ->\n    {other}"]
            if self.chance(15):
                clauses = [*middle, f"{{{self.tag}, why}} ->\n    {other}", clauses[0], clauses[-1]]
            text = f"case {call} of\n    " + indented(";\n".join(clauses)) + "\nend"
        return text

    def make_if(self, environment, depth):
        if not environment:
            return self.call(environment, 1)
        clauses = []
        for _ in range(1 + self.below(3)):
            joint = self.pick([", ", " andalso ", "; "]) + self.test(environment) if self.chance(30) else ""
            clauses.append(f"{self.test(environment)}{joint} ->\n    {indented(self.body(environment, depth - 1, 2))}")
        if self.chance(70):
            clauses.append(f"true ->\n    {indented(self.ending(environment, depth))}")
        return "if\n    " + indented(";\n".join(clauses)) + "\nend"

    def handlers(self, environment, depth):
        texts = []
        for _ in range(1 + self.below(3)):
            kind, outside = self.pick(["error", "exit", "throw", "_", ""]), list(environment)
            if not kind:
                kind = self.fresh()
                outside.append(kind)
            trace = self.fresh() if self.chance(25) else ""
            if trace and self.chance(40):
                reason, again = self.fresh(), "error" if kind == "_" else kind
                body = f"{self.call(outside, 0)},\nerlang:raise({again}, {reason}, {trace})"
                texts.append(f"{kind}:{reason}:{trace} ->\n    {indented(body)}")
                continue
            pattern, new = self.pattern(environment, 1)
            inside = outside + new
            # A trace may stand in no guard.
            guard = self.guard(inside)
            body = self.body(inside + [trace] if trace else inside, depth - 1, 2)
            texts.append(f"{kind}:{pattern}{trace and ':'}{trace}{guard} ->\n    {indented(body)}")
        return texts

    def make_try(self, environment, depth):
        text = f"try\n    {indented(self.body(environment, depth - 1))}"
        if self.chance(40):
            text += "\nof\n    " + indented(";\n".join(self.clauses(environment, depth)))
        catches = self.chance(80)
        if catches:
            text += "\ncatch\n    " + indented(";\n".join(self.handlers(environment, depth)))
        if not catches or self.chance(30):
            text += "\nafter\n    " + indented(self.body(environment, depth - 2, 1))
        return text + "\nend"

    def make_catch(self, environment, depth):
        inner = self.call(environment, 1) if self.chance(50) else self.expression(environment, depth - 1)
        return f"(catch {inner})"

    def make_receive(self, environment, depth):
        clauses = self.clauses(environment, depth) if self.chance(90) else []
        lines = []
        if self.chance(25):
            # code for which OTP's compiler makes receive markers
            ref, name = self.fresh(), self.fresh()
            target = self.simple(environment)
            lines.append(self.pick([f"{ref} = make_ref(),\n{target} ! {{self(), {ref}, {self.simple(environment)}}}",
                                    f"{ref} = monitor(process, {target})"]))
            clauses = [f"{{{ref}, {name}}} ->\n    {indented(self.body(environment + [name], depth - 1, 2))}"]
            if self.chance(50):
                clauses.append(f"{{'DOWN', {ref}, process, _, {self.atom()}}} ->\n    {self.leave(environment)}")
        timeout = ""
        if not clauses or self.chance(60):
            after = self.pick(["0", "10", "1000", "infinity", self.simple(environment)]) if clauses else self.pick(["0", "10"])
            timeout = f"\nafter {after} ->\n    {indented(self.ending(environment, depth))}"
        lines.append("receive" + ("\n    " + indented(";\n".join(clauses)) if clauses else "") + timeout + "\nend")
        return lines[0] if len(lines) == 1 else "begin\n    " + indented(",\n".join(lines)) + "\nend"

    def make_record(self, environment, depth):
        name = self.pick(sorted(RECORDS))
        fields = RECORDS[name]
        inner = lambda: self.call(environment, 1) if self.chance(40) else self.simple(environment)
        what = self.below(10)
        if what < 3 or not environment:
            chosen = [f for f in fields if self.chance(50)]
            return f"#{name}{{" + ", ".join(f"{f} = {inner()}" for f in chosen) + "}"
        whose = self.anything(environment)
        whose = whose if whose[0] == "V" else f"({whose})"
        if what < 6:
            return f"{whose}#{name}.{self.pick(fields)}"
        if what < 9:
            return f"{whose}#{name}{{{self.pick(fields)} = {inner()}}}"
        # Of two fields and more OTP 25 makes set_tuple_element, which is outside of the profile.
        return f"{whose}#{name}{{" + ", ".join(f"{f} = {inner()}" for f in fields[:2]) + "}"

    def make_bool(self, environment, depth):
        if not environment:
            return self.call(environment, 1)
        one, two = self.test(environment), self.test(environment)
        if self.chance(50):
            return f"{one} {self.pick(['andalso', 'orelse'])} {two}"
        return f"{one} {self.pick(['andalso', 'orelse'])} {self.call(environment, 0)}"

    def make_lc(self, environment, depth):
        name = self.fresh()
        inside = environment + [name]
        item = self.value(inside) if self.chance(50) else self.call(inside, 1)
        keep = f", {self.test(inside)}" if self.chance(50) else ""
        return f"[{item} || {name} <- {self.call(environment, 0)}{keep}]"

    def make_send(self, environment, depth):
        return f"{self.simple(environment)} ! {{{self.simples(environment, 3)}}}"

    # ---- the whole

    def text(self):
        clauses = []
        for _ in range(1 + (self.below(3) if self.chance(40) else 0)):
            patterns, environment = [], []
            for _ in range(self.arity):
                if self.chance(70):
                    pattern = self.fresh()
                    new = [pattern]
                else:
                    pattern, new = self.pattern([])
                patterns.append(pattern)
                environment.extend(new)
            head = f"{self.name}({', '.join(patterns)}){self.guard(environment)}"
            clauses.append(f"{head} ->\n    {indented(self.body(environment, 4, 4))}")
        return ";\n".join(clauses) + ".\n"


class Module:
    def __init__(self, number, seed):
        self.random = random.Random(f"{seed} {number}")
        self.name = f"g{number:04}"
        self.style = sorted(STYLES)[number % len(STYLES)]
        count = 4 + int(self.random.random() * 4)
        self.heads = [(f"f{index}", 1 + int(self.random.random() * 4)) for index in range(count)]

    def text(self):
        exports = ", ".join(f"{name}/{arity}" for name, arity in self.heads)
        functions = [Function(self, name, arity).text() for name, arity in self.heads]
        return f"-module({self.name}).\n-export([{exports}]).\n{RECORD_FORMS}\n" + "\n".join(functions)


def main():
    if len(sys.argv) != 4:
        sys.exit(__doc__)
    count, seed, folder = int(sys.argv[1]), int(sys.argv[2]), pathlib.Path(sys.argv[3])
    for number in range(1, count + 1):
        module = Module(number, seed)
        (folder / f"{module.name}.erl").write_text(module.text())


if __name__ == "__main__":
    main()
