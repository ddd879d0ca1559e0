#!/usr/bin/env python3
"""Prints what a node has to answer in five states, as Python's json.dumps writes it, and its metrics as text: expected bytes for rows of tests.
Each answer stands behind a line `== STATE ANSWER`, with a line's end behind it that isn't a part of it.

    rows.py [--state NAME] [--answer NAME] [--literal]        --literal: each text on one line, as a string of Rust"""

import argparse
import json

U64 = 2**64 - 1
ANSWERS = ["node", "journal", "processes", "process", "modules", "connections", "log"]


def place(module, function, arity=0, label=0, row=0, instance=1, code="current"):
    return {"module": module, "function": function, "arity": arity, "label": label, "row": row, "instance": instance, "code": code}


def clipped(text, whole=True):
    return {"text": text, "whole": whole}


def process(pid, state, name=None, mailbox=0, transit=0, stack_words=0, monitors=0, at=None, reason=None):
    return {"pid": pid, "name": name, "state": state, "mailbox": mailbox, "transit": transit, "stack_words": stack_words, "monitors": monitors,
            "at": at, "reason": reason}


def processes(listed, following=None, matching=None, seen=0, partial=False):
    return {"processes": listed, "next": following, "matching": matching, "seen": seen, "partial": partial}


def detail(told, save=0, deadline_ms=None, following=None, x=(), frames=(), first_messages=(), monitored=(), cut=False):
    return told | {"save": save, "deadline_ms": deadline_ms, "next": following, "x": list(x), "frames": list(frames),
                   "first_messages": list(first_messages), "monitored": list(monitored), "cut": cut}


def module(name, current=None, old=None):
    new = None if current is None else dict(zip(("instance", "instructions"), current, strict=True))
    kept = None if old is None else dict(zip(("instance", "instructions", "lingering", "first"), old, strict=True))
    return {"name": name, "current": new, "old": kept}


def modules(listed, following=None, partial=False):
    return {"modules": listed, "next": following, "partial": partial}


def journal(entries, in_memory, limit, in_file, stops_when_full, kinds):
    names = ("commands", "slices", "deliveries", "moments", "timeouts")
    return {"entries": entries, "in_memory": in_memory, "limit": limit, "in_file": in_file, "stops_when_full": stops_when_full,
            "kinds": dict(zip(names, kinds, strict=True))}


def node(name, version, address, uptime_ms, can_stop, counts, instances, schedulers, told_journal, connections, resident_bytes):
    started, ended, running, waiting, held, counted_ms = counts
    live = min(running + waiting + held, U64)
    return {
        "name": name, "version": version, "address": address, "uptime_ms": uptime_ms, "can_stop": can_stop,
        "processes": {"started": started, "ended": ended, "live": live, "running": running, "waiting": waiting, "held": held,
                      "counted_ms": counted_ms},
        "modules": dict(zip(("current", "old"), instances, strict=True)),
        "schedulers": [dict(zip(("busy_us", "slices", "rows"), each, strict=True)) for each in schedulers],
        "journal": told_journal,
        "connections": dict(zip(("places", "taken", "accepted", "failed"), connections, strict=True)),
        "memory": {"resident_bytes": resident_bytes}}


def connections(*listed):
    return {"connections": [dict(zip(("place", "peer", "since_ms"), each, strict=True)) for each in listed]}


def log(listed, lost=0):
    return {"lines": [dict(zip(("number", "time_ms", "text"), each, strict=True)) for each in listed], "lost": lost}


def state(told, **others):
    """All answers of a state, and what only the metrics tell: changes (done and refused), refusals, lost lines, requests by status."""
    return {"node": told, "journal": told["journal"]} | others


ODD = "a \"quote\" \\ back\n\t\r\b\f\x00\x1f\x7f / é ☕ 🐙 'x'"
STATES = {
    "empty": state(
        node("", "", "", 0, False, (0, 0, 0, 0, 0, 0), (0, 0), [], journal(0, 0, 0, False, False, (0, 0, 0, 0, 0)), (0, 0, 0, 0), None),
        processes=processes([]), process=detail(process(0, "waiting")), modules=modules([]), connections=connections(), log=log([]),
        changes=[(0, 0)] * 5, losses=(0, 0), requests=(0, 0, 0)),
    "small": state(
        node("kanguriwe", "0.1.0", "127.0.0.1:4000", 1_500, True, (12, 2, 1, 8, 1, 40), (3, 1), [(1_234_567, 89, 4_500)],
             journal(345, 345, 1_000, False, True, (10, 150, 120, 40, 25)), (4, 2, 61, 1), 9_000_448),
        processes=processes([process(1, "running", "keeper", 3, 1, 12, 2, place("shop", "open", 1, 3, 0, 7)),
                             process(2, "ended", reason=clipped("{badarith,[]}"))], 2, None, 3, False),
        process=detail(process(1, "held", "keeper", 3, 1, 12, 2, place("shop", "open", 1, 3, 0, 7)), 1, 940, "call_only 2 {f,14}",
                       [clipped("51"), clipped("{buy,apple,2}")], [{"back": None, "y": [clipped("[]"), None]}], [clipped("hello")], [5, 9], False),
        modules=modules([module("shop", (7, 859), (5, 662, 3, [27, 165, 345])), module("ledger", (9, 1_053))], 2, True),
        connections=connections((1, "127.0.0.1:53211", 85_000)), log=log([(1, 1_796_111_320_349, "INFO listening on 127.0.0.1:4000")], 2),
        changes=[(2, 0), (1, 1), (0, 3), (0, 0), (4, 5)], losses=(0, 7), requests=(120, 3, 1)),
    "names": state(
        node(ODD, "0.1\\.0\"\n", "ünïx:" + ODD, 999, False, (1, 0, 0, 1, 0, 0), (1, 0), [(999_999, 1, 1), (1_000_000, 0, 7)],
             journal(1, 1, 1, True, False, (1, 0, 0, 0, 0)), (1, 0, 1, 0), 0),
        processes=processes([process(7, "waiting", ODD, at=place(ODD, "ф", 255, 1, 2, 3, "old"))]),
        process=detail(process(7, "waiting", "'", at=place("<b>", ODD, 0, 0, 0, 1, "entry"), reason=clipped(ODD, False)), 0, None, ODD,
                       [clipped(ODD, False)], [{"back": place(ODD, ODD), "y": [None, clipped("é")]}], [clipped("")], [], True),
        modules=modules([module(ODD, None, (1, 2, 0, [])), module("", (1, 0))]), connections=connections((1, ODD, 1)),
        log=log([(9, 0, ODD), (10, 1, "")]), changes=[(1, 0)] * 5, losses=(1, 0), requests=(0, 1, 0)),
    "large": state(
        node("n", "v", "a", U64, True, (U64, U64, U64, U64, U64, U64), (U64, U64), [(U64, U64, U64)] * 2,
             journal(U64, U64, U64, True, True, (U64,) * 5), (U64,) * 4, U64),
        processes=processes([process(2**32 - 1, "held", None, U64, U64, U64, U64, place("m", "f", 2**32 - 1, 2**32 - 1, U64, 2**32 - 1, "gone"))],
                            U64, U64, U64, True),
        process=detail(process(2**32 - 1, "running"), U64, U64, None, [], [], [], [U64, 0], True),
        modules=modules([module("m", (2**32 - 1, U64), (2**32 - 1, U64, U64, [2**32 - 1, 0]))], U64, True),
        connections=connections((U64, "p", U64)), log=log([(U64, U64, "x")], U64), changes=[(U64, U64)] * 5, losses=(U64, U64),
        requests=(U64,) * 3),
    "many": state(
        node("n", "v", "a", 60_001, False, (100, 90, 3, 4, 3, 1), (2, 2), [(i * 100_001, i, i * 7) for i in range(12)],
             journal(12, 4, 8, True, False, (1, 2, 3, 4, 2)), (8, 8, 9, 10), None),
        processes=processes([process(i, word, at=place("m", "f", i)) for i, word in enumerate(("running", "waiting", "held"))], None, 3, 3),
        process=detail(process(5, "waiting"), 2, 0, "wait {f,3}", [clipped(str(i)) for i in range(5)],
                       [{"back": place("m", "f", code=word), "y": []} for word in ("entry", "current", "old", "gone")] + [{"back": None, "y": []}],
                       [clipped("a"), clipped("b", False)], list(range(4))),
        modules=modules([module(f"m{i}", (i, i * 10)) for i in range(3)], 3), connections=connections(*((i, f"p{i}", i) for i in range(3))),
        log=log([(i, i * 1_000, f"WARN line {i}") for i in range(1, 4)]), changes=[(i, 10 - i) for i in range(5)], losses=(3, 4),
        requests=(1, 2, 3)),
}


def seconds(count, unit):
    whole, rest = divmod(count, unit)
    return f"{whole}.{rest * (1_000_000 // unit):06}"


def escaped(value):
    return value.replace("\\", "\\\\").replace('"', '\\"').replace("\n", "\\n")


def metric(name, kind, text, *samples):
    """Its lines. A sample is its labels and its number."""
    lines = [f"# HELP {name} {text}", f"# TYPE {name} {kind}"]
    for labels, number in samples:
        spelled = ",".join(f'{label}="{escaped(value)}"' for label, value in labels.items())
        lines.append(f"{name}{{{spelled}}} {number}" if labels else f"{name} {number}")
    return lines


def alone(name, kind, text, number):
    return metric(name, kind, text, ({}, number))


def metrics(told):
    n = told["node"]
    p, j, c = n["processes"], n["journal"], n["connections"]
    by_scheduler = lambda value: [({"scheduler": str(i)}, value(s)) for i, s in enumerate(n["schedulers"], 1)]  # noqa: E731
    kinds = {"command": "commands", "slice": "slices", "delivery": "deliveries", "moment": "moments", "timeout": "timeouts"}
    changes = [({"change": change, "result": result}, count)
               for change, counts in zip(("load", "purge", "soft_purge", "delete", "atomic"), told["changes"], strict=True)
               for result, count in zip(("ok", "refused"), counts, strict=True)]
    requests = [({"status": status}, count) for status, count in zip(("2xx", "4xx", "5xx"), told["requests"], strict=True)]
    resident = n["memory"]["resident_bytes"]
    lines = [
        metric("kanguriwe_build_info", "gauge", "The version of the program.", ({"version": n["version"]}, 1)),
        alone("kanguriwe_uptime_seconds", "gauge", "Seconds since the node began.", seconds(n["uptime_ms"], 1_000)),
        metric("kanguriwe_processes", "gauge", "Processes that live, by what they do.",
               *(({"state": word}, p[word]) for word in ("running", "waiting", "held"))),
        alone("kanguriwe_processes_started_total", "counter", "Processes that began.", p["started"]),
        alone("kanguriwe_processes_ended_total", "counter", "Processes that ended.", p["ended"]),
        metric("kanguriwe_modules", "gauge", "Instances of modules, by their age.",
               *(({"instance": word}, n["modules"][word]) for word in ("current", "old"))),
        metric("kanguriwe_scheduler_busy_seconds_total", "counter", "Seconds of a scheduler in slices.",
               *by_scheduler(lambda s: seconds(s["busy_us"], 1_000_000))),
        metric("kanguriwe_scheduler_slices_total", "counter", "Slices that a scheduler ran.", *by_scheduler(lambda s: s["slices"])),
        metric("kanguriwe_scheduler_rows_total", "counter", "Rows of code that a scheduler ran.", *by_scheduler(lambda s: s["rows"])),
        metric("kanguriwe_journal_entries_total", "counter", "Entries of the journal, by their kind.",
               *(({"kind": word}, j["kinds"][name]) for word, name in kinds.items())),
        alone("kanguriwe_journal_in_memory", "gauge", "Entries of the journal that are in memory.", j["in_memory"]),
        alone("kanguriwe_journal_limit", "gauge", "How many entries of the journal may be in memory.", j["limit"]),
        alone("kanguriwe_connections", "gauge", "Connections that are open.", c["taken"]),
        alone("kanguriwe_connection_places", "gauge", "How many connections there may be at a time.", c["places"]),
        alone("kanguriwe_connections_accepted_total", "counter", "Connections that were accepted.", c["accepted"]),
        alone("kanguriwe_connections_failed_total", "counter", "Connections that failed.", c["failed"]),
        metric("kanguriwe_changes_total", "counter", "Changes of code, by their kind and result.", *changes),
        alone("kanguriwe_memory_refusals_total", "counter", "How often memory was refused.", told["losses"][0]),
        alone("kanguriwe_log_lines_lost_total", "counter", "Lines of the log that were lost.", told["losses"][1]),
        [] if resident is None else alone("process_resident_memory_bytes", "gauge", "Resident memory size in bytes.", resident),
        metric("kanguriwe_page_requests_total", "counter", "Requests to the page, by the status of their answers.", *requests)]
    return "".join(line + "\n" for each in lines for line in each)


def answer(told, name):
    return metrics(told) if name == "metrics" else json.dumps(told[name], separators=(",", ":"), ensure_ascii=False)


def literal(text):
    """A string of Rust whose bytes are the text's UTF-8."""
    plain = {"\\": "\\\\", '"': '\\"', "\n": "\\n", "\r": "\\r", "\t": "\\t"}
    return '"' + "".join(plain.get(c) or (c if c.isprintable() else f"\\u{{{ord(c):x}}}") for c in text) + '"'


def main():
    parser = argparse.ArgumentParser(description=__doc__, formatter_class=argparse.RawDescriptionHelpFormatter)
    parser.add_argument("--state", choices=STATES)
    parser.add_argument("--answer", choices=[*ANSWERS, "metrics"])
    parser.add_argument("--literal", action="store_true")
    options = parser.parse_args()
    for name, told in STATES.items():
        for each in [*ANSWERS, "metrics"]:
            if options.state in (None, name) and options.answer in (None, each):
                text = answer(told, each)
                print(f"== {name} {each}")
                print(literal(text) if options.literal else text)


if __name__ == "__main__":
    main()
