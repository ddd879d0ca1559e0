#!/usr/bin/env python3
"""A node that isn't one: answers what the page asks, from made-up processes. It prints its address and serves until POST /stop.

    fake_node.py --page FILE [--port 4080] [--processes 1000] [--schedulers 4] [--token T] [--in-file]

The page is the HTML of crates/beam_page/src/page.rt; --page takes that file too. Port 0 takes a free one. Python 3.10, its standard library alone."""

import argparse
import heapq
import json
import os
import random
import threading
import time
from http.server import BaseHTTPRequestHandler, ThreadingHTTPServer
from urllib.parse import parse_qs, urlsplit

PAGE = os.path.join(os.path.dirname(os.path.abspath(__file__)), "../../crates/beam_page/src/page.rt")
MOST_SEEN = 200_000  # processes that one answer looks at
MOST_SORTED = 10_000  # rows that an order has
LIMIT = 4_000_000  # entries of the journal that may be in memory
PLACES = [("shop", "open", 1), ("shop", "serve", 2), ("ledger", "account", 2), ("ledger", "commit", 1), ("broker", "topic", 3), ("keeper", "loop", 1)]
CODE = {"shop": (7, 5), "ledger": (9, None), "broker": (4, 3), "keeper": (2, None), "beamctl_helper": (1, None), "<b>it's</b>": (11, 10)}
KEYS = {"pid": "pid", "mailbox": "mailbox", "transit": "transit", "stack": "stack_words"}
HEADERS = {
    "Cache-Control": "no-store",
    "X-Content-Type-Options": "nosniff",
    "Referrer-Policy": "no-referrer",
    "Cross-Origin-Resource-Policy": "same-origin",
    "Content-Security-Policy": "default-src 'none'; style-src 'unsafe-inline'; script-src 'unsafe-inline'; img-src data:; connect-src 'self'; "
    "base-uri 'none'; form-action 'none'; frame-ancestors 'none'",
}


def page_text(path):
    """The page; of a source, what stands between the marks of its text."""
    with open(path, encoding="utf-8") as file:
        text = file.read()
    return text.split('r##"', 1)[1].rsplit('"##', 1)[0] if path.endswith(".rt") else text


def clipped(text, whole=True):
    return {"text": text, "whole": whole}


class Process:
    def __init__(self, pid, rand, processes):
        self.pid, self.place = pid, rand.choice(PLACES)
        self.name = {1: "keeper", 2: "broker", 3: "<i>ledger</i>"}.get(pid)
        self.state = "ended" if rand.random() < 0.04 and pid > 3 else rand.choices(["waiting", "running", "held"], [88, 11.5, 0.5])[0]
        self.mailbox = int(rand.paretovariate(1.1)) - 1 if self.state != "ended" else 0
        self.transit, self.stack_words = rand.choice([0, 0, 0, 1, 2]), rand.randrange(0, 90)
        self.old = CODE[self.place[0]][1] is not None and rand.random() < 0.03
        self.reason = rand.choice(["normal", "killed", "{badarith,[]}"]) if self.state == "ended" else None
        self.monitored = [rand.randrange(4, max(5, processes)) for _ in range(3)] if pid == 1 else []

    def at(self):
        module, function, arity = self.place
        new, old = CODE[module]
        return {"module": module, "function": function, "arity": arity, "label": self.pid % 9 + 1, "row": self.pid % 4,
                "instance": old if self.old else new, "code": "old" if self.old else "current"}

    def row(self):
        return {"pid": self.pid, "name": self.name, "state": self.state, "mailbox": self.mailbox, "transit": self.transit,
                "stack_words": self.stack_words, "monitors": 120 if self.monitored else 0, "at": None if self.reason else self.at(),
                "reason": clipped(self.reason) if self.reason else None}

    def detail(self):
        over = self.state == "ended"
        deep = "{state," + ",".join("[" + ",".join(f"{{item_{i},{i * 7}}}" for i in range(40)) + "]" for _ in range(9))
        down = [clipped(f"{{'DOWN',#Ref<0.0.0.{i}>,process,<0.{i + 9}.0>,killed}}") for i in range(min(self.mailbox, 5))]
        return self.row() | {
            "save": self.mailbox // 2, "deadline_ms": 940 if self.state == "waiting" and self.pid % 3 == 0 else None,
            "next": None if over else "call_only 2 {f,14}",
            "x": [] if over else [clipped(str(self.pid * 3)), clipped("{buy,apple,2}"), clipped(deep[:1000], False)],
            "frames": [] if over else [{"back": self.at(), "y": [clipped("[]"), None, clipped("{price,140}")]}, {"back": None, "y": []}],
            "first_messages": [] if over else down, "monitored": self.monitored, "cut": self.mailbox > 5 or bool(self.monitored)}

    def matches(self, state, part):
        if state == "live" and self.state == "ended" or state == "old" and not self.old:
            return False
        if state not in ("live", "old") and self.state != state:
            return False
        if part.isdigit():
            return self.pid == int(part)
        return not part or part in (self.name or "") or part in self.place[0]


class Node:
    """Made-up processes, of which a few go on ten times a second."""

    def __init__(self, options):
        self.options, self.rand = options, random.Random(7)
        self.began, self.stopped = time.monotonic(), threading.Event()
        self.all = [Process(n, self.rand, options.processes) for n in range(options.processes)]
        self.entries = 2_340_000
        self.schedulers = [{"busy_us": 0, "slices": 0, "rows": 0} for _ in range(options.schedulers)]
        now = int(time.time() * 1000)
        lines = ["INFO listening on 127.0.0.1:4000", "INFO load shop: current 7, old 5", "WARN journal: 50 percent of 4000000 entries",
                 "INFO process <0.17.0>: ended with {badarith,[]}", "ERROR a line with <img src=x onerror=alert(1)>"]
        self.log = [{"number": i, "time_ms": now - 90_000 + 9_000 * i, "text": line} for i, line in enumerate(lines, 1)]

    def go_on(self):
        phase = 0.0
        while not self.stopped.wait(0.1):
            phase += 0.1
            for i, scheduler in enumerate(self.schedulers):
                busy = min(1, max(0, 0.55 - 0.12 * i + 0.3 * ((phase / 20 + i / 3) % 1 - 0.5) + self.rand.uniform(-0.1, 0.1)))
                slices = int(busy * 420)
                scheduler["busy_us"] += int(busy * 100_000)
                scheduler["slices"] += slices
                scheduler["rows"] += slices * self.rand.randrange(900, 2500)
                self.entries = min(LIMIT, self.entries + slices // 3)
            for process in self.rand.sample(self.all, min(len(self.all), 40)):
                if process.state in ("waiting", "running"):
                    process.state = self.rand.choices(["waiting", "running"], [88, 12])[0]
                    process.mailbox = max(0, process.mailbox + self.rand.choice([-2, -1, 0, 1, 2]))

    def processes(self, query):
        get = lambda key, usual: query.get(key, [usual])[0]  # noqa: E731
        after, limit = get("after", None), min(max(int(get("limit", "100")), 1), 500)
        state, sort, down, part = get("state", "live"), get("sort", "pid"), get("down", "0") == "1", get("q", "")
        if sort == "pid" and not down:
            return self.by_pid(0 if after is None else int(after) + 1, limit, state, part)
        found = [process for process in self.all[:MOST_SEEN] if process.matches(state, part)]
        key = lambda process: (getattr(process, KEYS[sort]), -process.pid if down else process.pid)  # noqa: E731
        begin = int(after or 0)
        most = min(begin, MOST_SORTED) + limit
        best = heapq.nlargest(most, found, key) if down else heapq.nsmallest(most, found, key)
        return {"processes": [process.row() for process in best[begin:]], "next": most if most < min(len(found), MOST_SORTED) else None,
                "matching": len(found), "seen": min(len(self.all), MOST_SEEN), "partial": len(self.all) > MOST_SEEN}

    def by_pid(self, begin, limit, state, part):
        rows, seen = [], 0
        for process in self.all[begin:]:
            seen += 1
            if process.matches(state, part):
                if len(rows) == limit:
                    return {"processes": rows, "next": rows[-1]["pid"], "matching": None, "seen": seen, "partial": False}
                rows.append(process.row())
            if seen == MOST_SEEN:
                return {"processes": rows, "next": process.pid, "matching": None, "seen": seen, "partial": True}
        return {"processes": rows, "next": None, "matching": None, "seen": seen, "partial": False}

    def told(self):
        states = {state: 0 for state in ("running", "waiting", "held", "ended")}
        for process in self.all:
            states[process.state] += 1
        ended, live = states.pop("ended"), sum(states.values())
        return {
            "name": "kanguriwe", "version": "0.1.0", "address": "127.0.0.1:4000", "uptime_ms": int((time.monotonic() - self.began) * 1000),
            "can_stop": True, "processes": {"started": len(self.all), "ended": ended, "live": live} | states | {"counted_ms": 40},
            "modules": {"current": len(CODE), "old": 3}, "schedulers": self.schedulers, "journal": self.journal(),
            "connections": {"places": 4, "taken": 2, "accepted": 61, "failed": 1},
            "memory": {"resident_bytes": 9_000_000 + 2_100 * len(self.all) + self.entries * 64}}

    def modules(self, _query):
        modules = []
        for name, (current, old) in sorted(CODE.items()):
            who = [process.pid for process in self.all if process.old and process.place[0] == name and process.state != "ended"]
            modules.append({"name": name, "current": {"instance": current, "instructions": 180 + 97 * current},
                            "old": None if old is None else {"instance": old, "instructions": 177 + 97 * old, "lingering": len(who), "first": who[:8]}})
        return {"modules": modules, "next": None, "partial": False}

    def journal(self, _query=None):
        entries = self.entries
        kinds = {"commands": int(entries * 0.02), "slices": entries // 2, "deliveries": int(entries * 0.38), "moments": int(entries * 0.07)}
        kinds["timeouts"] = entries - sum(kinds.values())
        return {"entries": entries, "in_memory": 4_096 if self.options.in_file else entries, "limit": LIMIT, "in_file": self.options.in_file,
                "stops_when_full": True, "kinds": kinds}

    def connections(self, _query):
        return {"connections": [{"place": i, "peer": f"127.0.0.1:{53210 + i}", "since_ms": 81_000 * i + 4_000} for i in (1, 2)]}

    def lines(self, query):
        after = int(query.get("after", ["0"])[0])
        return {"lines": [line for line in self.log if line["number"] > after], "lost": 0}

    def answer(self, path, query):
        known = {"/api/node": lambda _query: self.told(), "/api/processes": self.processes, "/api/modules": self.modules,
                 "/api/journal": self.journal, "/api/connections": self.connections, "/api/log": self.lines}
        if path in known:
            return known[path](query)
        number = path.removeprefix("/api/process/")
        return self.all[int(number)].detail() if number.isdigit() and int(number) < len(self.all) else None


class Handler(BaseHTTPRequestHandler):
    protocol_version = "HTTP/1.1"
    node = None

    def log_message(self, *_words):
        pass

    def give(self, status, body, kind="text/plain; charset=utf-8"):
        body = body.encode()
        self.send_response(status)
        for name, value in ({"Content-Type": kind, "Content-Length": str(len(body))} | HEADERS).items():
            self.send_header(name, value)
        self.end_headers()
        self.wfile.write(body)

    def give_json(self, status, body):
        self.give(status, json.dumps(body, separators=(",", ":"), ensure_ascii=False), "application/json; charset=utf-8")

    def asks_well(self):
        own = {f"{host}:{self.server.server_port}" for host in ("127.0.0.1", "localhost")}
        origin = self.headers.get("Origin")
        return self.headers.get("Host") in own and (origin is None or origin.removeprefix("http://") in own)

    def has_token(self):
        token = self.node.options.token
        return not token or self.headers.get("Authorization") == "Bearer " + token

    def do_GET(self):
        at = urlsplit(self.path)
        if not self.asks_well():
            self.give(403, "not from here\n")
        elif at.path == "/":
            self.give(200, page_text(self.node.options.page), "text/html; charset=utf-8")
        elif at.path in ("/healthz", "/readyz"):
            self.give(200, "ok\n")
        elif not self.has_token():
            self.give(401, "a token is wanted\n")
        elif (body := self.node.answer(at.path, parse_qs(at.query))) is not None:
            self.give_json(200, body)
        else:
            self.give(404, "nothing has that name\n")

    def do_POST(self):
        if not self.asks_well() or self.headers.get("X-Kanguriwe") != "1":
            self.give(403, "not from here\n")
        elif not self.has_token():
            self.give(401, "a token is wanted\n")
        elif self.path != "/stop":
            self.give(404, "nothing has that name\n")
        else:
            self.give_json(202, {"stopping": True})
            self.node.stopped.set()


def main():
    parser = argparse.ArgumentParser(description=__doc__, formatter_class=argparse.RawDescriptionHelpFormatter)
    parser.add_argument("--page", default=PAGE)
    parser.add_argument("--port", type=int, default=4080)
    parser.add_argument("--processes", type=int, default=1000)
    parser.add_argument("--schedulers", type=int, default=4)
    parser.add_argument("--token")
    parser.add_argument("--in-file", action="store_true")
    node = Handler.node = Node(parser.parse_args())
    server = ThreadingHTTPServer(("127.0.0.1", node.options.port), Handler)
    for work in (node.go_on, server.serve_forever):
        threading.Thread(target=work, daemon=True).start()
    print(f"http://127.0.0.1:{server.server_port}/", flush=True)
    node.stopped.wait()
    time.sleep(0.3)


if __name__ == "__main__":
    main()
