#!/usr/bin/env bash
# Sessions with the built `beamnode serve`: first all commands, whose replies have to be those of `beamnode pipe` (tests/sessions.py; status 1
# and the commands where they aren't); then some that replace code while processes run, one by clients/beamctl.py and, where erl is
# installed, one by clients/kanguriwe.erl, of which the commands and their answers are printed. It builds nothing: `rt run` in
# crates/beamnode and crates/beamas makes their out/ folders; NODE and AS name other programs. Not part of `rt ci`.
set -euo pipefail

root=$(cd "$(dirname "$0")/.." && pwd)
node=${NODE:-$root/crates/beamnode/out/beamnode}
as=${AS:-$root/crates/beamas/out/beamas}
folder=$(mktemp -d)
server=

stop() {
    if [[ -n $server ]]; then
        kill "$server" 2>/dev/null || true
        wait "$server" 2>/dev/null || true
        server=
    fi
}
trap 'stop; rm -rf "$folder"' EXIT

for program in "$node" "$as"; do
    if [[ ! -x $program ]]; then
        echo "no program $program: build it first" >&2
        exit 1
    fi
done

# Starts a node of its own; port is where it listens.
start() {
    : >"$folder/listening"
    "$node" serve --port 0 --schedulers 4 >"$folder/listening" 2>"$folder/warnings" &
    server=$!
    until port=$(sed -n 's/^listening on 127\.0\.0\.1://p' "$folder/listening") && [[ -n $port ]]; do
        if ! kill -0 "$server" 2>/dev/null; then
            echo "the node ended: $(<"$folder/warnings")" >&2
            exit 1
        fi
        sleep 0.05
    done
}

# Runs lines of beamctl's words, each with a port, and prints them with their answers.
control() {
    local line status
    while read -r line; do
        echo "$ beamctl.py --port $port $line"
        status=0
        (cd "$folder" && eval "python3 '$root/clients/beamctl.py' --port $port $line" 2>&1) || status=$?
        if [[ $status != 0 ]]; then
            echo "(status $status)"
        fi
    done
}

# Evaluates lines of Erlang text in turn, with Port bound, and prints them with their values.
erlang() {
    cat >"$folder/lines.erl" <<'END'
-module(lines).
-export([main/1]).

main([Port]) -> evaluate(io:get_line(""), [{'Port', list_to_integer(Port)}]).

evaluate(eof, _) -> halt();
evaluate(Line, Bindings) ->
    {ok, Tokens, _} = erl_scan:string(Line),
    {ok, Expressions} = erl_parse:parse_exprs(Tokens),
    io:format("> ~s", [Line]),
    {value, Value, After} = erl_eval:exprs(Expressions, Bindings),
    io:format("~p~n", [Value]),
    evaluate(io:get_line(""), After).
END
    cp "$root/clients/kanguriwe.erl" "$folder"
    (cd "$folder" && erlc kanguriwe.erl lines.erl && erl -noshell -run lines main "$port")
}

python3 "$root/tests/sessions.py" --beamas "$as" "$node"

stories=$root/crates/vectors/data/stories
cp "$root/examples/t.beam" "$folder"
for listing in "$stories"/server{1,2}.S; do
    "$as" "$listing" "$folder/$(basename "$listing" .S).beam"
done
head -c 20 "$folder/t.beam" >"$folder/cut.beam"

start
echo
echo "# A server goes over to new code when it is told to."
control <<'END'
load server1.beam
spawn u:loop '[]'
load server2.beam
soft_purge u
load --strict server1.beam
inspect 1
send 1 upgrade
soft_purge u
versions u
inspect 1
send 1 '{stop,now}'
inspect 1
END
echo
echo "# A purge ends the processes that linger in old code."
control <<'END'
load server1.beam
spawn u:loop '[]'
load server2.beam
purge u
inspect 2
END
echo
echo "# A break spot, and files and numbers that the node refuses."
control <<'END'
load t.beam
break current:t:5:1
spawn t:sum '[4]'
inspect 3
steps 3 1
step 3
clear current:t:5:1
resume 3
inspect 3
break current:t:7:0
load cut.beam
clock 0
send nobody '{hello,[1,2|x]}'
END
stop

if ! command -v erl >/dev/null; then
    echo "erl isn't installed: no session with clients/kanguriwe.erl"
    exit 0
fi
start
echo
echo "# A server goes over to new code when it is told to."
erlang <<'END'
{ok, Node} = kanguriwe:connect(Port).
kanguriwe:load(Node, "server1.beam").
kanguriwe:spawn(Node, u, loop, []).
kanguriwe:load(Node, "server2.beam").
kanguriwe:soft_purge(Node, u).
kanguriwe:load_strict(Node, "server1.beam").
kanguriwe:send(Node, 1, upgrade).
kanguriwe:soft_purge(Node, u).
kanguriwe:versions(Node, u).
kanguriwe:set_break(Node, {current, u, 3, 0}).
kanguriwe:send(Node, 1, {stop, kanguriwe:pid(1), [1, 2 | x]}).
timer:sleep(10).
{ok, View} = kanguriwe:inspect(Node, 1), io:put_chars(View).
kanguriwe:step_one(Node, 1).
kanguriwe:clear_break(Node, {current, u, 3, 0}).
kanguriwe:resume(Node, 1).
timer:sleep(10).
kanguriwe:inspect(Node, 1).
kanguriwe:delete(Node, u).
kanguriwe:purge(Node, u).
kanguriwe:load(Node, "cut.beam").
kanguriwe:set_break(Node, nowhere).
kanguriwe:versions(Node, u).
kanguriwe:close(Node).
END
