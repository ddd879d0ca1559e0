#!/usr/bin/env bash
# What clients/beamctl.py prints and answers, over a built `beamnode serve`: each line below that begins with $ is run, and
# has to print the lines after it, with its status if that isn't 0. Then tests/ctl_replies.py, which gives it replies that no
# such node can be brought to give, and bytes that are no replies; and, where erlc is installed, tests/ctl_calls.erl, the
# calls of clients/kanguriwe.erl. It builds nothing: try.sh makes the programs unproved in a few minutes, `rt run` proved in
# crates/beamnode and crates/beamas; NODE and AS name other programs. Status 1
# names each line that differs. Not part of `rt ci`.
set -uo pipefail

root=$(cd "$(dirname "$0")/.." && pwd)
node=${NODE:-$root/crates/beamnode/out/beamnode}
as=${AS:-$root/crates/beamas/out/beamas}
folder=$(mktemp -d)
server=
trap 'kill $server 2>/dev/null; rm -rf "$folder"' EXIT

for program in "$node" "$as"; do
    if [[ ! -x $program ]]; then
        echo "no program $program: build it first" >&2
        exit 1
    fi
done
cd "$folder" || exit 1

cp "$root"/examples/t.{beam,S} .
"$as" "$root/examples/v1/shop.S" shop.beam && "$as" "$root/examples/v2/shop.S" shop2.beam || exit 1
"$as" "$root/examples/counter.S" counter.beam || exit 1
printf '{module,erlang}.\n{exports,[]}.\n{attributes,[]}.\n{labels,1}.\n' >erlang.S && "$as" erlang.S erlang.beam || exit 1
# hold(N, X) puts X into two places of a tuple, that into two of another, and so N times; it keeps the last tuple, and answers
# {From, Question} with the question. leave(N, X) ends with that tuple as its reason.
cat >grow.S <<'LISTING'
{module,grow}. {exports,[{hold,2},{leave,2}]}. {attributes,[]}. {labels,10}.
{function,hold,2,2}. {label,1}. {func_info,{atom,grow},{atom,hold},2}.
{label,2}. {test,is_eq_exact,{f,6},[{x,0},{integer,0}]}. {allocate,1,2}. {move,{x,1},{y,0}}. {move,{integer,0},{x,1}}.
{label,3}. {loop_rec,{f,5},{x,0}}. {test,is_tuple,{f,4},[{x,0}]}. {test,test_arity,{f,4},[{x,0},2]}. remove_message.
{get_tuple_element,{x,0},1,{x,1}}. {get_tuple_element,{x,0},0,{x,0}}. send.
{move,{y,0},{x,1}}. {move,{integer,0},{x,0}}. {call_last,2,{f,2},1}.
{label,4}. {loop_rec_end,{f,3}}.
{label,5}. {wait,{f,3}}.
{label,6}. {gc_bif,'-',{f,0},2,[{x,0},{integer,1}],{x,0}}. {test_heap,3,2}. {put_tuple2,{x,1},{list,[{x,1},{x,1}]}}. {call_only,2,{f,2}}.
{function,leave,2,8}. {label,7}. {func_info,{atom,grow},{atom,leave},2}.
{label,8}. {test,is_eq_exact,{f,9},[{x,0},{integer,0}]}. {move,{x,1},{x,0}}. {call_ext_only,1,{extfunc,erlang,exit,1}}.
{label,9}. {gc_bif,'-',{f,0},2,[{x,0},{integer,1}],{x,0}}. {test_heap,3,2}. {put_tuple2,{x,1},{list,[{x,1},{x,1}]}}. {call_only,2,{f,8}}.
LISTING
"$as" grow.S grow.beam || exit 1
# Grown sixteen times these are 16 MB of text.
leaf=$(printf 'a%.0s' {1..250})
head -c 20 t.beam >cut.beam
printf '\x1f\x8b\x08' >packed.beam
head -c 8388608 /dev/zero >large.beam
python3 - <<'CODE'
file = open("t.beam", "rb").read()
def chunk(name): return file.index(name)
def written(name, *parts): open(name, "wb").write(b"".join(parts))
code = chunk(b"Code")
written("opcode.beam", file[: code + 28], b"\x0e", file[code + 29 :])
written("nocode.beam", file[:code], b"Kode", file[code + 4 :])
CODE

# Starts a node in the place of the last one; port is where it listens, and so is the socket of that name.
start() {
    kill $server 2>/dev/null
    : >listening
    "$node" serve --port 0 --socket socket --schedulers 2 >listening 2>warnings &
    server=$!
    disown
    for _ in $(seq 100); do
        # The line of the port comes before that of the socket.
        grep -q '^listening on socket$' listening && port=$(sed -n 's/^listening on 127\.0\.0\.1://p' listening) && return
        sleep 0.05
    done
    echo "the node doesn't listen: $(<warnings)" >&2
    exit 1
}
start

beamctl() { python3 "$root/clients/beamctl.py" "$@"; }
ctl() { beamctl --port "$port" "$@"; }
by_socket() { beamctl --socket socket "$@"; }

# occupied SECONDS COMMAND WORD..: the port's only place is taken for so long, and the command tries.
occupied() {
    local seconds=$1
    shift
    exec 9<>"/dev/tcp/127.0.0.1/$port"
    (sleep "$seconds") 9<&9 &
    exec 9>&-
    "$@"
}

# alone COMMAND WORD..: runs a command beside a node that has no port, but the socket `alone`, and prints the node's status at its end.
alone() {
    : >alone.out
    "$node" serve --socket alone --log error >alone.out 2>&1 &
    for _ in $(seq 100); do
        grep -q '^listening on alone$' alone.out && break
        sleep 0.05
    done
    "$@"
    wait $!
    echo "the node's status: $?"
}

# held PID: waits until the process is held.
held() {
    for _ in $(seq 50); do
        if ctl inspect "$1" 2>/dev/null | grep -q '^<0.[0-9]*.0> held$'; then return; fi
        sleep 0.05
    done
    echo "not held: $(ctl inspect "$1")"
}

count=0 failed=0
command= wanted=

# Runs the command, and compares its output with the wanted one.
compare() {
    if [[ -z $command ]]; then return; fi
    local found status
    found=$(eval "$command" 2>&1 </dev/null)
    status=$?
    [[ $status == 0 ]] || found+=${found:+$'\n'}"(status $status)"
    count=$((count + 1))
    if [[ $found != "$wanted" ]]; then
        failed=$((failed + 1))
        printf 'differs: %s\nwanted:\n%s\nfound:\n%s\n\n' "$command" "$wanted" "$found"
    fi
}

while IFS= read -r line; do
    if [[ $line == '$ '* ]]; then
        compare
        command=${line#'$ '} wanted=
    elif [[ $line != '' && $line != '#'* ]]; then
        wanted+=${wanted:+$'\n'}$line
    fi
done <<'END_OF_LINES'
# ---- Code
$ ctl load t.beam
current 1, old none
$ ctl versions t
current 1, old none
$ ctl versions nothing
current none, old none
$ ctl load --strict t.beam
current 2, old 1
$ ctl load --strict t.beam
beamctl: NotPurged
(status 1)
$ ctl soft_purge t
true
$ ctl delete t
true
$ ctl delete t
false
$ ctl purge t
false
$ ctl load t.beam counter.beam
current 3, old none
current 4, old none
$ ctl --json load t.beam
{"current": 5, "old": 3}
$ ctl --json versions nothing
{"current": null, "old": null}

# ---- Files that are refused
$ ctl load t.S
beamctl: BadFile: NotForm (1,1)
(status 1)
$ ctl load cut.beam
beamctl: BadFile: Truncated (1,2)
(status 1)
$ ctl load packed.beam
beamctl: BadFile: CompressedFile (1,3)
(status 1)
$ ctl load nocode.beam
beamctl: BadFile: MissingChunk (2,1)
(status 1)
$ ctl load opcode.beam
beamctl: BadFile: UnsupportedOpcode (3,1)
(status 1)
$ ctl load --json opcode.beam
{"error": "BadFile", "fault": "UnsupportedOpcode", "layer": 3, "number": 1}
(status 1)
$ ctl load erlang.beam
beamctl: Sticky
(status 1)
$ ctl load large.beam
beamctl: TooLong
(status 1)
$ ctl load missing.beam
beamctl: missing.beam: No such file or directory
(status 1)
$ ctl load .
beamctl: .: Is a directory
(status 1)

# ---- Values: processes 1 to 14
$ ctl call t:sum '[4]'
10
$ ctl --json call t:sum '[4]'
{"value": "10"}
$ ctl call counter:main '[3]'
6
$ ctl call t:sum '[a]'
beamctl: error: badarith
(status 3)
$ ctl --json call t:sum '[a]'
{"error": "error", "reason": "badarith"}
(status 3)
$ ctl call t:none
beamctl: error: undef
(status 3)
$ ctl call erlang:throw '[{a,"bc"}]'
beamctl: throw: {a,[98,99]}
(status 3)
$ ctl call erlang:exit '[normal]'
beamctl: exit: normal
(status 3)
$ ctl call erlang:hd '["abc"]'
97
$ ctl call erlang:element "[2, {a, <0.1.0>}]"
<0.1.0>
$ ctl call erlang:'=:=' '["a\n\"\x{263a}", [97, 10, 34, 9786]]'
true
$ ctl call erlang:atom_to_list "['a\\'b']"
[97,39,98]
$ ctl call erlang:abs '[-576460752303423487]'
576460752303423487
$ ctl call erlang:setelement '[1, {a,b}, [1|2]]'
{[1|2],b}
$ ctl versions beamctl_helper
current 6, old none

# ---- Processes: a shop, 17, that goes over to new code
$ ctl spawn t:sum '[9]'
<0.16.0>
$ ctl wait 16 '<0.15.0>'
<0.16.0> ended normal
<0.15.0> ended {returned,{[1|2],b}}
$ ctl --json wait 16
{"pid": "<0.16.0>", "state": "ended", "reason": "normal"}
$ ctl load shop.beam
current 7, old none
$ ctl --json spawn shop:open '[0]'
{"pid": "<0.17.0>"}
$ ctl ask 17 '{buy,2}'
{costs,6,sold,2}
$ ctl ps
PID       STATE    MAILBOX  TRANSIT  AT
<0.17.0>  waiting  0        0        shop:open/1 label 3 + 0 instance 7
$ ctl register shop '<0.17.0>'
done
$ ctl register shop 17
beamctl: badarg: the name is taken, or the process has a name
(status 1)
$ ctl register other 16
beamctl: NoProcess: <0.16.0> has ended
(status 1)
$ ctl whereis shop
<0.17.0>
$ ctl whereis other
undefined
$ ctl load shop2.beam
current 8, old 7
$ ctl soft_purge shop
false
$ ctl lingers shop
PID       STATE    MAILBOX  TRANSIT  AT
<0.17.0>  waiting  0        0        shop:open/1 label 3 + 0 instance 7
$ ctl ask shop '{buy,1}'
{costs,3,sold,3}
$ ctl lingers shop
PID  STATE  MAILBOX  TRANSIT  AT
$ ctl soft_purge shop
true
$ ctl --json lingers shop
[]
$ ctl --json ask shop '{Self, {buy,1}}'
{"value": "{costs,2,sold,4}"}
$ ctl inspect shop
beamctl: shop is no process: a number, or <0.NUMBER.0>
(status 2)
$ ctl inspect '<0.17.0>'
<0.17.0> waiting
at shop:open/1 label 3 + 0 instance 8
next {loop_rec,{f,6},{x,0}}
x0 = 4
x1 = {costs,2,sold,4}
x2 = 4
frame return end
y0 = []
y1 = 4
mailbox 0 save 0 transit 0
$ ctl --json inspect 17
{"pid": "<0.17.0>", "state": "waiting", "at": "shop:open/1 label 3 + 0 instance 8", "next": "{loop_rec,{f,6},{x,0}}", "x": {"x0": "4", "x1": "{costs,2,sold,4}", "x2": "4"}, "frames": [{"return": "end", "y": {"y0": "[]", "y1": "4"}}], "mailbox": 0, "save": 0, "transit": 0}
$ ctl send shop "hello"
done
$ ctl send 17 '{a,[b|c]}'
done
$ ctl --timeout 0.2 ask 17 something
beamctl: no answer from 17 within 0.2 seconds
(status 1)
$ ctl ps
PID       STATE    MAILBOX  TRANSIT  AT
<0.17.0>  waiting  3        0        shop:open/1 label 3 + 0 instance 8
$ ctl top --count 2 --interval 0.05 | grep .
1 processes, 1 waiting
PID       RAN  STATE    MAILBOX  TRANSIT  AT
<0.17.0>  0%   waiting  3        0        shop:open/1 label 3 + 0 instance 8

1 processes, 1 waiting
PID       RAN  STATE    MAILBOX  TRANSIT  AT
<0.17.0>  0%   waiting  3        0        shop:open/1 label 3 + 0 instance 8
$ ctl --timeout 0.2 wait 17
beamctl: <0.17.0> hasn't ended within 0.2 seconds
(status 1)
$ ctl unregister shop
done
$ ctl unregister shop
beamctl: NoProcess
(status 1)
$ ctl ask shop hello
beamctl: NoProcess
(status 1)
$ ctl kill 17 '{no, more}'
done
$ ctl wait 17
<0.17.0> ended {no,more}
$ ctl kill 17
beamctl: NoProcess: <0.17.0> has ended
(status 1)
$ ctl ask 17 hello
beamctl: NoProcess: <0.17.0> has ended
(status 1)

# ---- The debugger
$ ctl break t:sum/1
true
$ ctl break t:sum/1 --file t.S
false
$ ctl break t:sum/2 --file t.S
true
$ ctl break current:t:5:1
true
$ ctl spawn t:sum '[1]' | tee held
<0.30.0>
$ held 30; ctl inspect 30
<0.30.0> held
at t:sum/1 label 2 + 0 instance 5
next {move,{integer,0},{x,1}}
x0 = 1
frame return end
mailbox 0 save 0 transit 0
$ ctl steps 30 1
beamctl: Stopped
(status 1)
$ ctl step 30
rows 1, held
$ ctl resume 30
done
$ held 30; ctl inspect 30 | sed -n 2p
at t:sum/2 label 4 + 0 instance 5
$ ctl --json step 30
{"rows": 1, "state": "held"}
$ ctl clear t:sum/1
true
$ ctl clear t:sum/1
false
$ ctl clear t:sum/2 --file t.S
true
$ ctl clear current:t:5:1
true
$ ctl resume 30
done
$ ctl wait 30
<0.30.0> ended normal
$ ctl break current:t:7:0
beamctl: BadSpot
(status 1)
$ ctl break old:shop:2:-1
beamctl: BadSpot
(status 1)
$ ctl break t:sum/2
beamctl: t.beam: sum/2 isn't among its functions: a file has the exported ones, its listing (.S) all
(status 1)
$ ctl break other:f/1
beamctl: other.beam: No such file or directory
(status 1)
$ ctl break t:sum/1 --file cut.beam
beamctl: cut.beam: no file or listing of a module
(status 1)
$ ctl break t:sum
beamctl: t:sum isn't MODULE:FUNCTION/ARITY, current:MODULE:LABEL:ROWS or old:MODULE:LABEL:ROWS
(status 2)

# ---- Processes that aren't there, or can't do what is asked
$ for command in inspect deliver timeout resume step wait kill; do ctl "$command" 99; echo "$?"; done
beamctl: NoProcess
1
beamctl: NoProcess
1
beamctl: NoProcess
1
beamctl: NoProcess
1
beamctl: NoProcess
1
beamctl: NoProcess
1
beamctl: NoProcess
1
$ ctl steps 99 1
beamctl: NoProcess
(status 1)
$ ctl steps 4294967295 4294967295
beamctl: NoProcess
(status 1)
$ ctl send 99 hello
beamctl: NoProcess
(status 1)
$ ctl send nobody hello
beamctl: NoProcess
(status 1)
$ ctl --json send nobody hello
{"error": "NoProcess"}
(status 1)
$ ctl ask 99 hello
beamctl: NoProcess
(status 1)
$ ctl spawn shop:open '[0]'
<0.31.0>
$ for command in deliver timeout resume step; do ctl "$command" 31; done
beamctl: NotReady
beamctl: NotReady
beamctl: NotReady
beamctl: NotReady
(status 1)
$ ctl steps 31 1
beamctl: NotReady
(status 1)
$ ctl clock 0
beamctl: BackwardClock
(status 1)
$ ctl versions "$(printf 'm%.0s' {1..300})"
beamctl: BadCommand
(status 1)

# ---- A session of several commands
$ printf 'load t.beam\n\n# a comment\ncall t:sum [4]\nspawn t:sum ["ab", {c d}]\nspawn t:sum [{"a b", %s}]\nquit\nps\n' "'c d'" | ctl
current 9, old 5
10
beamctl: d after an element of a tuple or list
<0.33.0>
(status 2)
$ printf 'inspect 99\nsend 31 close # ends it\nwait 31\ninspect 98\nbad\n' | ctl --json 2>/dev/null
{"error": "NoProcess"}
"done"
{"pid": "<0.31.0>", "state": "ended", "reason": "normal"}
{"error": "NoProcess"}
(status 2)
$ printf 'call --json erlang:tl ["abc"]\nload t.beam\nbreak t:sum/1\nclear t:sum/1\nhelp\n' | ctl | head -5
{"value": "[98,99]"}
current 10, old 9
true
true
usage: COMMAND ...
$ printf 'wait 31\n' | ctl
<0.31.0> ended normal
$ ctl
$ ctl ps --all | tail -3
<0.32.0>  ended                    {returned,10}
<0.33.0>  ended                    {badarith,[]}
<0.34.0>  ended                    {returned,[98,99]}
$ ctl ps --all --last 2
beamctl: 34 processes were started; these are of the last 2 (--last 0: of all)
PID       STATE  MAILBOX  TRANSIT  AT
<0.33.0>  ended                    {badarith,[]}
<0.34.0>  ended                    {returned,[98,99]}
$ ctl ps --json
[]

$ ctl break t:sum/1 && ctl spawn t:sum '[4]' && held 35 && ctl kill 35 && ctl resume 35 && ctl wait 35
true
<0.35.0>
done: it is held, and takes the signal after resume
done
<0.35.0> ended killed

# ---- Upgrade lists: a shop, 37, that lingers
$ ctl atomic shop.beam counter.beam
current 11, old 8
current 12, old 4
$ ctl atomic shop2.beam counter.beam
beamctl: NotPurged
(status 1)
$ ctl versions counter
current 12, old 4
$ ctl --json atomic --mode soft counter.beam shop.beam
[{"current": 13, "old": 12}, {"current": 14, "old": 11}]
$ ctl spawn shop:open '[0]'
<0.37.0>
$ ctl ask 37 '{buy,2}'
{costs,6,sold,2}
$ ctl atomic --mode hard shop2.beam
current 15, old 14
$ ctl atomic --mode soft counter.beam shop.beam
beamctl: NotPurged
(status 1)
$ ctl versions counter
current 13, old 12
$ ctl atomic --mode hard counter.beam shop.beam
current 16, old 13
current 17, old 15
$ ctl wait 37
<0.37.0> ended killed
$ ctl --json atomic --mode hard t.beam shop.beam t.beam
{"error": "Duplicated"}
(status 1)
$ ctl atomic --mode hard t.beam erlang.beam
beamctl: Sticky
(status 1)
$ ctl atomic --mode hard t.beam cut.beam t.S
beamctl: BadFile: Truncated (1,2)
(status 1)
$ ctl atomic t.beam large.beam
beamctl: TooLong
(status 1)
$ ctl atomic t.beam missing.beam
beamctl: missing.beam: No such file or directory
(status 1)
$ ctl atomic --mode gentle t.beam 2>&1 | cut -c 1-48 | tail -1
beamctl: argument --mode: invalid choice: 'gentl
(status 2)
$ ctl atomic 2>&1 | tail -1
beamctl: the following arguments are required: FILE
(status 2)

# ---- Wrong command lines
$ ctl inspect x
beamctl: x is no process: a number, or <0.NUMBER.0>
(status 2)
$ ctl inspect '<0.1.1>'
beamctl: <0.1.1> is no process: a number, or <0.NUMBER.0>
(status 2)
$ ctl inspect 4294967296
beamctl: 4294967296 is no number from 0 to 2^32-1
(status 2)
$ ctl spawn t '[]'
beamctl: t isn't MODULE:FUNCTION
(status 2)
$ ctl call t:sum 4
beamctl: 4 is no list of arguments: [4] for one argument
(status 2)
$ ctl call t:sum '[4'
beamctl: the end after an element of a tuple or list
(status 2)
$ ctl call t:sum '["4]'
beamctl: no term where " stands
(status 2)
$ ctl send 1 Self
beamctl: no term where Self stands
(status 2)
$ ctl send 1 576460752303423488
beamctl: 576460752303423488 is outside of -2^59 to 2^59-1
(status 2)
$ ctl send 1 "$(python3 -c "print('[' * 20000)")"
beamctl: a term that nests too deep
(status 2)
$ ctl send 1 "$(printf 'a%.0s' {1..256})"
beamctl: an atom has at most 255 characters
(status 2)
$ ctl versions $'\xff'
beamctl: '\udcff' is no UTF-8
(status 2)
$ ctl --timeout -1 ps 2>&1 | tail -1
beamctl: argument --timeout: -1 is neither seconds nor none
(status 2)
$ ctl --timeout soon ps 2>&1 | tail -1
beamctl: argument --timeout: soon is neither seconds nor none
(status 2)
$ ctl top --interval 0 2>&1 | tail -1
beamctl: argument --interval: invalid seconds value: '0'
(status 2)
$ ctl --timeout 0 versions nothing; ctl versions nothing --timeout none
current none, old none
current none, old none
$ ctl unknown 2>&1 | cut -c 1-50 | tail -1
beamctl: argument COMMAND: invalid choice: 'unknow
(status 2)
$ beamctl --port 65536 ps 2>&1 | tail -1
beamctl: argument --port: invalid port value: '65536'
(status 2)
$ beamctl --port 1 ps
beamctl: 127.0.0.1:1: Connection refused
(status 1)
$ beamctl ps 2>&1 | tail -1
beamctl: one of the arguments --port --socket is required
(status 2)
$ beamctl --port 1 --socket socket ps 2>&1 | tail -1
beamctl: argument --socket: not allowed with argument --port
(status 2)
$ beamctl --socket missing ps
beamctl: missing: No such file or directory
(status 1)
$ beamctl --socket t.S ps
beamctl: t.S: Connection refused
(status 1)
$ beamctl --socket "$(printf 'a%.0s' {1..108})" ps 2>&1 | tail -c 22
AF_UNIX path too long
(status 1)
$ ctl ps --help | head -1
usage: beamctl.py ps [-h] [--json] [--timeout SECONDS] [--all] [--last N]
$ ctl ps >/dev/full
beamctl: [Errno 28] No space left on device
(status 1)
$ ctl ps --all | { exec <&-; sleep 1; }
(status 1)
$ ctl <&-
$ ctl ps >&-
$ printf 'versions \xff\nversions nothing\n' | ctl
beamctl: '\udcff' is no UTF-8
current none, old none
(status 2)
$ PYTHONIOENCODING=ascii ctl call erlang:hd "[['é']]"
'\xe9'

# ---- References
$ ctl --json call erlang:make_ref '[]'
{"value": "#Ref<0.0.0.1>"}
$ ctl call erlang:is_reference '[#Ref<0.0.0.1>]'
true
$ ctl --json call erlang:monitor '[process, <0.1.0>]'
{"value": "#Ref<0.0.0.2>"}
$ ctl call erlang:demonitor '[#Ref<0.0.0.2>, [flush]]'
true
$ ctl call erlang:demonitor '[a]'
beamctl: error: badarg
(status 3)

# ---- Processes that are too long to show: 45, and 51, which ends so; 46 is a short one
$ ctl load grow.beam
current 18, old none
$ ctl spawn grow:hold "[16,$leaf]"
<0.45.0>
$ ctl spawn grow:hold '[0,small]'
<0.46.0>
$ ctl inspect 45
beamctl: TooLong
(status 1)
$ ctl ask 45 hello
hello
$ ctl --timeout 0.2 wait 45
beamctl: <0.45.0> hasn't ended within 0.2 seconds
(status 1)
$ ctl ps
PID       STATE    MAILBOX  TRANSIT  AT
<0.45.0>  waiting                    too long to show
<0.46.0>  waiting  0        0        grow:hold/2 label 3 + 0 instance 18
$ ctl --json ps --last 3 2>/dev/null | cut -c 1-106
[{"pid": "<0.45.0>", "state": "waiting", "at": null}, {"pid": "<0.46.0>", "state": "waiting", "at": "grow:
$ ctl top --count 1 | grep .
2 processes, 2 waiting
PID       RAN  STATE    MAILBOX  TRANSIT  AT
<0.45.0>  0%   waiting                    too long to show
<0.46.0>  0%   waiting  0        0        grow:hold/2 label 3 + 0 instance 18
$ ctl register grown 45
done
$ ctl ask --timeout none grown hello
hello
$ ctl lingers grow
PID  STATE  MAILBOX  TRANSIT  AT
$ ctl load grow.beam
current 19, old 18
$ ctl lingers grow
PID       STATE    MAILBOX  TRANSIT  AT
<0.45.0>  waiting                    too long to show
<0.46.0>  waiting  0        0        grow:hold/2 label 3 + 0 instance 18
$ ctl --json lingers grow | cut -c 1-106
[{"pid": "<0.45.0>", "state": "waiting", "at": null}, {"pid": "<0.46.0>", "state": "waiting", "at": "grow:
$ ctl kill 45
done
$ ctl wait 45
<0.45.0> ended killed
$ ctl lingers grow
PID       STATE    MAILBOX  TRANSIT  AT
<0.46.0>  waiting  0        0        grow:hold/2 label 3 + 0 instance 18
$ ctl spawn grow:leave "[16,$leaf]"
<0.51.0>
$ ctl wait 51
<0.51.0> ended with a reason that is too long to show
$ ctl --json wait 51
{"pid": "<0.51.0>", "state": "ended", "reason": null}
$ ctl kill 51
beamctl: NoProcess: <0.51.0> has ended
(status 1)
$ ctl call grow:leave "[16,$leaf]"
beamctl: TooLong
(status 1)
$ ctl ps --all --last 2
beamctl: 52 processes were started; these are of the last 2 (--last 0: of all)
PID       STATE  MAILBOX  TRANSIT  AT
<0.51.0>  ended                    too long to show
<0.52.0>  ended                    too long to show

# ---- The only place is taken: what was given up isn't done later
$ occupied 3 ctl --timeout 0.2 load t.beam
beamctl: no first reply within 0.2 seconds: nothing was sent that changes anything. All places may be taken
(status 1)
$ occupied 3 ctl --timeout 0.2 --json load t.beam
{"error": "NoPlace"}
(status 1)
$ occupied 1 ctl versions t
current 10, old 9
$ occupied 1 ctl --timeout none versions t
current 10, old 9

# ---- The socket, which has places of its own
$ by_socket versions t
current 10, old 9
$ occupied 2 by_socket --timeout 1 --json versions t
{"current": 10, "old": 9}
$ by_socket --timeout 20 call erlang:abs '[-4]'
4
$ printf 'versions nothing\nask 46 hello\nps\ninspect x\n' | by_socket --timeout 20
current none, old none
hello
PID       STATE    MAILBOX  TRANSIT  AT
<0.46.0>  waiting  0        0        grow:hold/2 label 3 + 0 instance 18
beamctl: x is no process: a number, or <0.NUMBER.0>
(status 2)
$ stat -c '%A %F' socket socket.http
srw------- socket
srw------- socket
$ ctl versions t
current 10, old 9

# ---- beamctl as it is installed: its other files are beside the one that the link names
$ "$root/clients/install" --prefix "$PWD/usr" && cd usr && find . ! -type d | sort
./bin/beamctl
./lib/kanguriwe/beamclient.py
./lib/kanguriwe/beamctl.py
./lib/kanguriwe/beamctl_helper.beam
./share/man/man1/beamctl.1
$ usr/bin/beamctl --help | head -1 | cut -c 1-14
usage: beamctl
$ "$root/clients/install" --to usr
usage: clients/install [--prefix PREFIX]
(status 2)

# ---- The end of a node in good order
$ ctl stop
beamctl: stop needs --socket, or --http
(status 2)
$ by_socket stop --wait 0 2>&1 | tail -1
beamctl: argument --wait: invalid seconds value: '0'
(status 2)
$ by_socket stop
stopped
$ ls socket socket.http 2>/dev/null
(status 2)
$ ctl versions t 2>&1 | sed 's/[0-9]*: C/PORT: C/'
beamctl: 127.0.0.1:PORT: Connection refused
(status 1)
$ by_socket versions t
beamctl: socket: No such file or directory
(status 1)
$ by_socket stop
beamctl: socket.http: No such file or directory
(status 1)
$ by_socket --json stop
{"error": "socket.http: No such file or directory"}
(status 1)
$ alone beamctl --socket alone stop
stopped
the node's status: 0
$ alone beamctl --socket alone --json stop --wait 20
"stopped"
the node's status: 0
$ printf 'call erlang:abs [-4]\nstop\nstop\n' | alone usr/bin/beamctl --socket alone
4
stopped
beamctl: alone.http: No such file or directory
the node's status: 0
END_OF_LINES
compare

echo "ctl: $((count - failed)) of $count lines hold"
python3 "$root/tests/ctl_replies.py" || failed=$((failed + 1))
if command -v erlc >/dev/null; then
    start
    cp "$root"/clients/beamctl_helper.beam .
    erlc -Wall -Werror "$root/clients/kanguriwe.erl" "$root/tests/ctl_calls.erl" &&
        erl -noshell -run ctl_calls main "$port" socket || failed=$((failed + 1))
else
    echo "erlc isn't installed: clients/kanguriwe.erl isn't tried"
fi
exit $((failed > 0))
