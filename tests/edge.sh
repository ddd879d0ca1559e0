#!/usr/bin/env bash
# What the built programs do with real files, devices, words and sockets: status, output and errors of each line below. It builds
# nothing: `rt run` in crates/beamnode, crates/beamas and crates/beamdis makes their out/ folders. Not part of `rt ci`.
set -uo pipefail

root=$(cd "$(dirname "$0")/.." && pwd)
node=${NODE:-$root/crates/beamnode/out/beamnode}
as=${AS:-$root/crates/beamas/out/beamas}
dis=${DIS:-$root/crates/beamdis/out/beamdis}
folder=$(mktemp -d)
server=
trap '[[ -n $server ]] && kill "$server" 2>/dev/null; chmod -R u+w "$folder"; rm -rf "$folder"' EXIT
cd "$folder" || exit 1
cp "$root/examples/t.S" "$root/examples/t.beam" .
failed=0 count=0

for program in "$node" "$as" "$dis"; do
    if [[ ! -x $program ]]; then
        echo "no program $program: build it first" >&2
        exit 1
    fi
done

# check TITLE STATUS ERRORS COMMAND..: the command ends with the status, and its errors begin with this text.
check() {
    local title=$1 wanted=$2 errors=$3 status
    shift 3
    "$@" >out 2>err
    status=$?
    count=$((count + 1))
    if [[ $status != "$wanted" || $(<err) != "$errors"* || (-z $errors && -s err) ]]; then
        failed=$((failed + 1))
        echo "$title: wanted status $wanted and '$errors', found status $status and '$(head -c 300 err)'"
    fi
}

# same TITLE FILE FILE
same() {
    count=$((count + 1))
    if ! cmp -s "$2" "$3"; then
        failed=$((failed + 1))
        echo "$1: $2 and $3 differ"
    fi
}

# is TITLE WANTED FOUND
is() {
    count=$((count + 1))
    if [[ $2 != "$3" ]]; then
        failed=$((failed + 1))
        echo "$1: wanted '$2', found '$3'"
    fi
}

# call FILE..: the call of t:sum(4), with further words
call() { "$node" call --module t --function sum --args '[4]' "$@"; }

# ---- a real file, written and read back
check "assembles" 0 "" "$as" t.S new.beam
same "the file of t.S" new.beam t.beam
check "prints" 0 "" "$dis" new.beam
same "the listing of t.beam" out t.S
check "calls" 0 "" call new.beam
printf '10\n' >ten
same "the value" out ten

# ---- the output
full() { "$@" >/dev/full; }
closed() { "$@" >&-; }
check "beamdis on a full device" 1 "beamdis: output: WriteFailed" full "$dis" t.beam
check "beamnode on a full device" 1 "beamnode: output: WriteFailed" full call t.beam
check "help on a full device" 1 "beamas: output: WriteFailed" full "$as" --help
check "beamdis with its output closed" 1 "beamdis: output: WriteFailed" closed "$dis" t.beam
check "beamnode with its output closed" 1 "beamnode: output: WriteFailed" closed call t.beam

# ---- OUT
mkdir locked made && cp t.S locked/there.beam && chmod a-w locked
check "OUT is a full device" 1 "beamas: /dev/full: WriteFailed" "$as" t.S /dev/full
check "OUT in a missing folder" 1 "beamas: missing/t.beam: WriteFailed" "$as" t.S missing/t.beam
check "OUT is a folder" 1 "beamas: made: WriteFailed" "$as" t.S made
if [[ $(id -u) != 0 ]]; then
    check "OUT in a folder that can't be written" 1 "beamas: locked/t.beam: WriteFailed" "$as" t.S locked/t.beam
    check "OUT that is there in such a folder" 0 "" "$as" t.S locked/there.beam
    same "what is in it" locked/there.beam t.beam
    cp t.S closed.beam && chmod 440 closed.beam
    check "OUT that can't be written" 1 "beamas: closed.beam: WriteFailed" "$as" t.S closed.beam
    same "what is in it" closed.beam t.S
fi
is "the full device" "character special file" "$(stat -c %F /dev/full)"
cp t.S one.S
check "OUT is the word IN" 2 "beamas: IN and OUT are both one.S" "$as" one.S one.S
same "IN after that" one.S t.S
check "OUT is IN by another name" 0 "" "$as" one.S ./one.S
same "what is IN then" one.S t.beam

# ---- the file that takes the place of OUT
(umask 027 && "$as" t.S fresh.beam)
is "the mode of a new OUT" 640 "$(stat -c %a fresh.beam)"
cp t.S old.beam && chmod 711 old.beam
check "OUT is there" 0 "" "$as" t.S old.beam
same "what is in it" old.beam t.beam
is "its mode" 711 "$(stat -c %a old.beam)"
cp t.S target.beam && ln -s ../target.beam made/link.beam
check "OUT is a link" 0 "" "$as" t.S made/link.beam
same "what is in its target" target.beam t.beam
is "the link" ../target.beam "$(readlink made/link.beam)"
ln -s nothing.beam loose.beam
check "OUT is a link to nothing" 0 "" "$as" t.S loose.beam
same "what is in that" nothing.beam t.beam
cp t.S taken.beam.new0
check "the new file's name is taken" 0 "" "$as" t.S taken.beam
same "OUT" taken.beam t.beam
same "the file of that name" taken.beam.new0 t.S
rm taken.beam.new0
long=$(printf '%0252d' 0)
check "OUT has no room for a longer name" 0 "" "$as" t.S "$long"
same "what is in it" "$long" t.beam
mkfifo pipe
cat pipe >through &
check "OUT is a pipe" 0 "" "$as" t.S pipe
wait $!
same "what came through it" through t.beam
is "the pipe" fifo "$(stat -c %F pipe)"
check "OUT is /dev/stdout" 0 "" "$as" t.S /dev/stdout
same "what is in that" out t.beam
is "no link is made" "" "$(find . -name '*.new*')"

# A file of a byte is too large, or there is no room on the disk: OUT stays, and no other file is left.
limited() { (trap '' XFSZ && ulimit -f 0 && "$@" 2>&1) | cat >&2 && return "${PIPESTATUS[0]}"; }
cp t.S kept.beam
check "OUT may not grow" 1 "beamas: kept.beam: WriteFailed" limited "$as" t.S kept.beam
same "what is in it" kept.beam t.S
check "a new OUT may not grow" 1 "beamas: none.beam: WriteFailed" limited "$as" t.S none.beam
is "no new file" "" "$(find . -name 'none.beam' -o -name '*.new*')"
disk() { unshare -m bash -c 'mount -t tmpfs -o size=16k none made && cp t.S made/kept.beam && cat /dev/zero 2>/dev/null >made/rest; "$@"
    status=$?; cmp -s t.S made/kept.beam && ls made; exit $status' - "$@"; }
if unshare -m mount -t tmpfs none made 2>/dev/null; then
    check "a full disk" 1 "beamas: made/kept.beam: WriteFailed" disk "$as" t.S made/kept.beam
    is "what is there" "kept.beam rest" "$(paste -sd ' ' out)"
fi

# ---- IN
check "IN isn't there" 1 "beamas: none.S: ReadFailed" "$as" none.S t2.beam
check "IN is a folder" 1 "beamdis: made: ReadFailed" "$dis" made
check "the second of two files isn't there" 1 "beamnode: none.beam: ReadFailed" call t.beam none.beam

# ---- words that aren't UTF-8
bad=$'\xff'
check "a word that isn't UTF-8, of beamas" 2 "beamas: a word is no UTF-8" "$as" t.S "$bad"
check "a word that isn't UTF-8, of beamdis" 2 "beamdis: a word is no UTF-8" "$dis" "$bad"
check "a word that isn't UTF-8, of beamnode" 2 "beamnode: a word is no UTF-8" call "$bad"

# ---- the size of files: 8,388,608 bytes, and one more
{ cat t.S; head -c $((8388608 - $(wc -c <t.S))) /dev/zero | tr '\0' '\n'; } >most.S
{ cat most.S; echo; } >more.S
check "a listing of 8,388,608 bytes" 0 "" "$as" most.S most.beam
same "its file" most.beam t.beam
check "a listing of one byte more" 1 "beamas: more.S: TooLong" "$as" more.S more.beam
head -c 8388608 /dev/zero >most.bin
head -c 8388609 /dev/zero >more.bin
check "a file of 8,388,608 bytes" 1 "beamdis: most.bin: NotForm" "$dis" most.bin
check "a file of one byte more" 1 "beamdis: more.bin: TooLong" "$dis" more.bin
check "the same, loaded" 1 "beamnode: more.bin: TooLong" call t.beam more.bin

# ---- terms that nest 4,096 deep, with 512 KiB of stack
nested() { python3 -c "print('{' * $1 + '}' * $1, end='')"; }
{
    printf '{module,d}.\n{exports,[{f,1}]}.\n{attributes,[]}.\n{labels,3}.\n{function,f,1,2}.\n{label,1}.\n'
    printf '{func_info,{atom,d},{atom,f},1}.\n{label,2}.\n{move,{literal,'
    nested 4096
    printf '},{x,1}}.\n{move,{literal,'
    nested 4096
    printf '},{x,2}}.\n{test,is_eq_exact,{f,1},[{x,1},{x,2}]}.\nreturn.\n'
} >deep.S
small() { (ulimit -s 512 && "$@"); }
check "beamas with 512 KiB of stack" 0 "" small "$as" deep.S deep.beam
check "beamdis with 512 KiB of stack" 0 "" small "$dis" deep.beam
check "beamnode with 512 KiB of stack" 0 "" small "$node" call --module d --function f --args "[$(nested 4095)]" deep.beam
check "a term that is too deep" 2 "beamnode: --args" small "$node" call --module d --function f --args "[$(nested 4096)]" deep.beam

# ---- no memory: no crash
short() { (ulimit -v "$1" && shift && "$@"); }
for limit in 6000 8000 10000 14000 20000 40000; do
    short "$limit" "$as" most.S short.beam >out 2>err
    status=$?
    count=$((count + 1))
    if [[ $status -gt 1 && $status -lt 126 || $status -gt 128 ]]; then
        failed=$((failed + 1))
        echo "beamas with $limit KiB of memory: status $status"
    fi
done

# ---- a node that serves a port: what it begins with, what its log says, and how it ends
cat >s.S <<'END'
{module,s}.
{exports,[{told,0},{ends,0},{turns,0}]}.
{attributes,[]}.
{labels,7}.
{function,told,0,2}.
{label,1}.
{func_info,{atom,s},{atom,told},0}.
{label,2}.
{move,{atom,told},{x,0}}.
{call_ext_only,1,{extfunc,erlang,exit,1}}.
{function,ends,0,4}.
{label,3}.
{func_info,{atom,s},{atom,ends},0}.
{label,4}.
{move,{integer,1},{x,0}}.
return.
{function,turns,0,6}.
{label,5}.
{func_info,{atom,s},{atom,turns},0}.
{label,6}.
{call_only,0,{f,6}}.
END
"$as" s.S s.beam
time='[0-9]{4}-[0-9]{2}-[0-9]{2}T[0-9]{2}:[0-9]{2}:[0-9]{2}\.[0-9]{3}Z'
module='beam_(serve|log|replay)::[a-z_]+'

# serve WORD..: starts a node; port is where it listens.
serve() {
    : >listening
    "$node" serve --port 0 "$@" >listening 2>log &
    server=$!
    port=
    while [[ -z $port ]] && kill -0 "$server" 2>/dev/null; do
        sleep 0.02
        port=$(sed -n 's/^listening on 127\.0\.0\.1://p' listening)
    done
}

# ends TITLE STATUS: the node ends by itself with this status, within 20 s.
ends() {
    local status
    count=$((count + 1))
    for _ in $(seq 200); do
        kill -0 "$server" 2>/dev/null || break
        sleep 0.1
    done
    kill "$server" 2>/dev/null
    wait "$server"
    status=$?
    server=
    if [[ $status != "$2" ]]; then
        failed=$((failed + 1))
        echo "$1: wanted status $2, found $status and '$(head -c 300 log)'"
    fi
}

stops() {
    kill "$server" 2>/dev/null
    wait "$server" 2>/dev/null
    server=
}

# logs TITLE COUNT PATTERN: COUNT lines of the log are of this pattern, within 5 s.
logs() {
    local found
    count=$((count + 1))
    for _ in $(seq 50); do
        found=$(grep -Ecx -- "$3" log)
        [[ $found == "$2" ]] && return
        sleep 0.1
    done
    failed=$((failed + 1))
    echo "$1: wanted $2 lines '$3', found $found in '$(head -c 500 log)'"
}

# client TITLE <PROGRAM: Python with a connection, `s`, that ends with status 0.
client() {
    count=$((count + 1))
    cat - <(echo) >program.py
    if ! python3 - "$port" >out 2>err < <(cat client.py program.py); then
        failed=$((failed + 1))
        echo "$1: $(tail -n 1 err)"
    fi
}
cat >client.py <<'END'
import socket, struct, sys, time
s = socket.socket()
s.setsockopt(socket.SOL_SOCKET, socket.SO_RCVBUF, 4096)
s.settimeout(20)
s.connect(("127.0.0.1", int(sys.argv[1])))


def frame(kind, body=b""):
    return struct.pack(">IB", 1 + len(body), kind) + body


def versions(name):
    return frame(17, name)


def other():
    """A connection beside `s`."""
    return socket.create_connection(("127.0.0.1", int(sys.argv[1])), 20)


def reply(peer=s):
    length = struct.unpack(">I", peer.recv(4, socket.MSG_WAITALL))[0]
    return peer.recv(length, socket.MSG_WAITALL)


def closed():
    """After how many seconds the node closes the connection."""
    began = time.monotonic()
    try:
        while s.recv(65536):
            pass
    except ConnectionError:
        pass
    return time.monotonic() - began


END

control() { python3 "$root/clients/beamctl.py" --port "$port" "$@"; }

# refuses TITLE ERRORS WORD..: no connection is taken: status 1, these errors, and nothing on the output.
refuses() {
    local title=$1 errors=$2
    shift 2
    check "$title" 1 "$errors" "$node" serve --port 0 "$@"
    count=$((count + 1))
    if [[ -s out ]]; then
        failed=$((failed + 1))
        echo "$title: it listens: $(<out)"
    fi
}

refuses "a file that isn't there" "beamnode: none.beam: ReadFailed" t.beam none.beam
refuses "a file that is none" "beamnode: t.S: NotForm" t.beam t.S
refuses "files for which the journal has no room" "beamnode: serve: JournalFull" --journal-limit 1 t.beam s.beam
refuses "a start for which it has none" "beamnode: serve: JournalFull" --journal-limit 1 --start s:ends s.beam

serve --log info --start s:told --connections 1 t.beam s.beam
client "a node that begins with code" <<'END'
s.sendall(versions(b"s"))
assert reply()[0] != 255, "no reply"
END
ends "after its connection" 0
logs "a load" 1 "$time \[INFO  $module\] load t: current 1, old none"
logs "another" 1 "$time \[INFO  $module\] load s: current 2, old none"
logs "a connection" 1 "$time \[INFO  $module\] 127\.0\.0\.1:[0-9]+: connected"
logs "a process that ends otherwise" 1 "$time \[INFO  $module\] process <0\.1\.0>: ended with told"

# ---- processes that end, and processes that are held
serve --log info s.beam
# An end that is normal isn't logged.
control spawn s:ends >out 2>err
control spawn s:turns >out 2>err
control break s:turns/0 >out 2>err
logs "a hold" 1 "$time \[INFO  $module\] process <0\.2\.0>: held after [0-9]+ rows"
control clear s:turns/0 >out 2>err
control resume 2 >out 2>err
control kill 2 '{by,signal}' >out 2>err
logs "an end by a signal" 1 "$time \[INFO  $module\] process <0\.2\.0>: ended with \{by,signal\}"
lingers=$(control spawn s:turns)
control load s.beam >out 2>err
control load s.beam >out 2>err
logs "an end by a load" 1 "$time \[INFO  $module\] process ${lingers//./\\.}: ended with killed"
lingers=$(control spawn s:turns)
control purge s >out 2>err
control delete s >out 2>err
control purge s >out 2>err
logs "a purge that ends a process" 1 "$time \[INFO  $module\] purge s: true"
logs "an end by a purge" 1 "$time \[INFO  $module\] process ${lingers//./\\.}: ended with killed"
logs "a process of beamctl's" 1 "$time \[INFO  $module\] process <0\.3\.0>: ended with \{returned,true\}"
logs "no other end" 5 "$time \[INFO  $module\] process .*"
stops

# ---- a value of a few kilobytes whose text has terabytes
cat >d.S <<'END'
{module,d}. {exports,[{stay,0},{crash,0}]}. {attributes,[]}. {labels,10}.
{function,stay,0,2}. {label,1}. {func_info,{atom,d},{atom,stay},0}.
{label,2}. {allocate,1,0}. {call,0,{f,8}}. {move,{x,0},{y,0}}.
{label,3}. {loop_rec,{f,4},{x,0}}. {loop_rec_end,{f,3}}.
{label,4}. {wait,{f,3}}.
{function,crash,0,6}. {label,5}. {func_info,{atom,d},{atom,crash},0}.
{label,6}. {allocate,0,0}. {call,0,{f,8}}. {call_ext_last,1,{extfunc,erlang,exit,1},0}.
{function,double,0,8}. {label,7}. {func_info,{atom,d},{atom,double},0}.
{label,8}. {move,nil,{x,0}}. {move,{integer,40},{x,1}}.
{label,9}. {put_tuple2,{x,0},{list,[{x,0},{x,0}]}}. {gc_bif,'-',{f,0},2,[{x,1},{integer,1}],{x,1}}.
{test,is_eq_exact,{f,9},[{x,1},{integer,0}]}. return.
END
"$as" d.S d.beam
serve --log info --clients 4 --start d:stay d.beam
client "a text that is too long, and a session beside it" <<'END'
peer = other()
while True:
    looker = other()
    looker.sendall(frame(16, struct.pack(">I", 1)))
    peer.sendall(versions(b"d"))
    assert reply(peer)[0] == 5
    shown = reply(looker)
    if shown == b"\7\1":
        break
    assert shown[0] == 4
END
control spawn d:crash >out 2>err
logs "a reason that is too long" 1 "$time \[INFO  $module\] process <0\.2\.0>: ended with a reason of more than 1000 bytes"
stops
serve --log info
client "a frame of no kind" <<'END'
s.sendall(versions(b"t") * 2 + frame(99))
closed()
END
logs "a failed session" 1 "$time \[WARN  $module\] BadFrame"
logs "whose it was" 1 "$time \[INFO  $module\] 127\.0\.0\.1:[0-9]+: BadFrame 2 after command 2"
stops
for level in warn error; do
    serve --log "$level"
    client "half a frame" <<'END'
s.sendall(versions(b"t")[:-1])
s.shutdown(socket.SHUT_WR)
closed()
peer = other()
peer.sendall(versions(b"t"))
reply(peer)
END
    lines=$([[ $level == warn ]] && echo 1 || echo 0)
    logs "a failed session at $level" "$lines" "$time \[WARN  $module\] CutFrame"
    logs "nothing else at $level" "$lines" ".*"
    stops
done

# ---- silent sessions
serve --log info --idle 1
client "a silent client" <<'END'
seconds = closed()
assert 0.9 < seconds < 3, seconds
END
client "half a frame" <<'END'
s.sendall(versions(b"t")[:-1])
seconds = closed()
assert 0.9 < seconds < 3, seconds
END
logs "silent sessions" 2 "$time \[WARN  $module\] ReadFailed"
logs "why they failed" 2 "$time \[INFO  $module\] 127\.0\.0\.1:[0-9]+: ReadFailed after command 0: timed out"
client "a frame byte by byte" <<'END'
began = time.monotonic()
try:
    for byte in versions(b"t" * 200):
        s.sendall(bytes([byte]))
        time.sleep(0.05)
except ConnectionError:
    pass
seconds = time.monotonic() - began
assert 0.9 < seconds < 3, seconds
END
client "whole frames" <<'END'
for _ in range(4):
    s.sendall(versions(b"t"))
    reply()
    time.sleep(0.6)
END
logs "no other" 3 "$time \[WARN  $module\] ReadFailed"
client "no reply is read" <<'END'
began = time.monotonic()
try:
    while time.monotonic() - began < 15:
        s.sendall(versions(b"t") * 1000)
except ConnectionError:
    pass
seconds = time.monotonic() - began
assert seconds < 15, seconds
END
# The time runs out while a reply is written, or for the rest of a frame that is read after it.
logs "one that doesn't read" 4 "$time \[WARN  $module\] (Read|Write)Failed"
stops

# ---- several clients at once
serve --log info --clients 3 --connections 5
client "a silent client and half a frame beside one that is served" <<'END'
half, third, fourth = other(), other(), other()
half.sendall(versions(b"t")[:-1])
for _ in range(100):
    third.sendall(versions(b"t"))
    reply(third)
fourth.sendall(versions(b"t"))
fourth.settimeout(0.5)
try:
    fourth.recv(1)
    raise AssertionError("four are served at once")
except TimeoutError:
    pass
third.close()
fourth.settimeout(20)
reply(fourth)
half.close()
fifth = other()
fifth.sendall(versions(b"t"))
reply(fifth)
END
ends "after five connections, three at once" 0
logs "five connections" 5 "$time \[INFO  $module\] 127\.0\.0\.1:[0-9]+: connected"
logs "the half frame" 1 "$time \[WARN  $module\] CutFrame"
logs "no other" 1 "$time \[WARN  $module\] .*"
serve --clients 2 --journal-limit 100000 --stop-when-full --start s:turns s.beam
client "the node gives up beside two silent clients" <<'END'
peer = other()
assert closed() < 20
peer.settimeout(20)
assert peer.recv(1) == b""
END
ends "a full journal beside two silent clients" 1

# ---- a journal that is full
serve --journal-limit 1000 --stop-when-full
client "commands up to the end" <<'END'
try:
    for _ in range(1000):
        s.sendall(versions(b"t"))
        reply()
        time.sleep(0.002)
    raise AssertionError("it goes on")
except (ConnectionError, struct.error):
    pass
END
ends "a full journal" 1
for percent in 50 75 90 99; do
    logs "$percent percent" 1 "$time \[WARN  $module\] journal: $percent percent of 1000 entries"
done
logs "all" 1 "$time \[WARN  $module\] journal: full, 1000 entries"
logs "the end" 1 "beamnode: serve: JournalFull"
serve --journal-limit 100 --stop-when-full --start s:turns s.beam
ends "a full journal while it waits for a connection" 1
serve --journal-limit 100000 --stop-when-full --start s:turns s.beam
client "the node gives up" <<'END'
assert closed() < 20
END
ends "a full journal while it waits for a command" 1
serve --journal-limit 100 --start s:turns s.beam
logs "a full journal without --stop-when-full" 1 "$time \[WARN  $module\] journal: full, 100 entries"
check "a command to it" 1 "beamctl: JournalFull" control versions s
stops

# ---- the command that fills the journal is answered
# The reply and the end are a race, so it is tried more than once.
for _ in 1 2 3 4 5 6; do
    serve --clients 3 --journal-limit 1 --stop-when-full
    client "its reply, before the end, beside silent clients" <<'END'
silent, half = other(), other()
half.sendall(versions(b"t")[:-1])
time.sleep(0.3)
began = time.monotonic()
s.sendall(versions(b"t"))
assert reply()[0] == 5
for peer in s, silent, half:
    assert peer.recv(1) == b""
seconds = time.monotonic() - began
assert seconds < 1, seconds
END
    ends "a full journal after a reply" 1
done
serve --clients 2 --journal-limit 100000 --stop-when-full --start s:turns s.beam
client "one that sends and doesn't read is cut off" <<'END'
began = time.monotonic()
try:
    while True:
        s.sendall(versions(b"t") * 1000)
except ConnectionError:
    pass
seconds = time.monotonic() - began
assert seconds < 20, seconds
END
ends "a full journal beside one that doesn't read" 1

# ---- a reader of the log that stalls
# stalls COMMAND WORD..: starts a node whose log this command reads.
stalls() {
    local command=$1
    shift
    : >listening
    : >log
    bash -c "$command" <pipe >log &
    reader=$!
    "$node" serve --port 0 "$@" >listening 2>pipe &
    server=$!
    port=
    while [[ -z $port ]] && kill -0 "$server" 2>/dev/null; do
        sleep 0.02
        port=$(sed -n 's/^listening on 127\.0\.0\.1://p' listening)
    done
}
cat >flood <<'END'
# each of 1,000 sessions has three lines
for number in range(1000):
    peer = other()
    peer.sendall(frame(99))
    assert reply(peer) == b"\7\2", number
    peer.close()
s.sendall(versions(b"s"))
assert reply()[0] == 5
END
stalls 'until [[ -e go ]]; do sleep 0.1; done; exec cat' --log info --clients 16 s.beam
client "a node whose log isn't read" <flood
touch go
sleep 1
control spawn s:told >out 2>err
logs "lines that were lost" 1 "$time \[WARN  beam_log::log_writer\] [0-9]+ lines lost"
logs "a line after them" 1 "$time \[INFO  $module\] process <0\.1\.0>: ended with told"
stops
wait "$reader"
# Three lines of each session, a line of the client's connection, one of beamctl's, one of the load, and one of the end.
count=$((count + 1))
lost=$(sed -n 's/.*\] \([0-9]*\) lines lost$/\1/p' log)
lines=$(grep -cv 'lines lost$' log)
if [[ $((lines + lost)) -lt 3004 || $((lines + lost)) -gt 3006 || $lines -lt 1500 || $lines -gt 2100 ]]; then
    failed=$((failed + 1))
    echo "lines of 1,000 sessions: $lines written, $lost lost"
fi
count=$((count + 1))
if ! cut -c 1-24 log | LC_ALL=C sort -c 2>err; then
    failed=$((failed + 1))
    echo "the times of the log: $(<err)"
fi
stalls 'exec sleep 60' --log info --clients 16 --connections 1001
client "a node whose log is never read" <flood
ends "its end" 0
kill "$reader" && wait "$reader"
stalls 'sleep 1; exec cat' --clients 2 --stop-when-full --journal-limit 1 -v
client "a node whose log is read late" <<'END'
s.sendall(versions(b"s"))
assert reply()[0] == 5
END
ends "its status" 1
wait "$reader"
logs "what it says at its end" 1 "beamnode: serve: JournalFull"

# ---- many ends of processes
serve --log info s.beam
client "500 processes that end otherwise" <<'END'
for _ in range(500):
    s.sendall(frame(6, b"\x83h\x03w\x01sw\x04toldj"))
    assert reply()[0] == 2
END
sleep 1.5
count=$((count + 1))
lines=$(grep -c 'ended with told$' log)
unlogged=0
for number in $(sed -n 's/.*\] \([0-9]*\) ends not logged$/\1/p' log); do unlogged=$((unlogged + number)); done
if [[ $((lines + unlogged)) != 500 || $lines -lt 100 || $lines -gt 400 ]]; then
    failed=$((failed + 1))
    echo "500 ends: $lines logged, $unlogged not"
fi
stops

# ---- a descriptor for each connection
serve --clients 4
client "the descriptors of four connections" <<END
import os
count = lambda: len(os.listdir("/proc/$server/fd"))
s.sendall(versions(b"t"))
reply()
one = count()
peers = [other() for _ in range(3)]
for peer in peers:
    peer.sendall(versions(b"t"))
    reply(peer)
assert count() == one + 3, (one, count())
print(one)
END
one=$(<out)
stops
: >listening
bash -c 'ulimit -Sn '"$((one + 3))"' && exec "$@"' - "$node" serve --port 0 --clients 6 >listening 2>log &
server=$!
until grep -q '^listening' listening || ! kill -0 "$server" 2>/dev/null; do sleep 0.02; done
port=$(sed -n 's/^listening on 127\.0\.0\.1://p' listening)
client "four connections, and one for which no descriptor is left" <<'END'
peers = [s] + [other() for _ in range(4)]
for peer in peers:
    peer.sendall(versions(b"t"))
for peer in peers[:4]:
    reply(peer)
time.sleep(0.5)
s.close()
reply(peers[4])
END
logs "none is left" 1 "$time \[WARN  $module\] accept: Too many open files \(os error 24\)"
logs "no session fails" 1 ".*"
stops

# ---- no descriptors: it is tried again
: >listening
bash -c 'ulimit -Sn 5 && exec "$@"' - "$node" serve --port 0 >listening 2>log &
server=$!
logs "no descriptors" 1 "$time \[WARN  $module\] accept: Too many open files \(os error 24\)"
sleep 0.5
logs "told once" 1 ".*"
prlimit --pid "$server" --nofile=64
port=$(sed -n 's/^listening on 127\.0\.0\.1://p' listening)
client "descriptors again" <<'END'
s.sendall(versions(b"t"))
reply()
END
stops

# ---- no memory: a warning, and sessions that can still end what takes all
cat >f.S <<'END'
{module,f}.
{exports,[{main,0},{sink,0}]}.
{attributes,[]}.
{labels,8}.
{function,main,0,2}.
{label,1}.
{func_info,{atom,f},{atom,main},0}.
{label,2}.
{allocate,0,0}.
{move,nil,{x,2}}.
{move,{atom,sink},{x,1}}.
{move,{atom,f},{x,0}}.
{call_ext,3,{extfunc,erlang,spawn,3}}.
{call_last,1,{f,4},0}.
{function,go,1,4}.
{label,3}.
{func_info,{atom,f},{atom,go},1}.
{label,4}.
{allocate,1,1}.
{move,{x,0},{y,0}}.
{put_list,{x,0},nil,{x,1}}.
{put_list,{x,0},{x,1},{x,1}}.
{put_list,{x,0},{x,1},{x,1}}.
{put_list,{x,0},{x,1},{x,1}}.
send.
{move,{y,0},{x,0}}.
{call_last,1,{f,4},1}.
{function,sink,0,6}.
{label,5}.
{func_info,{atom,f},{atom,sink},0}.
{label,6}.
{loop_rec,{f,7},{x,0}}.
{loop_rec_end,{f,6}}.
{label,7}.
{wait,{f,6}}.
END
"$as" f.S f.beam
: >listening
bash -c 'ulimit -v 500000 && exec "$@"' - "$node" serve --port 0 --schedulers 2 --clients 2 --start f:main f.beam >listening 2>log &
server=$!
for _ in $(seq 600); do
    grep -q "memory: refused" log && break
    sleep 0.1
done
port=$(sed -n 's/^listening on 127\.0\.0\.1://p' listening)
# On a slow machine the two seconds that a session has may be over before it kills; the next session has two of its own.
ended() {
    for _ in $(seq 10); do
        control kill "$1"
        control --timeout 5 wait "$1" && return
    done >out 2>err
    return 1
}
count=$((count + 1))
if ! ended 1; then
    failed=$((failed + 1))
    echo "a kill without memory: $(tail -n 1 err)"
fi
count=$((count + 1))
if ! head -n 1 log | grep -Eqx "$time \[WARN  $module\] memory: refused to process <0\.[12]\.0>, refusals since the last warning: 1"; then
    failed=$((failed + 1))
    echo "memory that is refused: found '$(head -c 300 log)'"
fi
stops

echo "edge: $((count - failed)) of $count hold"
exit $((failed > 0))
