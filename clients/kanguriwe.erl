%% A client for a node that `beamnode serve` runs; docs/PROTOCOL.md has the protocol.
%%
%%     {ok, Node} = kanguriwe:connect(4000).
%%     {ok, {1, 0}} = kanguriwe:load(Node, "t.beam").
%%     {ok, 10} = kanguriwe:call(Node, t, sum, [4]).
%%     {ok, 2} = kanguriwe:spawn(Node, t, sum, [9]).
%%     {ok, normal} = kanguriwe:wait(Node, 2, 5000).
%%
%% Each call answers {ok, Value} or {error, Why}. Why is the name of a refusal, in lower case with underscores (not_purged,
%% no_process, ..), {bad_file, Fault}, timeout, or an error of gen_tcp or file; of call/4 and ask/4 also {Class, Reason}, an
%% exception of the function that was called. After too_long, bad_kind, bad_command and errors of gen_tcp the session has
%% ended. A process is its number or a pid; pid/1 is the pid of a number. A session occupies one client thread of the node.
%%
%% connect waits for a place at the node, and sends nothing before that does anything. So {error, timeout} of connect means that
%% nothing was done, and all places may be taken; of another call, that it may still be done. connect({local, Path}) goes to the
%% node's Unix socket, where {error, closed} may also mean that too many connections wait.
%%
%% steps, deliver, clock and timeout are for nodes without schedulers: here they are mostly not_ready, busy or backward_clock.
-module(kanguriwe).
-export([connect/1, connect/2, close/1]).
-export([load/2, load_strict/2, atomic_load/3, delete/2, soft_purge/2, purge/2, versions/2]).
-export([spawn/4, send/3, steps/3, deliver/2, clock/2, timeout/2]).
-export([call/4, call/5, ask/4, wait/3, kill/3, register/3, unregister/2, whereis/2, load_helper/2]).
-export([set_break/2, set_break/3, clear_break/2, clear_break/3, resume/2, step_one/2, inspect/2, ps/1, view/1]).
-export([pid/1, reference/1]).
-compile({no_auto_import, [spawn/4]}).
-export_type([session/0, process/0, spot/0, state/0, view/0, why/0]).

%% A socket, and how long a reply is waited for, in milliseconds.
-opaque session() :: {gen_tcp:socket(), timeout()}.
-type number_of_process() :: 0..4294967295.
-type process() :: number_of_process() | pid().
%% The row that is this many rows after the label of that module's current or old code.
-type spot() :: {current | old, module(), Label :: integer(), Rows :: integer()}.
-type state() :: goes_on | waits | held | {ended, Reason :: term(), Value :: term()}.
%% The fields of Inspect's reply; of a process that has ended only the reason.
-type view() ::
    #{pid := number_of_process(), state := running | waiting | held, at := binary(), mailbox := integer(), transit := integer()}
    | #{pid := number_of_process(), state := ended, reason := term()}.
-type versions() :: {Current :: non_neg_integer(), Old :: non_neg_integer()}.
-type why() :: atom() | {bad_file, atom()} | {error | exit | throw, term()} | {refusal | frame_error, byte()}.
-type answer(Value) :: {ok, Value} | {error, why()}.

-define(HELPER, beamctl_helper).
%% Commands that are sent before the first reply is read: few enough for the buffers of any socket.
-define(PIPELINED, 64).

%% To the node's port, or to its Unix socket, {local, Path}.
-spec connect(inet:port_number() | inet:local_address()) -> answer(session()).
connect(Address) -> connect(Address, infinity).

%% With a time in milliseconds, after which a missing reply is {error, timeout}; the session can't be used any more then.
-spec connect(inet:port_number() | inet:local_address(), timeout()) -> answer(session()).
connect({local, _} = Address, Timeout) -> connect(Address, 0, Timeout);
connect(Port, Timeout) -> connect({127, 0, 0, 1}, Port, Timeout).

connect(Address, Port, Timeout) ->
    case gen_tcp:connect(Address, Port, [binary, {packet, 4}, {active, false}, {nodelay, true}], Timeout) of
        {ok, Socket} -> first_reply({Socket, Timeout});
        {error, Why} -> {error, Why}
    end.

%% A node takes a connection when it has a place for it. What was sent before waits in the system's buffers, and is done then, also if
%% the client has given up. So the first command is one that does nothing, a Resume of process 0, which is always refused and enters
%% nothing in the journal; no other command is sent before the refusal is there.
first_reply(Session) ->
    case resume(Session, 0) of
        {error, Why} when Why =:= no_process; Why =:= journal_full; Why =:= no_memory -> {ok, Session};
        {error, Why} -> close(Session), {error, Why};
        {ok, _} -> close(Session), {error, bad_reply}
    end.

-spec close(session()) -> ok.
close({Socket, _}) -> gen_tcp:close(Socket).

%% Code. A load answers the numbers of the current and the old instance, 0 for none.

-spec load(session(), file:name_all()) -> answer(versions()).
load(Session, File) -> load_as(1, Session, File).

-spec load_strict(session(), file:name_all()) -> answer(versions()).
load_strict(Session, File) -> load_as(2, Session, File).

load_as(Kind, Session, File) ->
    case file:read_file(File) of
        {ok, Bytes} -> command(Session, Kind, Bytes);
        {error, Why} -> {error, Why}
    end.

%% The modules of all files become current together, in their order, or none does. Where a module has old code, strict refuses, soft
%% removes it unless a process lingers in it, hard removes it and ends those that linger.
-spec atomic_load(session(), strict | soft | hard, [file:name_all()]) -> answer([versions()]).
atomic_load(Session, Mode, Files) ->
    case read_all(Files) of
        {ok, Read} -> command(Session, 18, [mode(Mode), <<(length(Read)):32>> | [[<<(byte_size(File)):32>>, File] || File <- Read]]);
        {error, Why} -> {error, Why}
    end.

mode(strict) -> 0;
mode(soft) -> 1;
mode(hard) -> 2.

read_all([]) -> {ok, []};
read_all([File | Files]) ->
    case {file:read_file(File), read_all(Files)} of
        {{ok, Bytes}, {ok, Read}} -> {ok, [Bytes | Read]};
        {{error, Why}, _} -> {error, Why};
        {_, {error, Why}} -> {error, Why}
    end.

-spec delete(session(), module()) -> answer(boolean()).
delete(Session, Module) -> command(Session, 3, atom_to_binary(Module)).

-spec soft_purge(session(), module()) -> answer(boolean()).
soft_purge(Session, Module) -> command(Session, 4, atom_to_binary(Module)).

-spec purge(session(), module()) -> answer(boolean()).
purge(Session, Module) -> command(Session, 5, atom_to_binary(Module)).

-spec versions(session(), module()) -> answer(versions()).
versions(Session, Module) -> command(Session, 17, atom_to_binary(Module)).

%% Processes. Steps answers how many rows were done, and what the process does then.

-spec spawn(session(), module(), atom(), [term()]) -> answer(number_of_process()).
spawn(Session, Module, Function, Arguments) -> command(Session, 6, external({Module, Function, Arguments})).

-spec send(session(), process() | atom(), term()) -> answer(done).
send(Session, Number, Message) when is_integer(Number) -> send(Session, pid(Number), Message);
send(Session, To, Message) -> command(Session, 7, external({To, Message})).

-spec steps(session(), process(), non_neg_integer()) -> answer({non_neg_integer(), state()}).
steps(Session, Process, Rows) -> command(Session, 8, <<(number(Process)):32, Rows:32>>).

-spec deliver(session(), process()) -> answer(done).
deliver(Session, Process) -> command(Session, 9, <<(number(Process)):32>>).

%% Milliseconds since the node's beginning.
-spec clock(session(), non_neg_integer()) -> answer(done).
clock(Session, Time) -> command(Session, 10, <<Time:64>>).

-spec timeout(session(), process()) -> answer(done).
timeout(Session, Process) -> command(Session, 11, <<(number(Process)):32>>).

%% Values. A process of the module beamctl_helper, which is loaded if the node has none, ends with the value as its reason.

-spec call(session(), module(), atom(), [term()]) -> answer(term()).
call(Session, Module, Function, Arguments) -> call(Session, Module, Function, Arguments, infinity).

%% Calls the function, and waits for this many milliseconds at most; after that {error, timeout}, and the process goes on.
-spec call(session(), module(), atom(), [term()], timeout()) -> answer(term()).
call(Session, Module, Function, Arguments, Timeout) -> help(Session, call, [Module, Function, Arguments], Timeout).

%% Sends {Self, Message}, where Self is the pid that waits for the answer, or Message alone if the atom '$self', which
%% stands for that pid, is in it. The answer is the first message that comes.
-spec ask(session(), process() | atom(), term(), timeout()) -> answer(term()).
ask(Session, To, Message, Timeout) when is_integer(To) -> ask(Session, pid(To), Message, Timeout);
ask(Session, To, Message, Timeout) ->
    Sent = case has_self(Message) of true -> Message; false -> {'$self', Message} end,
    case help(Session, ask, [To, Sent, Timeout], infinity) of
        {error, {error, badarg}} -> {error, no_process};
        Answer -> Answer
    end.

has_self('$self') -> true;
has_self([Head | Tail]) -> has_self(Head) orelse has_self(Tail);
has_self(Tuple) when is_tuple(Tuple) -> has_self(tuple_to_list(Tuple));
has_self(_) -> false.

help(Session, Function, Arguments, Timeout) ->
    case with_helper(Session) of
        ok ->
            case spawn(Session, ?HELPER, Function, Arguments) of
                {ok, Number} -> returned(wait(Session, Number, Timeout));
                {error, Why} -> {error, Why}
            end;
        {error, Why} -> {error, Why}
    end.

returned({ok, {returned, Value}}) -> {ok, Value};
returned({ok, {Class, Reason}}) when Class =:= error; Class =:= exit; Class =:= throw -> {error, {Class, Reason}};
returned({ok, timeout}) -> {error, timeout};
returned({ok, Reason}) -> {error, {exit, Reason}};
returned({error, Why}) -> {error, Why}.

with_helper(Session) ->
    case versions(Session, ?HELPER) of
        {ok, {0, _}} ->
            _ = soft_purge(Session, ?HELPER),
            load_helper(Session, filename:join(filename:dirname(code:which(?MODULE)), "beamctl_helper.beam"));
        {ok, _} -> ok;
        {error, Why} -> {error, Why}
    end.

%% Loads the helper module from a file that doesn't lie beside this module's.
-spec load_helper(session(), file:name_all()) -> ok | {error, why()}.
load_helper(Session, File) ->
    case load_strict(Session, File) of
        {ok, _} -> ok;
        {error, Why} -> {error, Why}
    end.

%% The reason of a process when it has ended. It asks after pauses that grow to a second, by Steps of no rows, which changes nothing
%% and needs no view: that of a large state holds the node up, and one that is too long ends the session. It takes an entry of the
%% journal only if the process can go on and no scheduler has it.
-spec wait(session(), process(), timeout()) -> answer(term()).
wait(Session, Process, Timeout) -> wait(Session, Process, ends(Timeout), 2).

wait(Session, Process, End, Pause) ->
    case is_alive(Session, Process) of
        true ->
            case left(End) of
                0 -> {error, timeout};
                Left ->
                    timer:sleep(min(Pause, Left)),
                    wait(Session, Process, End, min(1000, Pause * 3 div 2))
            end;
        false -> reason(Session, Process);
        {error, Why} -> {error, Why}
    end.

is_alive(Session, Process) ->
    case steps(Session, Process, 0) of
        {error, no_process} -> false;
        {error, Why} when Why =/= not_ready, Why =/= stopped, Why =/= busy -> {error, Why};
        _ -> true
    end.

%% The reason of a process that has ended; no_process if it was never started.
reason(Session, Process) ->
    case inspect(Session, Process) of
        {ok, Text} -> {ok, maps:get(reason, view(Text))};
        {error, Why} -> {error, Why}
    end.

ends(infinity) -> infinity;
ends(Timeout) -> erlang:monotonic_time(millisecond) + Timeout.

left(infinity) -> infinity;
left(End) -> max(0, End - erlang:monotonic_time(millisecond)).

-spec kill(session(), process(), Reason :: term()) -> answer(done).
kill(Session, Process, Reason) -> done(call(Session, erlang, exit, [as_pid(Process), Reason])).

%% badarg: the name is taken, or the process has ended or has a name; of unregister: no process has the name.
-spec register(session(), atom(), process()) -> answer(done).
register(Session, Name, Process) -> done(call(Session, erlang, register, [Name, as_pid(Process)])).

-spec unregister(session(), atom()) -> answer(done).
unregister(Session, Name) -> done(call(Session, erlang, unregister, [Name])).

-spec whereis(session(), atom()) -> answer(number_of_process() | undefined).
whereis(Session, Name) ->
    case call(Session, erlang, whereis, [Name]) of
        {ok, Pid} when is_pid(Pid) -> {ok, number(Pid)};
        Answer -> Answer
    end.

done({ok, true}) -> {ok, done};
done({error, {error, badarg}}) -> {error, badarg};
done({error, Why}) -> {error, Why}.

%% The debugger.

-spec set_break(session(), spot()) -> answer(boolean()).
set_break(Session, Spot) -> command(Session, 12, external(Spot)).

-spec clear_break(session(), spot()) -> answer(boolean()).
clear_break(Session, Spot) -> command(Session, 13, external(Spot)).

%% At the first row of Function/Arity, whose label stands in the module's file.
-spec set_break(session(), {module(), atom(), arity()}, file:name_all()) -> answer(boolean()).
set_break(Session, Function, File) -> at_entry(Function, File, fun(Spot) -> set_break(Session, Spot) end).

-spec clear_break(session(), {module(), atom(), arity()}, file:name_all()) -> answer(boolean()).
clear_break(Session, Function, File) -> at_entry(Function, File, fun(Spot) -> clear_break(Session, Spot) end).

at_entry({Module, Name, Arity}, File, Do) ->
    case beam_lib:chunks(File, [labeled_exports, labeled_locals], [allow_missing_chunks]) of
        {ok, {Module, [{labeled_exports, Exports}, {labeled_locals, Locals}]}} ->
            Functions = Exports ++ case Locals of missing_chunk -> []; _ -> Locals end,
            case [Label || {Found, Of, Label} <- Functions, Found =:= Name, Of =:= Arity] of
                [Label | _] -> Do({current, Module, Label, 0});
                [] -> {error, undef}
            end;
        {ok, _} -> {error, undef};
        {error, beam_lib, Why} -> {error, element(1, Why)}
    end.

-spec resume(session(), process()) -> answer(done).
resume(Session, Process) -> command(Session, 14, <<(number(Process)):32>>).

-spec step_one(session(), process()) -> answer({non_neg_integer(), state()}).
step_one(Session, Process) -> command(Session, 15, <<(number(Process)):32>>).

-spec inspect(session(), process()) -> answer(binary()).
inspect(Session, Process) -> command(Session, 16, <<(number(Process)):32>>).

%% The live processes. A look at each that was started is an entry of the journal.
-spec ps(session()) -> answer([view()]).
ps(Session) -> ps(Session, 1, []).

ps(Session, First, Found) ->
    Numbers = lists:seq(First, First + ?PIPELINED - 1),
    case write_all(Session, [[16, <<Number:32>>] || Number <- Numbers]) of
        ok ->
            case views([receive_answer(Session) || _ <- Numbers], []) of
                {all, Views} -> ps(Session, First + ?PIPELINED, Views ++ Found);
                {some, Views} -> {ok, lists:reverse([View || View = #{state := State} <- Views ++ Found, State =/= ended])};
                {error, Why} -> {error, Why}
            end;
        {error, Why} -> {error, Why}
    end.

views([{ok, Text} | Rest], Found) -> views(Rest, [view(Text) | Found]);
views([{error, no_process} | _], Found) -> {some, Found};
views([{error, Why} | _], _) -> {error, Why};
views([], Found) -> {all, Found}.

%% The fields in the text of inspect/2.
-spec view(binary()) -> view().
view(<<"pid ", Text/binary>>) ->
    [First | Lines] = binary:split(Text, <<"\n">>, [global, trim]),
    case binary:split(First, <<" ">>, [global]) of
        [Number, <<"ended">> | _] ->
            [_, Reason] = binary:split(First, <<" ended ">>),
            #{pid => binary_to_integer(Number), state => ended, reason => term(Reason)};
        [Number, State] ->
            [_, Mailbox, _, _, _, Transit] = binary:split(lists:last(Lines), <<" ">>, [global]),
            #{pid => binary_to_integer(Number), state => binary_to_existing_atom(State), at => at(Lines),
              mailbox => binary_to_integer(Mailbox), transit => binary_to_integer(Transit)}
    end.

at([<<"at ", At/binary>> | _]) -> At;
at(_) -> <<>>.

%% Terms. The node reads and writes atoms as UTF-8, which is minor version 2 of the format.

external(Term) -> term_to_binary(Term, [{minor_version, 2}]).

-spec pid(number_of_process()) -> pid().
pid(Number) -> binary_to_term(<<131, 88, 119, 13, "nonode@nohost", Number:32, 0:32, 0:32>>).

%% The reference of that number: the n-th that the node made has the number n.
-spec reference(pos_integer()) -> reference().
reference(Number) -> reference_of([Number, 0, 0]).

reference_of(Words) ->
    Numbers = << <<Word:32>> || Word <- Words >>,
    binary_to_term(<<131, 90, (length(Words)):16, 119, 13, "nonode@nohost", 0:32, Numbers/binary>>).

as_pid(Number) when is_integer(Number) -> pid(Number);
as_pid(Pid) -> Pid.

number(Number) when is_integer(Number) -> Number;
number(Pid) when is_pid(Pid) ->
    <<131, 88, 119, Size, _:Size/binary, Number:32, _/binary>> = external(Pid),
    Number.

%% The term of its text, as the node prints it: pids and references outside of quotes are read as tuples first. A reference that isn't of
%% three words is of another node, which its text doesn't name: it stays its text, as an atom.
term(Text) ->
    Parts = re:split(Text, "('(?:[^'\\\\]|\\\\.)*'|#Ref<0[0-9.]+>|<0\\.[0-9]+\\.[0-9]+>)", [{return, list}, unicode]),
    {ok, Tokens, _} = erl_scan:string(lists:append([part(Part) || Part <- Parts]) ++ "."),
    {ok, Term} = erl_parse:parse_term(Tokens),
    with_named(Term).

part("<0." ++ Numbers) -> "{'kanguriwe pid'," ++ lists:takewhile(fun(Sign) -> Sign =/= $. end, Numbers) ++ "}";
part("#Ref<0." ++ Words = Text) ->
    case string:lexemes(Words, ".>") of
        [_, _, _] = Three -> "{'kanguriwe reference',[" ++ lists:append(lists:join(",", lists:reverse(Three))) ++ "]}";
        _ -> "'" ++ Text ++ "'"
    end;
part(Part) -> Part.

with_named({'kanguriwe pid', Number}) -> pid(Number);
with_named({'kanguriwe reference', Words}) -> reference_of(Words);
with_named([Head | Tail]) -> [with_named(Head) | with_named(Tail)];
with_named(Tuple) when is_tuple(Tuple) -> list_to_tuple(with_named(tuple_to_list(Tuple)));
with_named(Term) -> Term.

%% Frames: gen_tcp writes and reads the length of four bytes.

command(Session, Kind, Body) ->
    case write_all(Session, [[Kind, Body]]) of
        ok -> receive_answer(Session);
        {error, Why} -> {error, Why}
    end.

write_all(_, []) -> ok;
write_all({Socket, _} = Session, [Frame | Frames]) ->
    case gen_tcp:send(Socket, Frame) of
        ok -> write_all(Session, Frames);
        {error, Why} -> {error, Why}
    end.

receive_answer({Socket, Timeout}) ->
    case gen_tcp:recv(Socket, 0, Timeout) of
        {ok, <<Kind, Body/binary>>} -> answer(Kind, Body);
        {ok, _} -> {error, bad_reply};
        {error, Why} -> {error, Why}
    end.

answer(0, <<>>) -> {ok, done};
answer(1, <<Truth>>) -> {ok, Truth =:= 1};
answer(2, <<Number:32>>) -> {ok, Number};
answer(3, <<Rows:32, State, Terms/binary>>) -> rows(Rows, State, Terms);
answer(4, Text) -> {ok, Text};
answer(5, <<Current:32, Old:32>>) -> {ok, {Current, Old}};
answer(6, <<12, Layer, Number>>) -> {error, {bad_file, file_fault(Layer, Number)}};
answer(6, <<Refusal>>) -> {error, name(Refusal, refusals(), {refusal, Refusal})};
answer(8, <<Count:32, Modules/binary>>) when byte_size(Modules) =:= 8 * Count ->
    {ok, [{Current, Old} || <<Current:32, Old:32>> <= Modules]};
answer(7, <<Error>>) -> {error, name(Error, {too_long, bad_kind, bad_command}, {frame_error, Error})};
answer(_, _) -> {error, bad_reply}.

rows(Rows, 0, <<>>) -> {ok, {Rows, goes_on}};
rows(Rows, 1, <<>>) -> {ok, {Rows, waits}};
rows(Rows, 2, <<>>) -> {ok, {Rows, held}};
rows(Rows, 3, Terms) ->
    try
        {Reason, Used} = binary_to_term(Terms, [used]),
        {ok, {Rows, {ended, Reason, binary_to_term(binary:part(Terms, Used, byte_size(Terms) - Used))}}}
    catch
        error:badarg -> {error, bad_reply}
    end;
rows(_, _, _) -> {error, bad_reply}.

%% The name with this number, or a placeholder if the number has none.
name(Number, Names, _) when Number > 0, Number =< tuple_size(Names) -> element(Number, Names);
name(_, _, Unknown) -> Unknown.

refusals() ->
    {no_memory, no_process, backward_clock, not_ready, stopped, busy, sticky, not_purged, duplicated,
     journal_full, bad_spot, bad_file, too_many, stranger}.

file_fault(Layer, Number) ->
    Faults =
        {{not_form, truncated, compressed_file, duplicate_chunk},
         {missing_chunk, bad_table, compressed_literals, bad_literal},
         {unsupported_opcode, bad_operand, truncated},
         {bad_label, bad_head, bad_export, unknown_bif, limit_exceeded, frame_mismatch}},
    name(Number, name(Layer, Faults, {}), fault).
