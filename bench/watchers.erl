%% What monitors cost in OTP, beside bench/monitors.py: nanoseconds of processor for a monitor that is made and dropped again, for a DOWN of
%% a process that many watch, and for an end of one of many that one process watches.
%%
%%     erlc bench/watchers.erl && erl +S 1 -noshell -s watchers main
-module(watchers).
-export([main/0]).

main() ->
    churn(10, 1000000),
    churn(100000, 1000000),
    watched(100000),
    children(100000),
    halt().

churn(Crowd, Turns) ->
    Pids = [spawn(fun wait/0) || _ <- lists:seq(1, Crowd)],
    told("monitor and demonitor", Turns, fun() -> turns(hd(Pids), Turns) end),
    [exit(Pid, kill) || Pid <- Pids].

turns(_, 0) -> ok;
turns(Pid, Turns) ->
    demonitor(monitor(process, Pid)),
    turns(Pid, Turns - 1).

watched(Watchers) ->
    Main = self(),
    Pid = spawn(fun wait/0),
    [spawn(fun() -> watch(Pid, Main) end) || _ <- lists:seq(1, Watchers)],
    [receive watches -> ok end || _ <- lists:seq(1, Watchers)],
    told("DOWN", Watchers, fun() -> Pid ! stop, [receive told -> ok end || _ <- lists:seq(1, Watchers)] end).

watch(Pid, Main) ->
    Reference = monitor(process, Pid),
    Main ! watches,
    receive {'DOWN', Reference, _, _, _} -> Main ! told end.

children(Children) ->
    Pids = [spawn(fun wait/0) || _ <- lists:seq(1, Children)],
    References = [monitor(process, Pid) || Pid <- Pids],
    told("end", Children, fun() ->
        [Pid ! stop || Pid <- Pids],
        [receive {'DOWN', Reference, _, _, _} -> ok end || Reference <- References]
    end).

wait() -> receive stop -> ok end.

told(Unit, Count, Run) ->
    {Before, _} = statistics(runtime),
    Run(),
    {After, _} = statistics(runtime),
    io:format("~s: ~b ns~n", [Unit, (After - Before) * 1000000 div Count]).
