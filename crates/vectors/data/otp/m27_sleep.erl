-module(m27_sleep).
-export([waiting/2, zero/1, while/2, twice/1, wanted/1, forever/0]).
-export([sender/2, sleeper/0, brief/0]).

%% N messages wait before a sleep of T; how many there are after it.
waiting(N, T) ->
    fill(N),
    receive after T -> ok end,
    count(0).

%% A sleep of 0, known when it runs alone.
zero(N) ->
    T = N - N,
    fill(N),
    receive after T -> ok end,
    count(0).

%% N messages come while it sleeps.
while(N, T) ->
    spawn(m27_sleep, sender, [self(), N]),
    receive after T -> ok end,
    count(0).

sender(_, 0) -> ok;
sender(P, N) ->
    P ! {m, N},
    receive after 1 -> ok end,
    sender(P, N - 1).

%% Two sleeps, with N messages before the first and one more before the second.
twice(N) ->
    fill(N),
    receive after 2 -> ok end,
    self() ! {m, last},
    receive after 2 -> ok end,
    count(0).

%% A receive that takes none of N messages, and then a sleep.
wanted(N) ->
    fill(N),
    R = receive none -> none after 3 -> late end,
    receive after 3 -> ok end,
    {R, count(0)}.

%% A process that sleeps for ever lives on when a DOWN comes to it.
forever() ->
    S = spawn(m27_sleep, sleeper, []),
    receive after 30 -> ok end,
    A = is_process_alive(S),
    exit(S, kill),
    receive after 30 -> ok end,
    {A, is_process_alive(S)}.

sleeper() ->
    P = spawn(m27_sleep, brief, []),
    _ = monitor(process, P),
    receive after infinity -> ok end.

brief() -> ok.

%% So many messages are in the mailbox when this has ended.
fill(N) ->
    put_in(N),
    self() ! full,
    receive full -> ok end.

put_in(0) -> ok;
put_in(N) -> self() ! {m, N}, put_in(N - 1).

count(N) ->
    receive {m, _} -> count(N + 1) after 0 -> N end.
