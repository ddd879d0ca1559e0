%% Calls of clients/kanguriwe.erl over a node that begins empty: each line of calls/1 has a call and the answer that it has to give.
%% tests/ctl.sh runs it.
-module(ctl_calls).
-export([main/1]).

-define(IS(Wanted, Call), {??Call, fun() -> Call end, Wanted}).

main([Word, Path]) ->
    Port = list_to_integer(Word),
    {ok, Node} = kanguriwe:connect(Port, 5000),
    Found = [holds(Text, catch Call(), Wanted) || {Text, Call, Wanted} <- calls(Port, Node) ++ calls_by_socket(Path)],
    io:format("ctl_calls: ~b of ~b hold~n", [length([held || true <- Found]), length(Found)]),
    halt(case lists:all(fun(Held) -> Held end, Found) of true -> 0; false -> 1 end).

holds(_, Wanted, Wanted) -> true;
holds(Text, Found, Wanted) ->
    io:format("differs: ~s~nwanted: ~p~nfound: ~p~n", [Text, Wanted, Found]),
    false.

calls(Port, Node) ->
    Pid = fun kanguriwe:pid/1,
    %% Grown sixteen times these are 16 MB of text.
    Leaf = list_to_atom(lists:duplicate(250, $a)),
    [?IS({ok, []}, kanguriwe:ps(Node)),
     ?IS({error, no_process}, kanguriwe:inspect(Node, 1)),
     ?IS({ok, {1, 0}}, kanguriwe:load(Node, "t.beam")),
     ?IS({ok, {2, 1}}, kanguriwe:load_strict(Node, "t.beam")),
     ?IS({error, not_purged}, kanguriwe:load_strict(Node, "t.beam")),
     ?IS({error, {bad_file, truncated}}, kanguriwe:load(Node, "cut.beam")),
     ?IS({error, {bad_file, unsupported_opcode}}, kanguriwe:load(Node, "opcode.beam")),
     ?IS({error, sticky}, kanguriwe:load(Node, "erlang.beam")),
     ?IS({error, enoent}, kanguriwe:load(Node, "missing.beam")),
     ?IS({ok, true}, kanguriwe:soft_purge(Node, t)),
     ?IS({ok, false}, kanguriwe:purge(Node, t)),
     ?IS({ok, {2, 0}}, kanguriwe:versions(Node, t)),
     ?IS({ok, 10}, kanguriwe:call(Node, t, sum, [4])),
     ?IS({error, {error, badarith}}, kanguriwe:call(Node, t, sum, [a])),
     ?IS({error, {throw, {a, [Pid(1), 'x y', '<0.2.0>', [1 | 2]]}}},
         kanguriwe:call(Node, erlang, throw, [{a, [Pid(1), 'x y', '<0.2.0>', [1 | 2]]}])),
     ?IS({ok, 'a\n\'b'}, kanguriwe:call(Node, erlang, hd, [['a\n\'b']])),
     ?IS({ok, {3, 0}}, kanguriwe:versions(Node, beamctl_helper)),
     ?IS({ok, {4, 0}}, kanguriwe:load(Node, "shop.beam")),
     ?IS({ok, 5}, kanguriwe:spawn(Node, shop, open, [0])),
     ?IS({ok, {costs, 6, sold, 2}}, kanguriwe:ask(Node, 5, {buy, 2}, 5000)),
     ?IS({ok, {costs, 3, sold, 3}}, kanguriwe:ask(Node, Pid(5), {'$self', {buy, 1}}, 5000)),
     ?IS({error, timeout}, kanguriwe:ask(Node, 5, hello, 50)),
     ?IS({error, no_process}, kanguriwe:ask(Node, shop, {buy, 1}, 5000)),
     ?IS({ok, done}, kanguriwe:register(Node, shop, 5)),
     ?IS({error, badarg}, kanguriwe:register(Node, shop, Pid(5))),
     ?IS({ok, 5}, kanguriwe:whereis(Node, shop)),
     ?IS({ok, undefined}, kanguriwe:whereis(Node, other)),
     ?IS({ok, {5, 4}}, kanguriwe:load(Node, "shop2.beam")),
     ?IS({ok, {costs, 3, sold, 4}}, kanguriwe:ask(Node, shop, {buy, 1}, 5000)),
     ?IS({ok, {costs, 2, sold, 5}}, kanguriwe:ask(Node, shop, {buy, 1}, 5000)),
     ?IS({ok, [#{pid => 5, state => waiting, at => <<"shop:open/1 label 3 + 0 instance 5">>, mailbox => 1, transit => 0}]},
         kanguriwe:ps(Node)),
     ?IS({error, timeout}, kanguriwe:wait(Node, 5, 50)),
     ?IS({ok, done}, kanguriwe:unregister(Node, shop)),
     ?IS({error, badarg}, kanguriwe:unregister(Node, shop)),
     ?IS({error, no_process}, kanguriwe:send(Node, shop, close)),
     ?IS({ok, done}, kanguriwe:kill(Node, Pid(5), {no, more})),
     ?IS({ok, {no, more}}, kanguriwe:wait(Node, Pid(5), 5000)),
     ?IS({ok, []}, kanguriwe:ps(Node)),
     ?IS({ok, true}, kanguriwe:set_break(Node, {t, sum, 1}, "t.beam")),
     ?IS({error, undef}, kanguriwe:set_break(Node, {t, sum, 2}, "t.beam")),
     ?IS({error, file_error}, kanguriwe:set_break(Node, {t, sum, 2}, "missing.beam")),
     ?IS({ok, true}, kanguriwe:set_break(Node, {current, t, 5, 0})),
     ?IS({error, bad_spot}, kanguriwe:set_break(Node, {current, t, 7, 0})),
     ?IS({ok, 19}, kanguriwe:spawn(Node, t, sum, [1])),
     ?IS(<<"t:sum/1 label 2 + 0 instance 2">>, held(Node, 19, 100)),
     ?IS({error, stopped}, kanguriwe:steps(Node, 19, 1)),
     ?IS({ok, {1, held}}, kanguriwe:step_one(Node, 19)),
     ?IS({ok, true}, kanguriwe:clear_break(Node, {t, sum, 1}, "t.beam")),
     ?IS({ok, done}, kanguriwe:resume(Node, 19)),
     ?IS(<<"t:sum/2 label 5 + 0 instance 2">>, held(Node, 19, 100)),
     ?IS({ok, true}, kanguriwe:clear_break(Node, {current, t, 5, 0})),
     ?IS({ok, done}, kanguriwe:resume(Node, Pid(19))),
     ?IS({ok, normal}, kanguriwe:wait(Node, 19, 5000)),
     ?IS({error, no_process}, kanguriwe:resume(Node, 19)),
     ?IS({error, no_process}, kanguriwe:deliver(Node, 99)),
     ?IS({error, no_process}, kanguriwe:timeout(Node, Pid(99))),
     ?IS({error, backward_clock}, kanguriwe:clock(Node, 0)),
     ?IS({ok, true}, kanguriwe:delete(Node, t)),
     ?IS({error, not_purged}, kanguriwe:atomic_load(Node, strict, ["t.beam", "shop.beam"])),
     ?IS({ok, [{6, 0}, {7, 5}]}, kanguriwe:atomic_load(Node, soft, ["t.beam", "shop.beam"])),
     ?IS({ok, [{8, 7}, {9, 6}]}, kanguriwe:atomic_load(Node, hard, ["shop2.beam", "t.beam"])),
     ?IS({error, duplicated}, kanguriwe:atomic_load(Node, hard, ["t.beam", "t.beam"])),
     ?IS({error, sticky}, kanguriwe:atomic_load(Node, hard, ["t.beam", "erlang.beam"])),
     ?IS({error, {bad_file, truncated}}, kanguriwe:atomic_load(Node, hard, ["t.beam", "cut.beam"])),
     ?IS({error, enoent}, kanguriwe:atomic_load(Node, hard, ["t.beam", "missing.beam"])),
     ?IS({ok, []}, kanguriwe:atomic_load(Node, strict, [])),
     ?IS({ok, {9, 6}}, kanguriwe:versions(Node, t)),
     ?IS({ok, kanguriwe:reference(1)}, kanguriwe:call(Node, erlang, make_ref, [])),
     ?IS({ok, true}, kanguriwe:call(Node, erlang, is_reference, [make_ref()])),
     ?IS({ok, kanguriwe:reference(2)}, kanguriwe:call(Node, erlang, monitor, [process, Pid(1)])),
     ?IS({ok, {10, 0}}, kanguriwe:load(Node, "grow.beam")),
     ?IS({ok, 23}, kanguriwe:spawn(Node, grow, hold, [16, Leaf])),
     ?IS({ok, hello}, kanguriwe:ask(Node, 23, hello, 5000)),
     ?IS({error, timeout}, kanguriwe:wait(Node, 23, 50)),
     ?IS({ok, done}, kanguriwe:kill(Node, 23, kill)),
     ?IS({ok, killed}, kanguriwe:wait(Node, 23, 5000)),
     ?IS({error, no_process}, kanguriwe:wait(Node, 99, 5000)),
     %% This session has the node's only place.
     ?IS({error, timeout}, kanguriwe:connect(Port, 100)),
     ?IS({error, bad_command}, kanguriwe:set_break(Node, nowhere)),
     ?IS({error, closed}, kanguriwe:versions(Node, t)),
     ?IS(ok, kanguriwe:close(Node))].

calls_by_socket(Path) ->
    {ok, Node} = kanguriwe:connect({local, Path}, 5000),
    [?IS({ok, {9, 6}}, kanguriwe:versions(Node, t)),
     ?IS({ok, 10}, kanguriwe:call(Node, t, sum, [4])),
     ?IS({ok, {11, 10}}, kanguriwe:load_strict(Node, "grow.beam")),
     ?IS(ok, kanguriwe:close(Node)),
     ?IS({error, enoent}, kanguriwe:connect({local, "missing"})),
     ?IS({error, econnrefused}, kanguriwe:connect({local, <<"t.beam">>}, 5000))].

%% Where a process is held.
held(_, _, 0) -> not_held;
held(Node, Process, Looks) ->
    {ok, Text} = kanguriwe:inspect(Node, Process),
    case kanguriwe:view(Text) of
        #{state := held, at := At} -> At;
        _ -> timer:sleep(20), held(Node, Process, Looks - 1)
    end.
