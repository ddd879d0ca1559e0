%% A process that keeps another one alive: it monitors the worker that it started, and starts another one where that fails.
-module(keeper).
-export([main/1, work/1]).

%% The worker fails so many times before it ends. What comes: how often one was started again.
main(Failures) -> keep(Failures, 0).

keep(Failures, Restarts) ->
    Pid = spawn(keeper, work, [Failures]),
    Ref = monitor(process, Pid),
    receive
        {'DOWN', Ref, process, Pid, normal} -> {ended, Restarts};
        {'DOWN', Ref, process, Pid, {failed, Left}} -> keep(Left, Restarts + 1)
    end.

work(0) -> ended;
work(Failures) -> exit({failed, Failures - 1}).
