-module(counter).
-export([main/1, loop/2]).

%% Starts a counter, lets it count N times, and asks for the sum.
main(N) ->
    Counter = spawn(counter, loop, [self(), 0]),
    count(Counter, N),
    Counter ! total,
    receive {total, Total} -> Total after 1000 -> timeout end.

count(_, 0) -> ok;
count(Counter, N) -> Counter ! {add, N}, count(Counter, N - 1).

loop(Owner, Sum) ->
    receive
        {add, N} -> loop(Owner, Sum + N);
        total -> Owner ! {total, Sum}
    end.
