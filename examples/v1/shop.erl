-module(shop).
-export([start/0, open/1]).

%% Sells apples at 3 each, and ends at close. The call of shop:open goes to the code that is current then.
open(Sold) ->
    receive
        {From, {buy, N}} ->
            From ! {costs, N * 3, sold, Sold + N},
            shop:open(Sold + N);
        close ->
            Sold
    end.

%% Opens under the name shop: what a node begins with (beamnode serve --start shop:start).
start() ->
    register(shop, self()),
    open(0).
