%% Functions whose last call never returns and names a frame of another size than is there, as OTP's compiler may write it: the labels of
%% such calls are shared with rows from before a trim.
-module(m26_exits).
-export([f/3, g/1, flush/1, joined/2, check/2, merge/3]).
-export([caught/3, flushed/1, join/2, checked/2, merged/3, counted/1]).

-record(store, {name, size = 0, limit = 4, cache = [], items = []}).
-record(pairs, {list, type}).
-record(options, {order = up, size = 2}).

%% Three steps, each of which has to be fine.
f(X, Y, Z) ->
    case g(X) of
        {ok, A} ->
            case g(Y) of
                {ok, B} ->
                    case g(Z) of
                        {ok, C} -> {A, B, C};
                        _ -> throw(no)
                    end;
                _ -> throw(no)
            end;
        _ -> throw(no)
    end.

g(X) -> element(1, X).

%% What a store keeps back is written to it, if there is room.
flush(Store) ->
    Cache = Store#store.cache,
    case is_empty(Cache) of
        true -> {Store, []};
        false ->
            {Rest, Most, New} = taken(Cache),
            Count = min(Most, length(New)),
            Store1 = Store#store{cache = Rest},
            case grown(Store1, Count) of
                {Store2, ok} -> filled(Store2, New);
                Full -> throw(Full)
            end
    end.

is_empty([]) -> true;
is_empty([_ | _]) -> false;
is_empty(_) -> unknown.

taken([{rest, Rest} | New]) -> {Rest, 3, New};
taken([broken | _]) -> broken;
taken(New) -> {[], 3, New}.

grown(#store{size = Size, limit = Limit} = Store, Count) when Size + Count =< Limit -> {Store#store{size = Size + Count}, ok};
grown(#store{name = Name}, Count) -> {full, Name, Count}.

filled(#store{items = Items} = Store, New) -> {Store#store{items = New ++ Items}, New}.

%% Pairs behind pairs, if what the ones lead to is where the others begin.
joined(One, Two) when is_record(One, pairs), is_record(Two, pairs) ->
    {A, B} =
        case One#pairs.type of
            {_, _} = Type1 -> Type1;
            any -> {any, any};
            _ -> error(badarg)
        end,
    {C, D} =
        case Two#pairs.type of
            {_, _} = Type2 -> Type2;
            any -> {any, any};
            _ -> error(badarg)
        end,
    case fits(B, C) of
        true when A =:= any -> One;
        true when C =:= any -> Two;
        true ->
            case behind(One#pairs.list, Two#pairs.list) of
                List when is_list(List) -> #pairs{list = turned(List, []), type = {A, D}};
                Bad -> error(Bad)
            end;
        false -> error(no_fit)
    end.

fits(any, _) -> true;
fits(_, any) -> true;
fits(Same, Same) -> true;
fits(_, _) -> false.

behind([], _) -> [];
behind([{X, Y} | Rest], Two) ->
    case found(Y, Two) of
        {ok, Z} ->
            case behind(Rest, Two) of
                List when is_list(List) -> [{X, Z} | List];
                Bad -> Bad
            end;
        none -> {no_value, Y}
    end.

found(_, []) -> none;
found(Key, [{Key, Value} | _]) -> {ok, Value};
found(Key, [_ | Rest]) -> found(Key, Rest).

turned([], Done) -> Done;
turned([Item | Rest], Done) -> turned(Rest, [Item | Done]).

%% Lists and options are looked at before anything is done; what is wrong is an error with the arguments.
check(Lists0, Options) ->
    case {lists(Lists0), options(Options)} of
        {{true, Lists}, #options{} = Known} -> done(Lists, none, Known);
        Both -> wrong(culprit(tuple_to_list(Both)), [Lists0, Options])
    end.

merge(Lists0, Name0, Options) ->
    case {lists(Lists0), name(Name0), options(Options)} of
        {{true, Lists}, {true, Name}, #options{} = Known} -> done(Lists, Name, Known);
        All -> wrong(culprit(tuple_to_list(All)), [Lists0, Name0, Options])
    end.

-compile({inline, [wrong/2]}).
wrong({error, _} = Error, _) -> Error;
wrong({badarg, _} = Why, Arguments) -> error(Why, Arguments).

culprit([{error, _} = Error | _]) -> Error;
culprit([{badarg, _} = Why | _]) -> Why;
culprit([_ | Rest]) -> culprit(Rest).

lists([closed | _]) -> {error, {closed, here}};
lists(Lists) when is_list(Lists) -> {true, Lists};
lists(Other) -> {badarg, Other}.

name(Name) when is_atom(Name) -> {true, Name};
name(Other) -> {badarg, Other}.

options(Options) when is_list(Options) -> options(Options, #options{});
options(Option) -> options([Option]).

options([{order, Order} | Rest], Known) when Order =:= up; Order =:= down -> options(Rest, Known#options{order = Order});
options([{size, Size} | Rest], Known) when is_integer(Size) -> options(Rest, Known#options{size = Size});
options([Bad | _], _) -> {badarg, Bad};
options([], Known) -> Known.

done(Lists, Name, #options{order = Order, size = Size}) -> {Name, Order, Size, length(Lists)}.

%% The same functions, and what they leave by.
caught(X, Y, Z) -> try f(X, Y, Z) catch Class:Reason -> {Class, Reason} end.

flushed(Store) -> catch flush(Store).

join(One, Two) -> try joined(One, Two) catch error:Reason -> {error, Reason} end.

checked(Lists, Options) -> try check(Lists, Options) catch Class:Reason -> {Class, Reason} end.

merged(Lists, Name, Options) ->
    try merge(Lists, Name, Options) of
        {error, Reason} -> {answered, Reason};
        Merged -> Merged
    catch
        error:{badarg, Reason} -> {Reason, is_wrong}
    end.

%% How many of the lists of three leave by a throw, each by a frame of its own above this one.
counted(Lists) -> counted(Lists, 0).

counted([[X, Y, Z] | Rest], Count) ->
    case caught({X}, {Y}, {Z}) of
        {throw, no} -> counted(Rest, Count + 1);
        {_, _, _} -> counted(Rest, Count)
    end;
counted([], Count) -> Count.
