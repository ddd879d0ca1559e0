%% What clients/beamctl.py and clients/kanguriwe.erl start as processes of a node to learn a value. A process that ended shows
%% its reason and no value, so these end with the result as their reason: {returned, Value}, or {Class, Reason} of an
%% exception, where Class is error, exit or throw; or timeout.
-module(beamctl_helper).
-export([call/3, ask/3]).

%% Calls the function with the arguments of the list, at most ten.
call(Module, Function, Arguments) ->
    exit(try {returned, apply_to(Arguments, Module, Function)} catch Class:Reason -> {Class, Reason} end).

%% Sends the message to a pid or a name, and takes the first message that comes within this many milliseconds, or ever if that is
%% infinity. In the message the atom '$self' stands for the pid that waits for the answer.
ask(To, Message, Milliseconds) ->
    exit(try To ! with_self(Message, self()) of
             _ -> receive Answer -> {returned, Answer} after Milliseconds -> timeout end
         catch
             Class:Reason -> {Class, Reason}
         end).

with_self('$self', Self) -> Self;
with_self([Head | Tail], Self) -> [with_self(Head, Self) | with_self(Tail, Self)];
with_self(Tuple, Self) when is_tuple(Tuple) -> list_to_tuple(with_self(tuple_to_list(Tuple), Self));
with_self(Term, _) -> Term.

%% The node has no apply/3.
apply_to([], M, F) -> M:F();
apply_to([A], M, F) -> M:F(A);
apply_to([A, B], M, F) -> M:F(A, B);
apply_to([A, B, C], M, F) -> M:F(A, B, C);
apply_to([A, B, C, D], M, F) -> M:F(A, B, C, D);
apply_to([A, B, C, D, E], M, F) -> M:F(A, B, C, D, E);
apply_to([A, B, C, D, E, G], M, F) -> M:F(A, B, C, D, E, G);
apply_to([A, B, C, D, E, G, H], M, F) -> M:F(A, B, C, D, E, G, H);
apply_to([A, B, C, D, E, G, H, I], M, F) -> M:F(A, B, C, D, E, G, H, I);
apply_to([A, B, C, D, E, G, H, I, J], M, F) -> M:F(A, B, C, D, E, G, H, I, J);
apply_to([A, B, C, D, E, G, H, I, J, K], M, F) -> M:F(A, B, C, D, E, G, H, I, J, K).
