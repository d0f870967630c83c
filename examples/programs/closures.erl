-module(closures).
-export([main/0]).

adder(N) -> fun (X) -> X + N end.

compose(F, G) -> fun (X) -> F(G(X)) end.

times(0, _) -> fun (X) -> X end;
times(N, F) -> compose(F, times(N - 1, F)).

pair(A, B) -> fun (S) -> S(A, B) end.
first(P) -> P(fun (A, _) -> A end).
second(P) -> P(fun (_, B) -> B end).

map(_, []) -> [];
map(F, [X|Xs]) -> [F(X)|map(F, Xs)].

main() ->
    Ten = times(5, adder(2)),
    P = pair(Ten(0), map(fun (X) -> Y = X * X, (adder(Y))(1) end, [1,2,3])),
    {first(P), second(P), is_function(Ten, 1), is_function(Ten, 2)}.
