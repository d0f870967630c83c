-module(mutual).
-export([main/0]).

main() ->
    Even = fun E(0) -> true; E(N) -> (fun O(0) -> false; O(M) -> E(M - 1) end)(N - 1) end,
    Count = fun C([], N) -> N; C([_|Xs], N) -> C(Xs, N + 1) end,
    {Even(10), Even(7), Count([a,b,c], 0), ackermann(2, 3)}.

ackermann(0, N) -> N + 1;
ackermann(M, 0) -> ackermann(M - 1, 1);
ackermann(M, N) -> ackermann(M - 1, ackermann(M, N - 1)).
