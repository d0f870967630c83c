-module(set_lists).
-export([main/0]).

union([], Ys) -> Ys;
union(Xs, []) -> Xs;
union([X|Xs], [Y|_] = Ys) when X < Y -> [X|union(Xs, Ys)];
union([X|_] = Xs, [Y|Ys]) when Y < X -> [Y|union(Xs, Ys)];
union([X|Xs], [_|Ys]) -> [X|union(Xs, Ys)].

subtract([], _) -> [];
subtract(Xs, []) -> Xs;
subtract([X|Xs], [Y|_] = Ys) when X < Y -> [X|subtract(Xs, Ys)];
subtract([X|_] = Xs, [Y|Ys]) when Y < X -> subtract(Xs, Ys);
subtract([_|Xs], [_|Ys]) -> subtract(Xs, Ys).

powerset([]) -> [[]];
powerset([X|Xs]) -> P = powerset(Xs), [[X|S] || S <- P] ++ P.

main() -> {union([1,3,b], [2,3,a,c]), subtract([1,2,3,4], [2,4,5]), length(powerset([a,b,c,d])), {1, a} < {a, 1}, [] < [1], {} < []}.
