-module(permutations).
-export([main/0]).

perms([]) -> [[]];
perms(Xs) -> [[X|Ys] || X <- Xs, Ys <- perms(Xs -- [X])].

choose(0, _) -> [[]];
choose(_, []) -> [];
choose(K, [X|Xs]) -> [[X|Ys] || Ys <- choose(K - 1, Xs)] ++ choose(K, Xs).

main() -> choose(2, [a,b,c,d]).
