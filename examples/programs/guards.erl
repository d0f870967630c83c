-module(guards).
-export([main/0]).

kind(X) when is_integer(X), X < 0 -> negative;
kind(X) when is_integer(X) -> natural;
kind(X) when hd(X) =:= 1 -> one_first;
kind(X) when length(X) > 2; tuple_size(X) > 2 -> long;
kind(X) when is_atom(X) -> atom;
kind(X) when is_list(X); is_tuple(X) -> short;
kind(_) -> other.

divides(A, B) when B rem A =:= 0 -> true;
divides(_, _) -> false.

main() ->
    {[kind(X) || X <- [-1, 0, [1,2], [a,b,c], {a,b,c}, a, [], {}, fun main/0]],
     divides(3, 9), divides(0, 9), divides(a, 9)}.
