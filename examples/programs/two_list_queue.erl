-module(two_list_queue).
-export([main/0]).

% A queue of two lists.
new() -> {[], []}.

push(X, {F, B}) -> {F, [X|B]}.

pop({[], []}) -> empty;
pop({[], B}) -> pop({reverse(B, []), []});
pop({[X|F], B}) -> {X, {F, B}}.

reverse([], Ys) -> Ys;
reverse([X|Xs], Ys) -> reverse(Xs, [X|Ys]).

fill(0, Q) -> Q;
fill(N, Q) -> fill(N - 1, push(N, Q)).

drain(Q) ->
    case pop(Q) of
        empty -> [];
        {X, R} -> [X|drain(R)]
    end.

main() ->
    {X, Q} = pop(fill(4, new())),
    {X, drain(push(last, Q))}.
