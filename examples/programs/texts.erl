-module(texts).
-export([main/0]).

% Text handling by lists of characters.
words(S) -> words(S, [], []).

words([], [], Acc) -> reverse(Acc, []);
words([], W, Acc) -> reverse([reverse(W, [])|Acc], []);
words([C|S], [], Acc) when C =:= $\s; C =:= $\n -> words(S, [], Acc);
words([C|S], W, Acc) when C =:= $\s; C =:= $\n -> words(S, [], [reverse(W, [])|Acc]);
words([C|S], W, Acc) -> words(S, [C|W], Acc).

reverse([], R) -> R;
reverse([X|Xs], R) -> reverse(Xs, [X|R]).

upper(C) when C >= $a, C =< $z -> C - 32;
upper(C) -> C.

digits(0, Acc) -> Acc;
digits(N, Acc) -> digits(N div 10, [$0 + N rem 10|Acc]).

number(S) -> number(S, 0).
number([C|S], N) when C >= $0, C =< $9 -> number(S, N * 10 + C - $0);
number(S, N) -> {N, S}.

main() ->
    {words("the  quick\nbrown fox "), [upper(C) || C <- "hipe"], digits(1024, []), number("42 is it")}.
