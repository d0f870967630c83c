-module(sorting).
-export([main/0]).

main() -> {insertion([3,1,2,3,0]), merge_sort([5,4,9,1,7,7,2])}.

insertion([]) -> [];
insertion([X|Xs]) -> insert(X, insertion(Xs)).

insert(X, []) -> [X];
insert(X, [Y|Ys]) when X =< Y -> [X,Y|Ys];
insert(X, [Y|Ys]) -> [Y|insert(X, Ys)].

merge_sort([]) -> [];
merge_sort([X]) -> [X];
merge_sort(Xs) ->
    {L, R} = split(Xs, [], []),
    merge(merge_sort(L), merge_sort(R)).

split([], L, R) -> {L, R};
split([X|Xs], L, R) -> split(Xs, [X|R], L).

merge([], Ys) -> Ys;
merge(Xs, []) -> Xs;
merge([X|Xs], [Y|Ys]) when X =< Y -> [X|merge(Xs, [Y|Ys])];
merge(Xs, [Y|Ys]) -> [Y|merge(Xs, Ys)].
