-module(matrix).
-export([main/0]).

dot([], []) -> 0;
dot([X|Xs], [Y|Ys]) -> X * Y + dot(Xs, Ys).

transpose([[]|_]) -> [];
transpose(Rows) -> [heads(Rows)|transpose(tails(Rows))].

heads([]) -> [];
heads([[X|_]|Rows]) -> [X|heads(Rows)].

tails([]) -> [];
tails([[_|Xs]|Rows]) -> [Xs|tails(Rows)].

mul(A, B) ->
    Columns = transpose(B),
    rows(A, Columns).

rows([], _) -> [];
rows([R|Rs], Cs) -> [row(R, Cs)|rows(Rs, Cs)].

row(_, []) -> [];
row(R, [C|Cs]) -> [dot(R, C)|row(R, Cs)].

main() -> mul([[1,2,3],[4,5,6]], [[7,8],[9,10],[11,12]]).
