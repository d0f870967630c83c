-module(patterns).
-export([main/0]).

match({point, X, X}) -> {diagonal, X};
match({point, X, Y} = P) -> {P, X - Y};
match([{A, [B|_] = Bs}|Rest] = All) when A =:= B -> {Bs, Rest, All};
match([{_, []}, {second, {third, [_, Deep|_]}}]) -> Deep;
match("abc" ++ Rest) -> {text, Rest};
match($x) -> letter;
match({1, {2, {3, {4, {5, V}}}}}) -> V;
match(_) -> nothing.

main() ->
    [match({point, 2, 2}), match({point, 5, 2}), match([{q, [q, r]}, z]),
     match([{a, []}, {second, {third, [0, found, 1]}}]), match("abcdef"),
     match($x), match({1, {2, {3, {4, {5, six}}}}}), match({1, {2, {3, 4}}})].
