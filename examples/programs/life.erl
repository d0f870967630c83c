-module(life).
-export([main/0]).

% Conway's game of life on a list of cells.
neighbours({X, Y}) ->
    [{X + DX, Y + DY} || DX <- [-1,0,1], DY <- [-1,0,1], {DX, DY} =/= {0, 0}].

member(_, []) -> false;
member(X, [X|_]) -> true;
member(X, [_|Xs]) -> member(X, Xs).

count([], _) -> 0;
count([C|Cs], Alive) ->
    case member(C, Alive) of
        true -> 1 + count(Cs, Alive);
        false -> count(Cs, Alive)
    end.

lives(C, Alive) ->
    case count(neighbours(C), Alive) of
        3 -> true;
        2 -> member(C, Alive);
        _ -> false
    end.

step(Alive) -> [{X, Y} || X <- [0,1,2,3,4], Y <- [0,1,2,3,4], lives({X, Y}, Alive)].

main() -> {step([{2,1},{2,2},{2,3}]), step(step([{1,2},{2,3},{3,1},{3,2},{3,3}]))}.
