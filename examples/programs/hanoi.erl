-module(hanoi).
-export([main/0]).

move(0, _, _, _, Moves) -> Moves;
move(N, A, B, C, Moves) ->
    move(N - 1, A, C, B, [{A, B}|move(N - 1, C, B, A, Moves)]).

main() -> move(3, left, right, middle, []).
