-module(queens).
-export([main/0]).

queens(N) -> place(N, N, []).

place(0, _, Board) -> [Board];
place(K, N, Board) -> try_columns(N, K, N, Board).

try_columns(0, _, _, _) -> [];
try_columns(C, K, N, Board) ->
    Rest = try_columns(C - 1, K, N, Board),
    case safe(C, 1, Board) of
        true -> place(K - 1, N, [C|Board]) ++ Rest;
        false -> Rest
    end.

safe(_, _, []) -> true;
safe(C, D, [Q|Qs]) ->
    C =/= Q andalso C =/= Q + D andalso C =/= Q - D andalso safe(C, D + 1, Qs).

main() -> {length(queens(6)), hd(queens(6))}.
