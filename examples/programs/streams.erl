-module(streams).
-export([main/0]).

% Streams that are evaluated as far as they are asked for.
from(N) -> {N, fun () -> from(N + 1) end}.

map(F, {X, R}) -> {F(X), fun () -> map(F, R()) end}.

filter(P, {X, R}) ->
    case P(X) of
        true -> {X, fun () -> filter(P, R()) end};
        false -> filter(P, R())
    end.

take(0, _) -> [];
take(N, {X, R}) -> [X|take(N - 1, R())].

main() -> take(5, filter(fun (X) -> X rem 3 =:= 1 end, map(fun (X) -> X * X end, from(1)))).
