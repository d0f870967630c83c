-module(exceptions).
-export([main/0]).

raise(error, R) -> erlang:error(R);
raise(exit, R) -> exit(R);
raise(throw, R) -> throw(R).

caught(F) ->
    try F() of
        V -> {value, V}
    catch
        C:R -> {C, R}
    end.

nested() ->
    try
        try raise(throw, inner) of
            _ -> nothing
        catch
            throw:X -> raise(error, {outer, X})
        end
    catch
        error:Y -> {seen, Y}
    end.

after_value() ->
    try 1 + 1 of
        N -> raise(exit, N)
    catch
        _:_ -> never
    end.

main() ->
    [caught(fun () -> 1 end),
     caught(fun () -> raise(error, e) end),
     caught(fun () -> raise(exit, x) end),
     caught(fun () -> raise(throw, t) end),
     caught(fun () -> hd([]) end),
     caught(fun () -> 1 + a end),
     nested(),
     caught(fun () -> after_value() end),
     catch raise(throw, thrown),
     catch raise(exit, left)].
