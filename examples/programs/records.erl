-module(records).
-export([main/0]).
-record(account, {owner, balance = 0, history = []}).

deposit(N, #account{balance = B, history = H} = A) when N > 0 ->
    A#account{balance = B + N, history = [{deposit, N}|H]};
deposit(_, _) -> erlang:error(badarg).

withdraw(N, #account{balance = B}) when N > B -> throw({short_by, N - B});
withdraw(N, #account{balance = B, history = H} = A) ->
    A#account{balance = B - N, history = [{withdraw, N}|H]}.

main() ->
    A = deposit(70, deposit(30, #account{owner = joe})),
    B = withdraw(45, A),
    {B, catch withdraw(100, B), try deposit(0, B) catch error:R -> R end}.
