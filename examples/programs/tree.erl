-module(tree).
-export([main/0]).

% A balanced tree of keys and values (AVL).
empty() -> leaf.

height(leaf) -> 0;
height({H, _, _, _, _}) -> H.

node(K, V, L, R) ->
    HL = height(L),
    HR = height(R),
    H = case HL > HR of true -> HL + 1; false -> HR + 1 end,
    {H, K, V, L, R}.

balance(K, V, L, R) ->
    case height(L) - height(R) of
        2 -> left_heavy(K, V, L, R);
        -2 -> right_heavy(K, V, L, R);
        _ -> node(K, V, L, R)
    end.

left_heavy(K, V, {_, K1, V1, A, B}, R) ->
    case height(A) >= height(B) of
        true -> node(K1, V1, A, node(K, V, B, R));
        false ->
            {_, K2, V2, B1, B2} = B,
            node(K2, V2, node(K1, V1, A, B1), node(K, V, B2, R))
    end.

right_heavy(K, V, L, {_, K1, V1, A, B}) ->
    case height(B) >= height(A) of
        true -> node(K1, V1, node(K, V, L, A), B);
        false ->
            {_, K2, V2, A1, A2} = A,
            node(K2, V2, node(K, V, L, A1), node(K1, V1, A2, B))
    end.

insert(K, V, leaf) -> node(K, V, leaf, leaf);
insert(K, V, {_, K, _, L, R}) -> node(K, V, L, R);
insert(K, V, {_, K1, V1, L, R}) when K < K1 -> balance(K1, V1, insert(K, V, L), R);
insert(K, V, {_, K1, V1, L, R}) -> balance(K1, V1, L, insert(K, V, R)).

lookup(_, leaf) -> none;
lookup(K, {_, K, V, _, _}) -> {some, V};
lookup(K, {_, K1, _, L, _}) when K < K1 -> lookup(K, L);
lookup(K, {_, _, _, _, R}) -> lookup(K, R).

fill(N, N, T) -> T;
fill(I, N, T) -> fill(I + 1, N, insert(I, I * I, T)).

to_list(leaf, Acc) -> Acc;
to_list({_, K, V, L, R}, Acc) -> to_list(L, [{K, V}|to_list(R, Acc)]).

main() ->
    T = fill(0, 20, empty()),
    {height(T), lookup(7, T), lookup(20, T), to_list(fill(0, 3, empty()), [])}.
