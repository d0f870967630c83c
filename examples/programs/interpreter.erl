-module(interpreter).
-export([main/0]).

% A small language of numbers, variables, functions and conditions.
eval({num, N}, _) -> N;
eval({var, X}, Env) -> find(X, Env);
eval({add, A, B}, Env) -> eval(A, Env) + eval(B, Env);
eval({mul, A, B}, Env) -> eval(A, Env) * eval(B, Env);
eval({less, A, B}, Env) -> eval(A, Env) < eval(B, Env);
eval({'if', C, A, B}, Env) ->
    case eval(C, Env) of
        true -> eval(A, Env);
        false -> eval(B, Env)
    end;
eval({'let', X, A, B}, Env) -> eval(B, [{X, eval(A, Env)}|Env]);
eval({lambda, X, B}, Env) -> {closure, X, B, Env};
eval({apply, F, A}, Env) ->
    {closure, X, B, Env1} = eval(F, Env),
    eval(B, [{X, eval(A, Env)}|Env1]).

find(X, [{X, V}|_]) -> V;
find(X, [_|Env]) -> find(X, Env);
find(X, []) -> throw({unbound, X}).

program() ->
    {'let', twice, {lambda, f, {lambda, x, {apply, {var, f}, {apply, {var, f}, {var, x}}}}},
     {'let', square, {lambda, n, {mul, {var, n}, {var, n}}},
      {'if', {less, {num, 1}, {num, 2}},
       {apply, {apply, {var, twice}, {var, square}}, {num, 3}},
       {num, 0}}}}.

main() ->
    {eval(program(), []), catch eval({add, {num, 1}, {var, y}}, [])}.
