-module(numbers).
-export([main/0]).

fact(0) -> 1;
fact(N) -> N * fact(N - 1).

fib(N) -> fib(N, 0, 1).
fib(0, A, _) -> A;
fib(N, A, B) -> fib(N - 1, B, A + B).

gcd(A, 0) -> A;
gcd(A, B) -> gcd(B, A rem B).

power(_, 0) -> 1;
power(X, N) when N band 1 =:= 0 -> Y = power(X, N bsr 1), Y * Y;
power(X, N) -> X * power(X, N - 1).

bits(0) -> [];
bits(N) -> [N band 1|bits(N bsr 1)].

main() ->
    {fact(15), fib(60), gcd(1071, 462), power(3, 30), bits(37),
     {-7 div 2, -7 rem 2, 7 div -2, 7 rem -2, -7 bsr 1, bnot 5, 6 bxor 3, 6 bor 1}}.
