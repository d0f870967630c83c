-module(printing).
-export([main/0]).

show([]) -> done;
show([X|Xs]) -> erlang:display(X), show(Xs).

main() -> show([1, -7, 'an atom', [1,2|3], {a,{b,[]}}, "hi"]).
