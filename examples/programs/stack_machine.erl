-module(stack_machine).
-export([main/0]).

% A stack machine with jumps.
run(Code, Pc, Stack, Steps) when Steps > 0 ->
    case element(Pc, Code) of
        {push, N} -> run(Code, Pc + 1, [N|Stack], Steps - 1);
        add -> [A,B|S] = Stack, run(Code, Pc + 1, [A + B|S], Steps - 1);
        sub -> [A,B|S] = Stack, run(Code, Pc + 1, [B - A|S], Steps - 1);
        dup -> [A|_] = Stack, run(Code, Pc + 1, [A|Stack], Steps - 1);
        swap -> [A,B|S] = Stack, run(Code, Pc + 1, [B,A|S], Steps - 1);
        {jump_if_zero, To} ->
            case Stack of
                [0|S] -> run(Code, To, S, Steps - 1);
                [_|S] -> run(Code, Pc + 1, S, Steps - 1)
            end;
        {jump, To} -> run(Code, To, Stack, Steps - 1);
        stop -> {stopped, Stack}
    end;
run(_, Pc, Stack, _) -> {spent, Pc, Stack}.

% Adds the numbers from 5 down.
program() ->
    {{push, 0}, {push, 5}, dup, {jump_if_zero, 13}, dup, {push, 0}, add,
     swap, {push, 1}, sub, swap, {jump, 14}, stop,
     stop}.

main() -> {run(program(), 1, [], 100), run({{jump, 1}}, 1, [], 7)}.
