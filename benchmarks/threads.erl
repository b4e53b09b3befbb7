%% The computation of threads.ray by a process for each task: main/0 prints the sum, and the seconds that the schedulers took.
-module(threads).
-export([main/0]).

turns(T, I, J) when J < 10000 -> turns((T * 31 + I + J) rem 1000003, I, J + 1);
turns(T, _, _) -> T.

work(T, I) when I < 100 -> work(turns(T, I, 0), I + 1);
work(T, _) -> T.

task(N) ->
    Main = self(),
    spawn(fun() -> Main ! {N, work(N, 0)} end).

result(N) ->
    receive {N, Value} -> Value end.

sum() ->
    Numbers = lists:seq(0, 15),
    [task(N) || N <- Numbers],
    lists:sum([result(N) || N <- Numbers]).

main() ->
    {Microseconds, Sum} = timer:tc(fun sum/0),
    io:format("main value ~b~n~.3f~n", [Sum, Microseconds / 1000000]),
    halt().
