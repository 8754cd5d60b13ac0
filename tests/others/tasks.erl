%% Processes in the place of tasks: hops MEMBERS HOPS, yields TIMES, starts TASKS, waits TASKS.
-module(tasks).
-export([main/1]).

main([Word | Numbers]) ->
    apply_word(Word, [list_to_integer(Number) || Number <- Numbers]),
    erlang:halt(0).

apply_word("hops", [Members, Hops]) ->
    Self = self(),
    First = spawn(fun() -> receive {next, Next} -> member(Next, Self) end end),
    Last = lists:foldl(fun(_, Next) -> spawn(fun() -> member(Next, Self) end) end, First, lists:seq(2, Members)),
    First ! {next, Last},
    First ! Hops,
    collect(Members);
apply_word("yields", [Times]) ->
    yields(Times);
apply_word("starts", [Tasks]) ->
    Self = self(),
    [spawn(fun() -> Self ! done end) || _ <- lists:seq(1, Tasks)],
    collect(Tasks);
apply_word("waits", [Tasks]) ->
    Self = self(),
    All = [spawn(fun() -> receive _ -> Self ! done end end) || _ <- lists:seq(1, Tasks)],
    erlang:yield(),
    [Pid ! go || Pid <- All],
    collect(Tasks).

member(Next, Home) ->
    receive
        Hops when Hops > 0 ->
            Next ! Hops - 1,
            member(Next, Home);
        Hops ->
            Next ! Hops,
            Home ! done
    end.

yields(0) ->
    ok;
yields(Times) ->
    erlang:yield(),
    yields(Times - 1).

collect(0) ->
    ok;
collect(Count) ->
    receive
        done -> collect(Count - 1)
    end.
