% measure(Label, Reductions, Goal): a row with the least time on the processor of seven rounds, each of 50 calls.

measure(Label, Reductions, Goal) :-
    findall(Time, (between(1, 7, _), round_of(Goal, Time)), Times),
    min_list(Times, Least),
    Rate is Reductions / Least / 1.0e6,
    Micro is Least * 1.0e6,
    format("| ~w | ~D | ~0f | ~1f |~n", [Label, Reductions, Micro, Rate]).

round_of(Goal, Time) :-
    statistics(cputime, Begin),
    forall(between(1, 50, _), Goal),
    statistics(cputime, End),
    Time is (End - Begin) / 50.
