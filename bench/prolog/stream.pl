% A producer and a consumer of 10,000 elements, as the job 'a stream of 10,000' has them: one after the other, and with a consumer that waits for each element.
:- include(measure).

% The length of a list says how many: the job has no arithmetic, either.
make([], []).
make([_|More], [a|Xs]) :- make(More, Xs).

eat([]).
eat([a|Xs]) :- eat(Xs).

weat(Xs) :- freeze(Xs, weat_(Xs)).

weat_([]).
weat_([a|Xs]) :- weat(Xs).

plain(List) :- make(List, Stream), eat(Stream).
waiting(List) :- weat(Stream), make(List, Stream).

:- length(List, 10000), measure('a stream of 10,000, plain', 20002, plain(List)), measure('a stream of 10,000, freeze', 20002, waiting(List)).
