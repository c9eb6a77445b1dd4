% Naive reverse of a list of 168 elements, as the job 'naive reverse' has it: plain, and with each goal waiting for its first argument.
:- include(measure).

rev([], []).
rev([X|Xs], Zs) :- rev(Xs, Ys), app(Ys, [X], Zs).

app([], Ys, Ys).
app([X|Xs], Ys, [X|Zs]) :- app(Xs, Ys, Zs).

% The join is called before its list is there.
wrev(Xs, Zs) :- freeze(Xs, wrev_(Xs, Zs)).

wrev_([], []).
wrev_([X|Xs], Zs) :- wapp(Ys, [X], Zs), wrev(Xs, Ys).

wapp(Xs, Ys, Zs) :- freeze(Xs, wapp_(Xs, Ys, Zs)).

wapp_([], Ys, Ys).
wapp_([X|Xs], Ys, [X|Zs]) :- wapp(Xs, Ys, Zs).

% (n + 1) (n + 2) / 2 reductions.
:- numlist(1, 168, List), measure('naive reverse, plain', 14365, rev(List, _)), measure('naive reverse, freeze', 14365, wrev(List, _)).
