% A thousand numbers of a linear sequence, sorted by sort/2 and keysort/2, as often as the size says.
% query: bench(200, X).
% output: answer 1: X = 1000-4100

bench(Size, _) :- times(Size), work(_), fail.
bench(_, X) :- work(X).

times(N) :- N > 0.
times(N) :- N > 1, M is N - 1, times(M).

work(Count-Least) :-
    sequence(1000, 7, Xs),
    sort(Xs, Sorted), counted(Sorted, 0, Count),
    keys(Xs, Pairs), keysort(Pairs, [_-Least|_]).

sequence(0, _, []) :- !.
sequence(N, X, [X|Xs]) :- M is N - 1, Y is (X * 421 + 1663) mod 7875, sequence(M, Y, Xs).

keys([], []).
keys([X|Xs], [K-X|Ps]) :- K is X mod 100, keys(Xs, Ps).

counted([], N, N).
counted([_|Xs], N, M) :- N1 is N + 1, counted(Xs, N1, M).
