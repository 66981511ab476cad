% Naive reverse of a list of 30 elements, as often as the size says.
% query: bench(5000, X).
% output: answer 1: X = 30

bench(Size, _) :- times(Size), work(_), fail.
bench(_, X) :- work(X).

times(N) :- N > 0.
times(N) :- N > 1, M is N - 1, times(M).

work(X) :- numbers(1, 30, Xs), reversed(Xs, [X|_]).

numbers(N, N, [N]) :- !.
numbers(N, Last, [N|Xs]) :- M is N + 1, numbers(M, Last, Xs).

joined([], Ys, Ys).
joined([X|Xs], Ys, [X|Zs]) :- joined(Xs, Ys, Zs).

reversed([], []).
reversed([X|Xs], Zs) :- reversed(Xs, Ys), joined(Ys, [X], Zs).
