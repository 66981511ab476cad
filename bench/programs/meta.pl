% Naive reverse of a list of 20 elements, run by an interpreter that takes its clauses by clause/2, as often as the size says.
% query: bench(4000, X).
% output: answer 1: X = 20

:- dynamic(joined/3).
:- dynamic(reversed/2).

bench(Size, _) :- times(Size), work(_), fail.
bench(_, X) :- work(X).

times(N) :- N > 0.
times(N) :- N > 1, M is N - 1, times(M).

work(X) :- numbers(1, 20, Xs), solve(reversed(Xs, [X|_])), !.

solve(true) :- !.
solve((A, B)) :- !, solve(A), solve(B).
solve(A) :- clause(A, B), solve(B).

numbers(N, N, [N]) :- !.
numbers(N, Last, [N|Xs]) :- M is N + 1, numbers(M, Last, Xs).

joined([], Ys, Ys).
joined([X|Xs], Ys, [X|Zs]) :- joined(Xs, Ys, Zs).

reversed([], []).
reversed([X|Xs], Zs) :- reversed(Xs, Ys), joined(Ys, [X], Zs).
