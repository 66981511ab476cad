% The pythagorean triples up to 12 by findall/3, as often as the size says.
% query: bench(700, X).
% output: answer 1: X = [3-4-5,4-3-5,6-8-10,8-6-10]

bench(Size, _) :- times(Size), work(_), fail.
bench(_, X) :- work(X).

times(N) :- N > 0.
times(N) :- N > 1, M is N - 1, times(M).

work(Triples) :-
    numbers(1, 12, Ns),
    findall(A-B, ( one_of(A, Ns), one_of(B, Ns) ), Pairs),
    findall(A-B-C, ( one_of(A-B, Pairs), one_of(C, Ns), A * A + B * B =:= C * C ), Triples).

numbers(N, N, [N]) :- !.
numbers(N, Last, [N|Xs]) :- M is N + 1, numbers(M, Last, Xs).

one_of(X, [X|_]).
one_of(X, [_|Ys]) :- one_of(X, Ys).
