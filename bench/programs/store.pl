% A queue of a hundred facts, of which a thousand times the first is taken away and another one added behind, as often as the size says.
% query: bench(250, X).
% output: answer 1: X = 1001

:- dynamic(item/1).

bench(Size, _) :- times(Size), work(_), fail.
bench(_, X) :- work(X).

times(N) :- N > 0.
times(N) :- N > 1, M is N - 1, times(M).

work(_) :- retractall(item(_)), filled(100), times(1000), moved, fail.
work(X) :- item(X), !.

filled(0) :- !.
filled(N) :- N1 is N - 1, filled(N1), assertz(item(N)).

moved :- retract(item(X)), !, Y is X + 100, assertz(item(Y)).
