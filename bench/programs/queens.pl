% The first way to set eight queens on a board, as often as the size says.
% query: bench(700, X).
% output: answer 1: X = [1,5,8,6,3,7,2,4]

bench(Size, _) :- times(Size), work(_), fail.
bench(_, X) :- work(X).

times(N) :- N > 0.
times(N) :- N > 1, M is N - 1, times(M).

work(X) :- set([1, 2, 3, 4, 5, 6, 7, 8], [], X), !.

set([], _, []).
set(Rows, Set, [Row|Queens]) :- taken(Row, Rows, Rest), safe(Set, Row, 1), set(Rest, [Row|Set], Queens).

taken(X, [X|Xs], Xs).
taken(X, [Y|Ys], [Y|Zs]) :- taken(X, Ys, Zs).

safe([], _, _).
safe([Queen|Queens], Row, Distance) :-
    Row =\= Queen + Distance, Row =\= Queen - Distance,
    Next is Distance + 1, safe(Queens, Row, Next).
