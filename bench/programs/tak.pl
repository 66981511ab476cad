% The function tak of 12, 8 and 4, as often as the size says.
% query: bench(600, X).
% output: answer 1: X = 5

bench(Size, _) :- times(Size), tak(12, 8, 4, _), fail.
bench(_, X) :- tak(12, 8, 4, X).

times(N) :- N > 0.
times(N) :- N > 1, M is N - 1, times(M).

tak(X, Y, Z, A) :- X =< Y, !, A = Z.
tak(X, Y, Z, A) :-
    X1 is X - 1, Y1 is Y - 1, Z1 is Z - 1,
    tak(X1, Y, Z, A1), tak(Y1, Z, X, A2), tak(Z1, X, Y, A3), tak(A1, A2, A3, A).
