% The digits of SEND + MORE = MONEY, column by column from the right, as often as the size says.
% query: bench(400, X).
% output: answer 1: X = [9,5,6,7]+[1,0,8,5]

bench(Size, _) :- times(Size), work(_), fail.
bench(_, X) :- work(X).

times(N) :- N > 0.
times(N) :- N > 1, M is N - 1, times(M).

work([S, E, N, D]+[M, O, R, E]) :-
    M = 1,
    taken(D, [0, 2, 3, 4, 5, 6, 7, 8, 9], Ds1),
    taken(E, Ds1, Ds2), column(D, E, 0, Y, C1), taken(Y, Ds2, Ds3),
    taken(N, Ds3, Ds4), taken(R, Ds4, Ds5), column(N, R, C1, E, C2),
    taken(O, Ds5, Ds6), column(E, O, C2, N, C3),
    taken(S, Ds6, _), S > 0, column(S, M, C3, O, M), !.

column(A, B, CarryIn, Digit, CarryOut) :-
    Sum is A + B + CarryIn,
    Digit is Sum mod 10,
    CarryOut is Sum // 10.

taken(X, [X|Xs], Xs).
taken(X, [Y|Ys], [Y|Zs]) :- taken(X, Ys, Zs).
