% The derivatives of four expressions, as often as the size says.
% query: bench(20000, X).
% output: answer 1: X = 1/x/log(x)/log(log(x))

bench(Size, _) :- times(Size), work(_), fail.
bench(_, X) :- work(X).

times(N) :- N > 0.
times(N) :- N > 1, M is N - 1, times(M).

work(X) :-
    d((x + 1) * (x ^ 2 + 2) * (x ^ 3 + 3), x, _),
    d(x / x / x / x / x / x / x / x / x / x, x, _),
    d(x * x * x * x * x * x * x * x * x * x, x, _),
    d(log(log(log(x))), x, X).

d(U + V, X, DU + DV) :- !, d(U, X, DU), d(V, X, DV).
d(U - V, X, DU - DV) :- !, d(U, X, DU), d(V, X, DV).
d(U * V, X, DU * V + U * DV) :- !, d(U, X, DU), d(V, X, DV).
d(U / V, X, (DU * V - U * DV) / V ^ 2) :- !, d(U, X, DU), d(V, X, DV).
d(U ^ N, X, DU * N * U ^ N1) :- !, N1 is N - 1, d(U, X, DU).
d(exp(U), X, exp(U) * DU) :- !, d(U, X, DU).
d(log(U), X, DU / U) :- !, d(U, X, DU).
d(X, X, 1) :- !.
d(_, _, 0).
