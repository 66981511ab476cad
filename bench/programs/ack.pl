% Ackermann's function of 2 and 9, as often as the size says.
% query: bench(6000, X).
% output: answer 1: X = 21

bench(Size, _) :- times(Size), ack(2, 9, _), fail.
bench(_, X) :- ack(2, 9, X).

times(N) :- N > 0.
times(N) :- N > 1, M is N - 1, times(M).

ack(0, N, A) :- !, A is N + 1.
ack(M, 0, A) :- !, M1 is M - 1, ack(M1, 1, A).
ack(M, N, A) :- M1 is M - 1, N1 is N - 1, ack(M, N1, A1), ack(M1, A1, A).
