% The fibonacci number of 15, by two calls each, as often as the size says.
% query: bench(800, X).
% output: answer 1: X = 610

bench(Size, _) :- times(Size), fib(15, _), fail.
bench(_, X) :- fib(15, X).

times(N) :- N > 0.
times(N) :- N > 1, M is N - 1, times(M).

fib(0, 0) :- !.
fib(1, 1) :- !.
fib(N, F) :- N1 is N - 1, N2 is N - 2, fib(N1, F1), fib(N2, F2), F is F1 + F2.
