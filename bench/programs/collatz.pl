% A loop that counts the numbers of the Collatz sequences from 1 to 1500, for the longest of them, as often as the size says.
% query: bench(5, X).
% output: answer 1: X = 182

bench(Size, _) :- times(Size), longest(1500, 0, _), fail.
bench(_, X) :- longest(1500, 0, X).

times(N) :- N > 0.
times(N) :- N > 1, M is N - 1, times(M).

longest(0, X, X) :- !.
longest(N, X, Z) :- steps(N, 1, Steps), greater(Steps, X, Y), M is N - 1, longest(M, Y, Z).

greater(X, Y, X) :- X > Y, !.
greater(_, Y, Y).

steps(1, S, S) :- !.
steps(N, S, Z) :- N mod 2 =:= 0, !, M is N // 2, S1 is S + 1, steps(M, S1, Z).
steps(N, S, Z) :- M is 3 * N + 1, S1 is S + 1, steps(M, S1, Z).
