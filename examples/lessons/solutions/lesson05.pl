% Solutions of lesson 5; the last queries are those of exercise 5.
% 1.
power(_, 0, 1).
power(X, N, P) :- N > 0, M is N - 1, power(X, M, Q), P is X * Q.
% 2.
count(_, [], 0).
count(X, [X|L], N) :- count(X, L, M), N is M + 1.
count(X, [Y|L], N) :- X \= Y, count(X, L, N).
% 3.
digits(N, L) :- digits(N, [], L).

digits(N, L, [N|L]) :- N < 10.
digits(N, L, M) :- N >= 10, D is N mod 10, R is N // 10, digits(R, [D|L], M).
% 4.
prime(N) :- N > 1, M is N - 1, \+ ( between(2, M, D), N mod D =:= 0 ).
