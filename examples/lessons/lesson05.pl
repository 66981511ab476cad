% Lesson 5: numbers.
% X is E computes the value of E; the comparisons < > =< >= =:= =\= compute both sides. What stands in E must be bound by then.
double(X, Y) :- Y is 2 * X.

% // cuts toward zero, mod goes with the sign of the divisor; / is for quotients that are whole.
even(N) :- 0 =:= N mod 2.

length([], 0).
length([_|T], N) :- length(T, M), N is M + 1.

sum([], 0).
sum([X|Xs], S) :- sum(Xs, T), S is X + T.

% The same with what has been added so far: nothing is left to be done behind the last call.
sum_so_far([], S, S).
sum_so_far([X|Xs], A, S) :- B is A + X, sum_so_far(Xs, B, S).

max([X], X).
max([X|Xs], M) :- max(Xs, N), M is max(X, N).

% Numbers from L to H, each a solution.
between(L, H, L) :- L =< H.
between(L, H, X) :- L < H, M is L + 1, between(M, H, X).

% A factorial; the condition keeps the second clause from 0.
factorial(0, 1).
factorial(N, F) :- N > 0, M is N - 1, factorial(M, G), F is N * G.

% Rectangles with whole sides and the area A.
rectangle(A, X, Y) :- between(1, A, X), A mod X =:= 0, Y is A // X, X =< Y.

% Exercises
% 1. Write power(X, N, P) with multiplication alone, for N from 0 on.
% 2. Write count(X, L, N): X is N times in the list L of atoms.
% 3. Write digits(N, L): L is the digits of N from 0 on, 407 gives [4, 0, 7].
% 4. Write prime(N): no number between 1 and N divides N.
% 5. What comes of X is Y + 1, of X = 1 + 1, of 1 + 1 = 2, and of 1 + 1 =:= 2?
