% 0, 1: the tutorials' first examples.
p(f(X), h(Y, f(W)), Y).
p(Z, h(Z, W), f(W)).
% 2, 3, 4: lists, last calls, permanent variables.
append([], L, L).
append([H|T], L, [H|R]) :- append(T, L, R).
reverse([H|T], R) :- reverse(T, RT), append(RT, [H], R).
% 5: a fact without arguments.
done.
% 6, 7, 8: cuts and control constructs.
max(X, Y, Z) :- X >= Y, !, Z = X.
sign(X, S) :- ( X > 0 -> S = 1 ; X =:= 0 -> S = 0 ; S = -1 ).
some(X) :- ( member(X, [a, b]) ; !, fail ), \+ bad(X).
% 9: conditions in conditions, and one behind another.
deep(X) :- ( ( p(X), ! -> q(X) ) -> r(X) ; s(X) ), ( t(X) -> true ).
% 10: temporary variables of a later goal, void ones, and a variable as a goal.
late(G) :- first, pair(Y, Y, _), G.
% 11: a goal.
?- p(X), X = "ab".
% 12: no clause.
3 :- true.
% 13: not read.
p :- ) .
% 14: an integer beyond 64 bits, and a negative one.
wide(18446744073709551616, -1).
% 15, 16: arithmetic in line, and goals that stay calls.
length([_|T], N) :- length(T, M), N is M + 1.
odd(X) :- 1 is X mod 2, _ is - X >> max(X, 2), X =\= (1 - X) * 2, X is foo(X), f(X) is 1, X < a.
% 17, 18, 19: variables that get their value from `is/2`, and some that have one before on some way.
fib(N, F) :- ( N < 2 -> F = N ; M is N - 1, K is N - 2, fib(M, A), fib(K, B), F is A + B ).
way(X, Y) :- ( Y > 0, Z is X + 1 ; Z = X ), W is Z * 2, U is W - Y, p(Z, W, U, V), V is U + V.
two(X) :- ( Y is X, p(Y) -> Y > 0, Z is Y ; Z is 2 ), q(Z).
% 20: a goal, whose variables are asked for.
?- X is 1 + 2, Y is X * X.
% 21, 22: a directive, which declares an operator, and a clause that is read with it.
:- op(700, xfx, likes).
X likes Y :- Y likes X.
