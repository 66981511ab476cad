% The fourth power of 1 + x + y + z as a polynomial in x, y and z, as often as the size says; its number of terms.
% query: bench(800, X).
% output: answer 1: X = 35

bench(Size, _) :- times(Size), work(_), fail.
bench(_, X) :- work(X).

times(N) :- N > 0.
times(N) :- N > 1, M is N - 1, times(M).

work(X) :- power(4, [1*[0, 0, 0], 1*[0, 0, 1], 1*[0, 1, 0], 1*[1, 0, 0]], P), counted(P, 0, X).

power(0, _, [1*[0, 0, 0]]) :- !.
power(N, P, Q) :- M is N - 1, power(M, P, R), product(P, R, Q).

product([], _, []).
product([T|Ts], P, Q) :- scaled(P, T, Q1), product(Ts, P, Q2), sum(Q1, Q2, Q).

scaled([], _, []).
scaled([A*Xs|Ts], B*Ys, [C*Zs|Us]) :- C is A * B, added(Xs, Ys, Zs), scaled(Ts, B*Ys, Us).

added([], [], []).
added([X|Xs], [Y|Ys], [Z|Zs]) :- Z is X + Y, added(Xs, Ys, Zs).

sum([], P, P) :- !.
sum(P, [], P) :- !.
sum([A*Xs|P], [B*Ys|Q], R) :- compare(Order, Xs, Ys), sum(Order, A*Xs, P, B*Ys, Q, R).

sum(<, T, P, U, Q, [T|R]) :- sum(P, [U|Q], R).
sum(>, T, P, U, Q, [U|R]) :- sum([T|P], Q, R).
sum(=, A*Xs, P, B*_, Q, [C*Xs|R]) :- C is A + B, sum(P, Q, R).

counted([], N, N).
counted([_|Xs], N, M) :- N1 is N + 1, counted(Xs, N1, M).
