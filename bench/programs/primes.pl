% The primes up to 300 by a sieve, and how many there are, as often as the size says.
% query: bench(250, X).
% output: answer 1: X = 62

bench(Size, _) :- times(Size), work(_), fail.
bench(_, X) :- work(X).

times(N) :- N > 0.
times(N) :- N > 1, M is N - 1, times(M).

work(X) :- numbers(2, 300, Ns), sieved(Ns, Ps), counted(Ps, 0, X).

numbers(N, Last, []) :- N > Last, !.
numbers(N, Last, [N|Ns]) :- M is N + 1, numbers(M, Last, Ns).

sieved([], []).
sieved([P|Ns], [P|Ps]) :- without(Ns, P, Ms), sieved(Ms, Ps).

without([], _, []).
without([N|Ns], P, Ms) :- N mod P =:= 0, !, without(Ns, P, Ms).
without([N|Ns], P, [N|Ms]) :- without(Ns, P, Ms).

counted([], N, N).
counted([_|Xs], N, M) :- N1 is N + 1, counted(Xs, N1, M).
