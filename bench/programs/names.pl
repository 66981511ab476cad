% Ten thousand facts, each found by its first argument, an atom, as often as the size says.
% query: bench(250, X).
% output: answer 1: X = 10000

:- dynamic(key/1).
:- dynamic(fact/2).
:- initialization(filled(10000)).

filled(0) :- !.
filled(N) :- made(N, Key), assertz(key(Key)), assertz(fact(Key, N)), M is N - 1, filled(M).

made(N, Key) :- number_codes(N, Codes), atom_codes(Key, [0'k|Codes]).

bench(Size, _) :- times(Size), work, fail.
bench(_, X) :- key(Key), fact(Key, X), !.

times(N) :- N > 0.
times(N) :- N > 1, M is N - 1, times(M).

work :- key(Key), fact(Key, _), fail.
work.
