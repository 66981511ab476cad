% The moves of ten discs from one peg to another, and how many there are, as often as the size says.
% query: bench(300, X).
% output: answer 1: X = 1023

bench(Size, _) :- times(Size), work(_), fail.
bench(_, X) :- work(X).

times(N) :- N > 0.
times(N) :- N > 1, M is N - 1, times(M).

work(X) :- moves(10, left, right, middle, Moves, []), counted(Moves, 0, X).

moves(0, _, _, _, Moves, Moves) :- !.
moves(N, From, To, Over, Moves, Rest) :-
    M is N - 1,
    moves(M, From, Over, To, Moves, [move(From, To)|More]),
    moves(M, Over, To, From, More, Rest).

counted([], N, N).
counted([_|Xs], N, M) :- N1 is N + 1, counted(Xs, N1, M).
