% The towers of Hanoi, move by move.
:- initialization(main).

main :- hanoi(3, left, right, middle).

% N discs go from a peg to another one, by way of a third.
hanoi(0, _, _, _) :- ! .
hanoi(N, From, To, Over) :-
    M is N - 1,
    hanoi(M, From, Over, To),
    writeq((From -> To)), nl,
    hanoi(M, Over, To, From).

% How many moves that takes.
moves(0, 0) :- ! .
moves(N, K) :- M is N - 1, moves(M, J), K is 2 * J + 1.

% A name for the tower of N discs.
tower(N, Name) :- number_codes(N, Digits), atom_codes(Name, [0't|Digits]).
