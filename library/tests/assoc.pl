% library: assoc.pl
% How often each element is in a list.
counts(L, T) :- counted(L, t, T).

counted([], T, T).
counted([X|Xs], S, T) :- ( get_assoc(X, S, N) -> M is N + 1 ; M = 1 ), put_assoc(X, S, M, U), counted(Xs, U, T).

% The tree with the keys from L to H, put in rising order, or in falling order, each with its square.
rising(L, H, S, T) :- ( L > H -> T = S ; V is L * L, put_assoc(L, S, V, U), M is L + 1, rising(M, H, U, T) ).

falling(L, H, S, T) :- ( L > H -> T = S ; V is H * H, put_assoc(H, S, V, U), M is H - 1, falling(L, M, U, T) ).

% A tree is sound where the depths of its parts are as it says; D is its depth.
sound(t, 0).
sound(t(_,_,B,L,R), D) :- sound(L, M), sound(R, N), deeper(B, M, N), D is max(M, N) + 1.

deeper(left, M, N) :- M =:= N + 1.
deeper(even, N, N).
deeper(right, M, N) :- N =:= M + 1.
