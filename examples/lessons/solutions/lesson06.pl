% Solutions of lesson 6.
% 1. Six: three for A, then two for B, and then one for C. With the cut A stays red, and two are left.
map_cut(A, B, C) :- colour(A), !, colour(B), A \= B, colour(C), C \= A, C \= B.
% 2.
max(X, Y, M) :- ( X >= Y -> M = X ; M = Y ).

max_cut(X, Y, M) :- X >= Y, !, M = X.
max_cut(_, Y, Y).
% 3.
all_different(L) :- \+ twice_in(L).

twice_in([X|T]) :- member(X, T).
twice_in([_|T]) :- twice_in(T).
% 4.
once_each([], []).
once_each([X|L], S) :- member(X, L), !, once_each(L, S).
once_each([X|L], [X|S]) :- once_each(L, S).
