% Solutions of lesson 4.
% 1.
last(L, X) :- append(_, [X], L).

last_again([X], X).
last_again([_|T], X) :- last_again(T, X).
% 2.
doubled([], []).
doubled([X|L], [X, X|D]) :- doubled(L, D).
% 3.
prefix(P, L) :- append(P, _, L).

sublist(S, L) :- append(_, T, L), prefix(S, T).
% 4.
no_x([], []).
no_x([x|L], R) :- no_x(L, R).
no_x([Y|L], [Y|R]) :- Y \= x, no_x(L, R).
