% Blocks on a table: plans that bring them from one state to another, found in three ways.
% A state is the list of on(Block, Place) for all blocks, always in the same order; a place is a block or the table.
start(three, [on(a, table), on(b, table), on(c, a)]).
start(turned, [on(a, b), on(b, c), on(c, d), on(d, table)]).
start(circle, [on(a, table), on(b, table)]).

% What is to hold in the end.
wanted(three, [on(a, b), on(b, c)]).
wanted(turned, [on(d, c), on(c, b), on(b, a)]).
wanted(circle, [on(a, b), on(b, a)]).

clear(X, S) :- \+ member(on(_, X), S).

% move(S, M, T): the move M leads from the state S to T. A clear block goes to the table, or to another clear block.
move(S, X-To, T) :- member(on(X, From), S), clear(X, S), place(To, X, From, S), replaced(S, on(X, From), on(X, To), T).

place(table, _, From, _) :- From \= table.
place(To, X, _, S) :- member(on(To, _), S), To \= X, clear(To, S).

replaced([A|S], A, B, [B|S]) :- ! .
replaced([C|S], A, B, [C|T]) :- replaced(S, A, B, T).

reached(S, W) :- \+ ( member(A, W), \+ member(A, S) ).

% 1. Deep first, without a state that the plan has had already: some plan, mostly a long one.
deep(Name, P) :- start(Name, S), wanted(Name, W), deep_from(S, W, [S], P).

deep_from(S, W, _, []) :- reached(S, W), ! .
deep_from(S, W, Seen, [M|P]) :- move(S, M, T), entered(T), \+ member(T, Seen), deep_from(T, W, [T|Seen], P).

% 2. With at most 0 moves, with at most 1, and so on: a shortest plan.
shortest(Name, P) :- start(Name, S), wanted(Name, W), number_from(0, N), exactly(N, S, W, P).

exactly(0, S, W, []) :- !, reached(S, W).
exactly(N, S, W, [M|P]) :- move(S, M, T), entered(T), K is N - 1, exactly(K, T, W, P).

number_from(N, N).
number_from(N, M) :- K is N + 1, number_from(K, M).

% 3. The same without repeated states: it looks at fewer of them. Where there is no plan of up to Most moves it fails.
shortest_once(Name, Most, P) :- start(Name, S), wanted(Name, W), number_to(0, Most, N), exactly_once(N, S, W, [S], P).

exactly_once(0, S, W, _, []) :- !, reached(S, W).
exactly_once(N, S, W, Seen, [M|P]) :- move(S, M, T), entered(T), \+ member(T, Seen), K is N - 1, exactly_once(K, T, W, [T|Seen], P).

number_to(L, H, L) :- L =< H.
number_to(L, H, N) :- L < H, M is L + 1, number_to(M, H, N).

% How many states were entered in a search.
:- dynamic count/1.
count(0).

entered(_) :- retract(count(N)), ! , M is N + 1, assertz(count(M)).

% counted(G, N): the first solution of G, and how many states were entered for it.
counted(G, N) :- retractall(count(_)), assertz(count(0)), once(G), count(N).

% The states that a plan goes through, as towers: each is a list of blocks from the top down.
shown(Name, P) :- start(Name, S), shown_from(P, S).

shown_from(P, S) :- findall(Tower, tower(S, Tower), Towers), write(Towers), shown_behind(P, S).

shown_behind([], _) :- nl.
shown_behind([X-To|P], S) :- write('  '), write(X), write(' to '), write(To), nl, move(S, X-To, T), !, shown_from(P, T).

tower(S, Tower) :- member(on(X, _), S), clear(X, S), tower_from(X, S, Tower).

tower_from(table, _, []) :- ! .
tower_from(X, S, [X|Tower]) :- member(on(X, Y), S), !, tower_from(Y, S, Tower).

length([], 0).
length([_|T], N) :- length(T, M), N is M + 1.

member(X, [X|_]).
member(X, [_|T]) :- member(X, T).
