% Formulas are read from lists of tokens, and tried with every valuation of their names.
formula(F, S, R) :- conjunction(A, S, T), ( T = [or|U] -> F = or(A, B), formula(B, U, R) ; F = A, R = T ).

conjunction(F, S, R) :- negation(A, S, T), ( T = [and|U] -> F = and(A, B), conjunction(B, U, R) ; F = A, R = T ).

negation(F, [T|S], R) :- ( T = not -> F = not(A), negation(A, S, R) ; T = '(' -> formula(F, S, [')'|R]) ; is_name(T), F = T, R = S ).

is_name(T) :- \+ member(T, [or, and, not, '(', ')']).

member(X, [X|_]).
member(X, [_|T]) :- member(X, T).

% The names of a formula, each once, before those that were there.
names(or(A, B), N, M) :- !, names(A, N, O), names(B, O, M).
names(and(A, B), N, M) :- !, names(A, N, O), names(B, O, M).
names(not(A), N, M) :- !, names(A, N, M).
names(A, N, M) :- ( member(A, N) -> M = N ; M = [A|N] ).

% A valuation is the list of the names that are true.
valuation([], []).
valuation([N|Ns], V) :- valuation(Ns, W), ( V = [N|W] ; V = W ).

holds(or(A, B), V) :- !, ( holds(A, V) -> true ; holds(B, V) ).
holds(and(A, B), V) :- !, holds(A, V), holds(B, V).
holds(not(A), V) :- !, \+ holds(A, V).
holds(A, V) :- once(member(A, V)).

parsed(Tokens, F) :- formula(F, Tokens, []).

model(Tokens, V) :- parsed(Tokens, F), names(F, [], N), valuation(N, V), holds(F, V).

always(Tokens) :- parsed(Tokens, F), names(F, [], N), \+ ( valuation(N, V), \+ holds(F, V) ).

% What holds of each member of a list.
each(_, []).
each(P, [X|Xs]) :- call(P, X), each(P, Xs).
