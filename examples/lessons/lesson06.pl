% Lesson 6: search, cut and negation.
% The search tries clauses from the top and goals from the left. Where a goal fails, it goes back to the newest choice that is left,
% and takes back all that was bound since.
colour(red).
colour(green).
colour(blue).

neighbours(A, B) :- colour(A), colour(B), A \= B.

% Three countries, each of which borders the two others.
map(A, B, C) :- colour(A), colour(B), A \= B, colour(C), C \= A, C \= B.

% ! is the cut: it takes away the choices that were made since the clause was entered, the clauses below it too.
first_colour(X) :- colour(X), ! .

% With a cut, the second clause is "else". The result is unified behind the cut, so that the clause is chosen by the condition alone.
sign(N, S) :- N < 0, !, S = minus.
sign(_, plus).

% What is wrong here: the result stands in the head, so wrong_sign(-5, plus) passes over the first clause.
wrong_sign(N, minus) :- N < 0, ! .
wrong_sign(_, plus).

% ( C -> T ; E ) takes the first solution of C.
size(N, S) :- ( N < 10 -> S = small ; N < 100 -> S = middle ; S = large ).

% \+ G holds where G has no solution; it binds nothing. So its variables should have their values before.
member(X, [X|_]).
member(X, [_|T]) :- member(X, T).

without(X, L) :- \+ member(X, L).

only_in_first(X, A, B) :- member(X, A), \+ member(X, B).
wrong_order(X, A, B) :- \+ member(X, B), member(X, A).

% All elements are colours: there is none that isn't.
all_colours(L) :- \+ ( member(X, L), \+ colour(X) ).

% Exercises
% 1. How many answers has map(A, B, C)? And with ! behind the first goal?
% 2. Write max(X, Y, M) with ( -> ; ), and with a cut so that max(3, 1, 1) fails.
% 3. Write all_different(L) with \+.
% 4. Write once_each(L, S): S is L without elements that come again later.
