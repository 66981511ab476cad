% Lesson 4: lists.
% [a, b, c] is a list; [H|T] has the head H, its first element, and the tail T, the list of the others; [] is the empty list.
% A procedure on lists has mostly two clauses: one for the empty list, and one for head and tail.

member(X, [X|_]).
member(X, [_|T]) :- member(X, T).

% append(A, B, C): C is A and then B. It puts together, takes apart, and finds what is missing.
append([], B, B).
append([X|A], B, [X|C]) :- append(A, B, C).

% The list from behind, with a list that gathers what has been seen.
reverse(L, R) :- reverse(L, [], R).

reverse([], R, R).
reverse([X|Xs], S, R) :- reverse(Xs, [X|S], R).

% One element taken out; put in, where the second argument is open.
select(X, [X|T], T).
select(X, [Y|T], [Y|R]) :- select(X, T, R).

permutation([], []).
permutation(L, [X|P]) :- select(X, L, R), permutation(R, P).

% Words in which the letters are the same from both ends.
palindrome(L) :- reverse(L, L).

% Exercises
% 1. Write last(L, X) with append/3, and again without it.
% 2. Write doubled(L, D), where D has each element of L twice: doubled([a, b], [a, a, b, b]).
% 3. Write prefix(P, L) and sublist(S, L), where S stands somewhere in L without gaps.
% 4. Write no_x(L, R): R is L without all x.
