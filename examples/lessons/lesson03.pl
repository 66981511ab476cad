% Lesson 3: terms, and how they are made equal.
% A term is an atom, a number, a variable, or a name with arguments, which are terms again.
book(title(faust), author(goethe), year(1808)).
book(title(emilia), author(lessing), year(1772)).
book(title(werther), author(goethe), year(1774)).

% A goal and a head are unified: variables on both sides get the values that make the two terms equal.
wrote(A, T) :- book(title(T), author(A), _).

% X = Y unifies too, and X \= Y holds where nothing could make them equal. Nothing is computed: 1 + 2 is a term.
same_year(T, U) :- book(title(T), _, Y), book(title(U), _, Y), T \= U.

% A segment of two points. A line stands upright where both points have the same X.
upright(segment(point(X, _), point(X, _))).
level(segment(point(_, Y), point(_, Y))).

% A variable never becomes a part of its own value, so X = f(X) has no answer.

% A tree is leaf or node(Left, Value, Right). The mirror image turns each node.
mirror(leaf, leaf).
mirror(node(L, V, R), node(S, V, K)) :- mirror(L, K), mirror(R, S).

% Exercises
% 1. Which of these have an answer, and which one: f(X, b) = f(a, Y). f(X, X) = f(a, b). X = Y, Y = 3. g(X) = h(X). f(X) = f(g(X)).
% 2. Write square(S) for a segment of which one end is at point(0, 0) and which is upright or level.
% 3. Write in_tree(V, T): the value V is in the tree T.
% 4. Write rightmost(T, V): V is the value that stands farthest to the right.
