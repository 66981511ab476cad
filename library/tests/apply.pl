% library: apply.pl
twice(X, Y) :- Y is 2 * X.

sum(X, Y, Z) :- Z is X + Y.

% One more: the sum of a product and what was there before.
product_added(X, Y, A, B) :- B is A + X * Y.

% The volumes of boxes, added.
volume_added(X, Y, Z, A, B) :- B is A + X * Y * Z.

between_them(X, Y, L, X + Y - L).

small(X) :- X < 10.

colour(red).
colour(green).
