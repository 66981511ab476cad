% Numbers. Needs no other file.

% between(+Low, +High, ?X): X is an integer from Low to High, in rising order; High may be the atom inf, for no end.
between(L, H, X) :- integer(X), !, L =< X, ( H == inf -> true ; X =< H ).
between(L, H, X) :- var(X), ( H == inf -> between_from(L, X) ; L =< H, between_up(L, H, X) ).

between_from(L, L).
between_from(L, X) :- M is L + 1, between_from(M, X).

between_up(H, H, X) :- !, X = H.
between_up(L, _, L).
between_up(L, H, X) :- M is L + 1, between_up(M, H, X).

% succ(?X, ?Y): Y is X + 1, and X is not negative; one of them is to be bound.
succ(X, Y) :- integer(X), !, X >= 0, Y is X + 1.
succ(X, Y) :- Y > 0, X is Y - 1.

% plus(?X, ?Y, ?Z): Z is X + Y; two of them are to be bound.
plus(X, Y, Z) :- integer(X), integer(Y), !, Z is X + Y.
plus(X, Y, Z) :- integer(X), !, Y is Z - X.
plus(X, Y, Z) :- X is Z - Y.

% gcd(+X, +Y, ?D): D is the greatest common divisor of X and Y, and 0 where both are 0.
gcd(X, Y, D) :- ( Y =:= 0 -> D is abs(X) ; Z is X mod Y, gcd(Y, Z, D) ).
