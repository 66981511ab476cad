% The derivative of an expression, by its operators.
d(X, X, 1).
d(num(_), _, 0).
d(U + V, X, DU + DV) :- d(U, X, DU), d(V, X, DV).
d(U * V, X, U * DV + V * DU) :- d(U, X, DU), d(V, X, DV).
d(- U, X, - DU) :- d(U, X, DU).

member(X, [X|_]).
member(X, [_|T]) :- member(X, T).
