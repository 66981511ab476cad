% Numbers as zero, s(zero), s(s(zero)), .. with their sums and products.
add(zero, Y, Y).
add(s(X), Y, s(Z)) :- add(X, Y, Z).

multiply(zero, _, zero).
multiply(s(X), Y, Z) :- multiply(X, Y, P), add(Y, P, Z).
