parent(anna, bruno).
ancestor(X, Z) :- parent(X, Y), ancestr(Y, Z), mother(M, X).
parent(bruno, dora).
child(X Y) :- parent(Y, X).
