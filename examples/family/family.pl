% A family tree: who is whose parent, and what follows from it.
parent(anna, bruno).
parent(anna, carla).
parent(bruno, dora).
parent(bruno, emil).
parent(carla, fritz).

grandparent(X, Z) :- parent(X, Y), parent(Y, Z).

ancestor(X, Y) :- parent(X, Y).
ancestor(X, Z) :- parent(X, Y), ancestor(Y, Z).

sibling(X, Y) :- parent(P, X), parent(P, Y), X \= Y.
