grandparent(anna, X).
ancestor(X, emil).
parent(emil, X).
sibling(emil, X).
