path(a, d, P).
path(b, X, _).
edge(X, X).
