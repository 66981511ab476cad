% A graph without cycles, and the paths in it.
edge(a, b).
edge(a, c).
edge(b, d).
edge(c, d).
edge(d, e).

path(X, X, stop(X)).
path(X, Z, via(X, P)) :- edge(X, Y), path(Y, Z, P).
