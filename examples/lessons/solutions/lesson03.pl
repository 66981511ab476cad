% Solutions of lesson 3; the first five queries are those of exercise 1.
% 2.
square(S) :- from_origin(S), ( upright(S) ; level(S) ).

from_origin(segment(point(0, 0), _)).
from_origin(segment(_, point(0, 0))).
% 3.
in_tree(V, node(_, V, _)).
in_tree(V, node(L, _, _)) :- in_tree(V, L).
in_tree(V, node(_, _, R)) :- in_tree(V, R).
% 4.
rightmost(node(_, V, leaf), V).
rightmost(node(_, _, node(L, W, R)), V) :- rightmost(node(L, W, R), V).
