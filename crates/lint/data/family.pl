#!/usr/bin/env prolog
% A text with each of the faults that lint tells.
:- dynamic(seen/1).
:- op(700, xfx, is_near).

parent(anna, bruno).
parent(anna, carla).

near(X, Y) :- X is_near Y, parent(P, X).

parent(bruno, dora).

ancestor(X, Z) :- parent(X, Y), ancestr(Y, Z), \+ seen(X).
ancestor(X, Z) :- findall(W, foo(W), L), member(X-Z, L).

broken(X :- Y).
broken(X, .
text("grün", Größe, 'Jürgen') :- nl, foo.
good(_Unused, X, X).
list([a, b | c, d]).
'never closed.
