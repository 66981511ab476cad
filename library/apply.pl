% Goals that are applied to each element of lists. Needs no other file.
% A goal here is an atom or a compound, to which call/N adds the elements as last arguments.

% maplist(+Goal, ?List): call(Goal, X) for each X of List.
maplist(_, []).
maplist(G, [X|Xs]) :- call(G, X), maplist(G, Xs).

% maplist(+Goal, ?List1, ?List2): call(Goal, X, Y) for the elements at the same places of both; the lists are of one length.
maplist(_, [], []).
maplist(G, [X|Xs], [Y|Ys]) :- call(G, X, Y), maplist(G, Xs, Ys).

% maplist(+Goal, ?List1, ?List2, ?List3): the same for three lists.
maplist(_, [], [], []).
maplist(G, [X|Xs], [Y|Ys], [Z|Zs]) :- call(G, X, Y, Z), maplist(G, Xs, Ys, Zs).

% maplist(+Goal, ?List1, ?List2, ?List3, ?List4): the same for four lists.
maplist(_, [], [], [], []).
maplist(G, [X|Xs], [Y|Ys], [Z|Zs], [W|Ws]) :- call(G, X, Y, Z, W), maplist(G, Xs, Ys, Zs, Ws).

% foldl(+Goal, +List, ?A, ?B): from A to B by call(Goal, X, Old, New) for each X of List, from the left.
foldl(_, [], A, A).
foldl(G, [X|Xs], A, B) :- call(G, X, A, C), foldl(G, Xs, C, B).

% foldl(+Goal, +List1, +List2, ?A, ?B): the same by call(Goal, X, Y, Old, New).
foldl(_, [], [], A, A).
foldl(G, [X|Xs], [Y|Ys], A, B) :- call(G, X, Y, A, C), foldl(G, Xs, Ys, C, B).

% foldl(+Goal, +List1, +List2, +List3, ?A, ?B): the same by call(Goal, X, Y, Z, Old, New).
foldl(_, [], [], [], A, A).
foldl(G, [X|Xs], [Y|Ys], [Z|Zs], A, B) :- call(G, X, Y, Z, A, C), foldl(G, Xs, Ys, Zs, C, B).

% include(+Goal, +List, ?In): In is the elements X of List for which call(Goal, X) has a solution.
include(_, [], []).
include(G, [X|Xs], In) :- ( call(G, X) -> In = [X|Ys] ; In = Ys ), include(G, Xs, Ys).

% exclude(+Goal, +List, ?Out): Out is those for which it has none.
exclude(_, [], []).
exclude(G, [X|Xs], Out) :- ( call(G, X) -> Out = Ys ; Out = [X|Ys] ), exclude(G, Xs, Ys).

% partition(+Goal, +List, ?In, ?Out): both at once.
partition(_, [], [], []).
partition(G, [X|Xs], In, Out) :- ( call(G, X) -> In = [X|Ys], Out = Zs ; In = Ys, Out = [X|Zs] ), partition(G, Xs, Ys, Zs).

% forall(+Condition, +Goal): Goal has a solution for each solution of Condition; nothing is bound.
forall(C, G) :- \+ ( C, \+ G ).

% ignore(+Goal): Goal for its first solution, or nothing where it has none.
ignore(G) :- ( G -> true ; true ).
