% An advisor: rules about animals, facts that were observed, and a small interpreter that says why and how.
:- op(800, xfx, because).
:- dynamic is_a/2, has/2, eats/2.

% The rules. They are dynamic, so that clause/2 shows them.
is_a(X, mammal) :- has(X, hair).
is_a(X, mammal) :- has(X, milk).
is_a(X, bird) :- has(X, feathers).
is_a(X, carnivore) :- is_a(X, mammal), eats(X, meat).
is_a(X, carnivore) :- has(X, claws), has(X, pointed_teeth).
is_a(X, tiger) :- is_a(X, mammal), is_a(X, carnivore), has(X, stripes).
is_a(X, penguin) :- is_a(X, bird), \+ has(X, flight).

% What was observed.
has(tara, hair).
has(tara, claws).
has(tara, pointed_teeth).
has(tara, stripes).
has(pip, feathers).
has(rio, feathers).
has(rio, flight).
eats(tara, meat).

% proof(G, P): G holds, and P is its proof: a fact, G because the proofs of a rule's body, or what was run, or not found.
proof(true, true) :- ! .
proof(( A, B ), ( P, Q )) :- !, proof(A, P), proof(B, Q).
proof(\+ G, not_found(G)) :- !, \+ proof(G, _).
proof(G, P) :- known(G), !, clause(G, B), proved(B, G, P).
proof(G, run(G)) :- call(G).

proved(true, G, fact(G)) :- ! .
proved(B, G, G because P) :- proof(B, P).

% The procedures whose clauses are shown; any other goal is run.
known(is_a(_, _)).
known(has(_, _)).
known(eats(_, _)).

% how(G): writes the first proof of G, a line a step, each below what it is for.
how(G) :- proof(G, P), ! , tell(P, 0).

tell(G because P, N) :- !, line(G, N), M is N + 1, tell(P, M).
tell(( P, Q ), N) :- !, tell(P, N), tell(Q, N).
tell(fact(G), N) :- !, line(G, N).
tell(P, N) :- line(P, N).

line(T, N) :- indent(N), write(T), nl.

indent(0) :- ! .
indent(N) :- put_char(' '), put_char(' '), M is N - 1, indent(M).

% why(Question, Wanted, Path): the question leads to what is wanted; Path is the goals from the one down to the other.
why(Q, W, [W|Path]) :- path(W, Q, Path).

path(Q, Q, []).
path(W, Q, [P|Path]) :- known(W), clause(W, B), part(B, P), path(P, Q, Path).

part(( A, B ), P) :- !, ( part(A, P) ; part(B, P) ).
part(\+ G, P) :- !, part(G, P).
part(G, G) :- G \= true.

% missing(G, Ms): the observations Ms would be enough for G, beside those that are there.
missing(G, Ms) :- assumed(G, [], As), observations(As, Ms).

% assumed(G, As, Bs): with what is assumed in As, G holds where Bs is assumed.
assumed(( A, B ), As, Cs) :- !, assumed(A, As, Bs), assumed(B, Bs, Cs).
assumed(\+ G, As, As) :- !, \+ proof(G, _), \+ member(G, As).
assumed(G, As, As) :- ( member(G, As) ; proof(G, _) ), ! .
assumed(is_a(X, K), As, [is_a(X, K)|Bs]) :- clause(is_a(X, K), B), assumed(B, As, Bs).
assumed(has(X, Y), As, [has(X, Y)|As]).
assumed(eats(X, Y), As, [eats(X, Y)|As]).

observations([], []).
observations([is_a(_, _)|As], Ms) :- !, observations(As, Ms).
observations([A|As], [A|Ms]) :- observations(As, Ms).

member(X, [X|_]).
member(X, [_|T]) :- member(X, T).
