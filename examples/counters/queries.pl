begin(visits), next(visits, X), next(visits, Y).
next(visits, X), fail.
counter(visits, N).
next(nobody, N).
retractall(counter(_, _)), tally.
counter(W, N).
solutions(word(W), N).
solutions(( word(W), counter(W, 1) ), N).
fibonacci(80, F).
solutions(known(N, F), S).
push(1), push(2), pop(X), push(3), pop(Y), pop(Z), \+ pop(_).
assertz(( often(W) :- counter(W, N), N > 1 )).
often(W).
counter(W, N), retractall(counter(_, _)).
often(W).
clause(often(W), B).
abolish(often/1).
often(W).
assertz(word(is)).
