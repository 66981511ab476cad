% Counters: facts that goals change.
:- dynamic counter/2.

% A counter of this name begins at 0.
begin(C) :- retractall(counter(C, _)), assertz(counter(C, 0)).

% The counter goes up by one; N is what it was.
next(C, N) :- retract(counter(C, N)), ! , M is N + 1, assertz(counter(C, M)).

% Words, and how often each of them is there.
word(to). word(be). word(or). word(not). word(to). word(be).

tally :- word(W), tally(W), fail.
tally.

tally(W) :- next(W, _), ! .
tally(W) :- assertz(counter(W, 1)).

% How many solutions a goal has.
solutions(G, _) :- begin(solutions), call(G), next(solutions, _), fail.
solutions(_, N) :- retract(counter(solutions, N)), ! .

% Fibonacci numbers, each of which is found once and kept.
:- dynamic known/2.
fibonacci(N, F) :- known(N, F), ! .
fibonacci(N, N) :- N < 2, ! .
fibonacci(N, F) :- M is N - 1, K is N - 2, fibonacci(M, A), fibonacci(K, B), F is A + B, asserta(known(N, F)).

% A stack.
:- dynamic stacked/1.
push(X) :- asserta(stacked(X)).
pop(X) :- retract(stacked(X)), ! .
