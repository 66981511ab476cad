% Fibonacci numbers, each the sum of the two before it.
fibonacci(0, 0) :- ! .
fibonacci(1, 1) :- ! .
fibonacci(N, F) :- M is N - 1, K is N - 2, fibonacci(M, A), fibonacci(K, B), F is A + B.

% Factorials. That of 33 is the greatest that an integer of 128 bits can be.
factorial(0, 1) :- ! .
factorial(N, F) :- N > 0, M is N - 1, factorial(M, G), F is N * G.

% The greatest common divisor of two numbers.
divisor(X, 0, D) :- !, D = X.
divisor(X, Y, D) :- Z is X mod Y, divisor(Y, Z, D).

% The numbers from one to another, each a solution.
between(L, H, L) :- L =< H.
between(L, H, X) :- L < H, M is L + 1, between(M, H, X).

% A prime has no divisor between 1 and itself.
prime(N) :- N > 1, M is N - 1, \+ ( between(2, M, D), N mod D =:= 0 ).

% The value of an expression, or why it has none.
value(E, V) :- catch(V is E, error(V, _), true).
